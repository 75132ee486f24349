//! What a refusal says to a tutor: what went wrong, where, and what to do.

use crate::Refusal;
use std::fmt;

/// What went wrong, where, and what to do.
///
/// ```
/// assert_eq!(
///     copperjangle::Refusal::TextTooLong.to_string(),
///     "the text is longer than 2,097,152 bytes; hand in a shorter one"
/// );
/// ```
impl fmt::Display for Refusal {
    fn fmt(&self, f: &mut fmt::Formatter) -> fmt::Result {
        write!(f, "{}; {}", wrong(self), advice(self))?;
        match self.steps() {
            Some(steps @ 1..) => write!(f, ", or the limit {steps} to see the term reached"),
            _ => Ok(()),
        }
    }
}

/// What went wrong, and where.
fn wrong(refusal: &Refusal) -> String {
    let term = subject(refusal.steps());
    match *refusal {
        Refusal::OutsideBounds => "there is no such limit, cap or order".into(),
        Refusal::TooLittleRoom => "the work room or the output is too short for the cap".into(),
        Refusal::TextTooLong => "the text is longer than 2,097,152 bytes".into(),
        Refusal::OutsideDomain {
            place, character, ..
        } => {
            let (code, there) = (u32::from(character), at(character, place));
            format!("the text has a character that is not read, U+{code:04X}: {there}")
        }
        Refusal::InvalidCharacter { place, character } => {
            let there = at(character, place);
            format!("the text has a character that cannot stand there: {there}")
        }
        Refusal::UndefinedFreeVariable => "the text has a name that no binder binds".into(),
        Refusal::TooHigh { .. } => format!("{term} is nested more than 512 deep"),
        Refusal::EmptyExpression => {
            "the text has no term at its start, after a binder or after a parenthesis".into()
        }
        Refusal::TooManyNodes { .. } => format!("{term} has more nodes than the cap"),
        Refusal::NotATerm { offset } => {
            format!("the bytes are not one whole term: they go wrong at offset {offset}")
        }
        Refusal::NotAbs => "the term that is applied is not an abstraction".into(),
        Refusal::IndexTooGreat { .. } => format!("{term} has an index above 2^64 - 1"),
        Refusal::OutputTooShort { needed } => format!("the text needs {needed} bytes of output"),
    }
}

/// Which term breaks a bound.
fn subject(steps: Option<usize>) -> String {
    match steps {
        None => "the term".into(),
        Some(0) => "at the first step the term".into(),
        Some(1) => "after 1 step the next term".into(),
        Some(steps) => format!("after {steps} steps the next term"),
    }
}

/// The character, as it is if it can be seen, and its place.
fn at(character: char, place: usize) -> String {
    let shown = match character {
        '\\' | '\'' | '"' => character.to_string(),
        _ => character.escape_debug().to_string(),
    };
    format!("`{shown}` at character {place}, counted from 0")
}

/// What to do.
fn advice(refusal: &Refusal) -> &'static str {
    let reducing = refusal.steps().is_some();
    match refusal {
        Refusal::OutsideBounds => {
            "a limit is 1 to 1,000,000, a cap 1 to 65,536, \
             an order NOR, CBN, HSP, HNO, APP, CBV or HAP"
        }
        Refusal::TooLittleRoom => "lend 8 numbers and 9 bytes for each of its nodes",
        Refusal::TextTooLong => "hand in a shorter one",
        Refusal::OutsideDomain { .. } => {
            "use the letters a to z and A to Z, digits, and the lambda sign or a backslash"
        }
        Refusal::InvalidCharacter { .. } => {
            "correct the text there, or read it in the other notation"
        }
        Refusal::UndefinedFreeVariable => {
            "bind it, as in `λx.x`, or correct its spelling (capitals count)"
        }
        Refusal::TooHigh { .. } if reducing => "take another order",
        Refusal::TooHigh { .. } => "use fewer parentheses, binders or arguments",
        Refusal::EmptyExpression => "write one there, or take the binder or parenthesis away",
        Refusal::TooManyNodes { .. } if reducing => "take another order or a greater cap",
        Refusal::TooManyNodes { .. } => "make it smaller, or take a greater cap (65,536 at most)",
        Refusal::NotATerm { .. } => "send the bytes of a term whole and unchanged",
        Refusal::NotAbs => "apply one that begins with a lambda",
        Refusal::IndexTooGreat { .. } => "use smaller indices for free variables",
        Refusal::OutputTooShort { .. } => "lend as many",
    }
}
