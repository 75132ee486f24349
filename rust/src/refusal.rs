//! The thirteen refusals.

use crate::ffi::Answer;
use std::error::Error;

/// Why something was not done. Nothing else has happened then.
///
/// The numbers are those that the program and the C interface give, too. Displayed, a refusal is a
/// sentence for a tutor: what went wrong, where, and what to do.
///
/// ```
/// use copperjangle::{parse, DeBruijn, Refusal};
///
/// let refusal = parse("[]", DeBruijn).unwrap_err();
/// assert_eq!(refusal, Refusal::InvalidCharacter { place: 1, character: ']' });
/// assert_eq!((refusal.number(), refusal.place()), (5, Some(1)));
/// assert!(refusal.to_string().starts_with(
///     "the text has a character that cannot stand there: `]` at character 1, counted from 0"
/// ));
/// ```
#[derive(Clone, Copy, PartialEq, Eq, Hash, Debug)]
#[non_exhaustive]
pub enum Refusal {
    /// 1: a limit, a cap or an order that there is not.
    OutsideBounds,
    /// 2: work room or output too short for the cap. This crate always lends enough.
    TooLittleRoom,
    /// 3: a text of more than 2,097,152 bytes.
    TextTooLong,
    /// 4: a character that no text may have.
    OutsideDomain {
        /// Where it begins in the text, in bytes.
        offset: usize,
        /// How many characters stand before it.
        place: usize,
        /// The character.
        character: char,
    },
    /// 5: a character that may not stand where it does.
    InvalidCharacter {
        /// How many characters stand before it.
        place: usize,
        /// The character.
        character: char,
    },
    /// 6: a name that no binder binds.
    UndefinedFreeVariable,
    /// 7: a text that nests, or a term that is high, more than 512.
    TooHigh {
        /// Of a reduction: the steps completed before.
        steps: Option<usize>,
    },
    /// 8: nothing at the start of a text, after a binder or after a parenthesis.
    EmptyExpression,
    /// 9: a term of more nodes than the cap.
    TooManyNodes {
        /// Of a reduction: the steps completed before.
        steps: Option<usize>,
    },
    /// 10: bytes that are not one whole term.
    NotATerm {
        /// Where they go wrong, in bytes.
        offset: usize,
    },
    /// 11: a term that is applied and is no abstraction.
    NotAbs,
    /// 12: an index that would be above 2^64 − 1.
    IndexTooGreat {
        /// Of a reduction: the steps completed before.
        steps: Option<usize>,
    },
    /// 13: an output shorter than the text to be written. This crate always lends enough.
    OutputTooShort {
        /// The bytes that the text needs.
        needed: usize,
    },
}

impl Refusal {
    /// The number, 1 to 13.
    ///
    /// ```
    /// assert_eq!(copperjangle::Refusal::EmptyExpression.number(), 8);
    /// ```
    pub const fn number(&self) -> u8 {
        match self {
            Refusal::OutsideBounds => 1,
            Refusal::TooLittleRoom => 2,
            Refusal::TextTooLong => 3,
            Refusal::OutsideDomain { .. } => 4,
            Refusal::InvalidCharacter { .. } => 5,
            Refusal::UndefinedFreeVariable => 6,
            Refusal::TooHigh { .. } => 7,
            Refusal::EmptyExpression => 8,
            Refusal::TooManyNodes { .. } => 9,
            Refusal::NotATerm { .. } => 10,
            Refusal::NotAbs => 11,
            Refusal::IndexTooGreat { .. } => 12,
            Refusal::OutputTooShort { .. } => 13,
        }
    }

    /// Where in the text it is, in characters: after 4 and 5.
    ///
    /// ```
    /// use copperjangle::{parse, Classic};
    ///
    /// let text = "λλ.λä.ä";
    /// let place = parse(text, Classic).unwrap_err().place().unwrap();
    /// assert_eq!(text.chars().nth(place), Some('ä'));
    /// ```
    pub const fn place(&self) -> Option<usize> {
        match self {
            Refusal::OutsideDomain { place, .. } | Refusal::InvalidCharacter { place, .. } => {
                Some(*place)
            }
            _ => None,
        }
    }

    /// Where in the text or the coded term it is, in bytes: after 4 and 10.
    ///
    /// ```
    /// use copperjangle::Term;
    ///
    /// // An abstraction, and nothing where its body should be.
    /// assert_eq!(Term::from_bytes([2]).unwrap_err().offset(), Some(1));
    /// ```
    pub const fn offset(&self) -> Option<usize> {
        match self {
            Refusal::OutsideDomain { offset, .. } | Refusal::NotATerm { offset } => Some(*offset),
            _ => None,
        }
    }

    /// The steps completed before a reduction was refused: after its 7, 9 and 12.
    ///
    /// ```
    /// use copperjangle::{parse, DeBruijn, Limit, Refusal, NOR};
    ///
    /// let term = parse(r"(\1) ((\\2)[FFFFFFFFFFFFFFFF])", DeBruijn)?;
    /// let refusal = term.reduce(NOR, Limit::MAX).unwrap_err();
    /// assert_eq!((refusal.number(), refusal.steps()), (12, Some(1)));
    /// # Ok::<(), Refusal>(())
    /// ```
    pub const fn steps(&self) -> Option<usize> {
        match self {
            Refusal::TooHigh { steps }
            | Refusal::TooManyNodes { steps }
            | Refusal::IndexTooGreat { steps } => *steps,
            _ => None,
        }
    }

    /// What an answer's number and places say: of a text, and of a reduction after so many steps.
    pub(crate) fn told(answer: &Answer, text: &str, steps: Option<usize>) -> Refusal {
        let place = answer.place as usize;
        match answer.refusal {
            1 => Refusal::OutsideBounds,
            2 => Refusal::TooLittleRoom,
            3 => Refusal::TextTooLong,
            4 => outside_domain(text, place),
            5 => Refusal::InvalidCharacter {
                place,
                character: u32::try_from(answer.code)
                    .ok()
                    .and_then(char::from_u32)
                    .unwrap_or(char::REPLACEMENT_CHARACTER),
            },
            6 => Refusal::UndefinedFreeVariable,
            7 => Refusal::TooHigh { steps },
            8 => Refusal::EmptyExpression,
            9 => Refusal::TooManyNodes { steps },
            10 => Refusal::NotATerm { offset: place },
            11 => Refusal::NotAbs,
            12 => Refusal::IndexTooGreat { steps },
            13 => Refusal::OutputTooShort {
                needed: answer.value as usize,
            },
            other => {
                panic!("libcopperjangle.a gives refusal {other}, which this crate does not know")
            }
        }
    }
}

/// Refusal 4 of a text: its first byte outside the domain begins a character.
fn outside_domain(text: &str, offset: usize) -> Refusal {
    let (before, from) = text.split_at(offset);
    Refusal::OutsideDomain {
        offset,
        place: before.chars().count(),
        character: from.chars().next().unwrap_or(char::REPLACEMENT_CHARACTER),
    }
}

impl Error for Refusal {}
