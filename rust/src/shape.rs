//! A term taken apart.

use crate::term::{ABSTRACTION, VARIABLE};
use crate::Term;
use std::error::Error;
use std::fmt;

/// What a term is at its root, to be matched on.
///
/// ```
/// use copperjangle::*;
///
/// assert_eq!(app(Var(1), Var(2)).shape(), Shape::App(Var(1), Var(2)));
/// ```
#[derive(Clone, PartialEq, Eq, Hash, Debug)]
pub enum Shape {
    /// A variable with its index.
    Var(usize),
    /// An abstraction with its body.
    Abs(Term),
    /// An application with its two parts.
    App(Term, Term),
}

/// A term is not of the shape that an accessor asks for.
///
/// ```
/// use copperjangle::*;
///
/// assert_eq!(Var(1).unabs(), Err(TermError::NotAbs));
/// assert_eq!(TermError::NotAbs.to_string(), "the term is not an abstraction");
/// ```
#[derive(Clone, Copy, PartialEq, Eq, Hash, Debug)]
pub enum TermError {
    /// The term is not a variable.
    NotVar,
    /// The term is not an abstraction.
    NotAbs,
    /// The term is not an application.
    NotApp,
}

impl fmt::Display for TermError {
    fn fmt(&self, f: &mut fmt::Formatter) -> fmt::Result {
        f.write_str(match self {
            TermError::NotVar => "the term is not a variable",
            TermError::NotAbs => "the term is not an abstraction",
            TermError::NotApp => "the term is not an application",
        })
    }
}

impl Error for TermError {}

impl Term {
    /// What it is at its root, with copies of its parts.
    ///
    /// ```
    /// use copperjangle::*;
    ///
    /// fn lambdas(term: &Term) -> usize {
    ///     match term.shape() {
    ///         Shape::Var(_) => 0,
    ///         Shape::Abs(body) => 1 + lambdas(&body),
    ///         Shape::App(lhs, rhs) => lambdas(&lhs) + lambdas(&rhs),
    ///     }
    /// }
    /// assert_eq!(lambdas(&parse(r"(\\2)(\1)", DeBruijn)?), 3);
    /// # Ok::<(), Refusal>(())
    /// ```
    pub fn shape(&self) -> Shape {
        let (kind, parts) = (self.as_bytes()[0], &self.as_bytes()[1..]);
        match kind {
            VARIABLE => Shape::Var(index_of(parts)),
            ABSTRACTION => Shape::Abs(Term::from_whole(parts)),
            _ => {
                let (left, right) = parts.split_at(first_length(parts));
                Shape::App(Term::from_whole(left), Term::from_whole(right))
            }
        }
    }

    /// A variable's index, or [`TermError::NotVar`].
    ///
    /// ```
    /// use copperjangle::*;
    ///
    /// assert_eq!(Var(1).unvar(), Ok(1));
    /// ```
    pub fn unvar(&self) -> Result<usize, TermError> {
        match self.shape() {
            Shape::Var(index) => Ok(index),
            _ => Err(TermError::NotVar),
        }
    }

    /// An abstraction's body, or [`TermError::NotAbs`].
    ///
    /// ```
    /// use copperjangle::*;
    ///
    /// assert_eq!(abs(Var(1)).unabs(), Ok(Var(1)));
    /// ```
    pub fn unabs(&self) -> Result<Term, TermError> {
        match self.shape() {
            Shape::Abs(body) => Ok(body),
            _ => Err(TermError::NotAbs),
        }
    }

    /// An application's two parts, or [`TermError::NotApp`].
    ///
    /// ```
    /// use copperjangle::*;
    ///
    /// assert_eq!(app(Var(1), Var(2)).unapp(), Ok((Var(1), Var(2))));
    /// ```
    pub fn unapp(&self) -> Result<(Term, Term), TermError> {
        match self.shape() {
            Shape::App(lhs, rhs) => Ok((lhs, rhs)),
            _ => Err(TermError::NotApp),
        }
    }

    /// An application's left part, or [`TermError::NotApp`].
    ///
    /// ```
    /// use copperjangle::*;
    ///
    /// assert_eq!(app(Var(1), Var(2)).lhs(), Ok(Var(1)));
    /// ```
    pub fn lhs(&self) -> Result<Term, TermError> {
        self.unapp().map(|(lhs, _)| lhs)
    }

    /// An application's right part, or [`TermError::NotApp`].
    ///
    /// ```
    /// use copperjangle::*;
    ///
    /// assert_eq!(app(Var(1), Var(2)).rhs(), Ok(Var(2)));
    /// ```
    pub fn rhs(&self) -> Result<Term, TermError> {
        self.unapp().map(|(_, rhs)| rhs)
    }
}

/// The index in a variable's eight bytes, low byte first.
fn index_of(bytes: &[u8]) -> usize {
    bytes
        .iter()
        .rev()
        .fold(0, |index, &byte| index << 8 | usize::from(byte))
}

/// The length of the whole term with which bytes begin.
fn first_length(bytes: &[u8]) -> usize {
    let (mut length, mut owed) = (0, 1);
    while owed > 0 {
        match bytes[length] {
            VARIABLE => {
                length += 9;
                owed -= 1;
            }
            ABSTRACTION => length += 1,
            _ => {
                length += 1;
                owed += 1;
            }
        }
    }
    length
}
