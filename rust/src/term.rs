//! Terms as coded bytes, and what can be asked of one.

use crate::ffi::{self, Answer};
use crate::Refusal;

/// The byte before a variable's index.
pub(crate) const VARIABLE: u8 = 1;
/// The byte before an abstraction's body.
pub(crate) const ABSTRACTION: u8 = 2;
/// The byte before an application's two parts.
pub(crate) const APPLICATION: u8 = 3;

/// A term: a variable, an abstraction or an application.
///
/// A variable is known by its De Bruijn index: 1 is the innermost abstraction around it, and an
/// index above all of them is free. Index 0 is bound by nothing, and is displayed as `undefined`.
///
/// Every `Term` is within the bounds: it has at most 65,536 nodes and a height of at most 512. One
/// comes from a text ([`parse`](crate::parse)), from its parts ([`Var`](crate::Var()),
/// [`abs`](crate::abs()), [`app`](crate::app())), or from bytes ([`Term::from_bytes`]). It cannot
/// be changed; what is done with it makes another.
///
/// Two terms are equal if they are the same but for the names of their variables. Displayed, a term
/// is in classic notation; `{:?}` shows it in De Bruijn's.
///
/// ```
/// use copperjangle::*;
///
/// let term = parse("λx.λy.y x", Classic)?;
/// assert_eq!(term, abs(abs(app(Var(1), Var(2)))));
/// assert_eq!(format!("{term} and {term:?}"), "λa.λb.b a and λλ12");
/// # Ok::<(), Refusal>(())
/// ```
#[derive(Clone, PartialEq, Eq, Hash)]
#[must_use]
pub struct Term {
    // No two terms have the same bytes, so that bytes may be compared and hashed.
    code: Vec<u8>,
}

impl Term {
    /// The term that bytes code, or refusal 10, 7 or 9.
    ///
    /// The bytes are those of the C interface: 1 and eight bytes of index, low byte first; or 2 and
    /// the body; or 3 and two parts.
    ///
    /// ```
    /// use copperjangle::*;
    ///
    /// let identity = Term::from_bytes([2, 1, 1, 0, 0, 0, 0, 0, 0, 0])?;
    /// assert_eq!(identity, abs(Var(1)));
    /// assert_eq!(Term::from_bytes([2, 4]), Err(Refusal::NotATerm { offset: 1 }));
    /// # Ok::<(), Refusal>(())
    /// ```
    pub fn from_bytes(bytes: impl Into<Vec<u8>>) -> Result<Term, Refusal> {
        let code = bytes.into();
        // A query judges its input before it answers.
        let answer = ffi::nodes(&code);
        if answer.refusal == 0 {
            Ok(Term { code })
        } else {
            Err(Refusal::told(&answer, "", None))
        }
    }

    /// Bytes that are known to code a whole term within the bounds.
    pub(crate) fn from_whole(code: &[u8]) -> Term {
        Term {
            code: code.to_vec(),
        }
    }

    /// The bytes that code it.
    ///
    /// ```
    /// use copperjangle::*;
    ///
    /// assert_eq!(abs(Var(1)).as_bytes(), [2, 1, 1, 0, 0, 0, 0, 0, 0, 0]);
    /// ```
    pub fn as_bytes(&self) -> &[u8] {
        &self.code
    }

    /// The bytes that code it, without a copy.
    ///
    /// ```
    /// use copperjangle::*;
    ///
    /// let term = abs(Var(1));
    /// assert_eq!(Term::from_bytes(term.clone().into_bytes()), Ok(term));
    /// ```
    pub fn into_bytes(self) -> Vec<u8> {
        self.code
    }

    /// The number of its nodes: variables, abstractions and applications.
    ///
    /// ```
    /// use copperjangle::*;
    ///
    /// assert_eq!(abs(app(Var(1), Var(1))).nodes(), 4);
    /// ```
    pub fn nodes(&self) -> usize {
        self.ask(ffi::nodes)
    }

    /// Its height: 1 for a variable, else one more than that of its taller part.
    ///
    /// ```
    /// use copperjangle::*;
    ///
    /// assert_eq!(abs(app(Var(1), Var(1))).height(), 3);
    /// ```
    pub fn height(&self) -> usize {
        self.ask(ffi::height)
    }

    /// The most abstractions on a path from its root.
    ///
    /// ```
    /// use copperjangle::*;
    ///
    /// assert_eq!(abs(Var(1)).max_depth(), 1);
    /// ```
    pub fn max_depth(&self) -> u32 {
        // At most 511, since the height is at most 512.
        self.ask(ffi::max_depth) as u32
    }

    /// The greatest number of a free variable, where 1 is the first beyond all abstractions; or 0.
    ///
    /// ```
    /// use copperjangle::*;
    ///
    /// assert_eq!(abs(Var(3)).max_free_index(), 2);
    /// assert_eq!(abs(Var(1)).max_free_index(), 0);
    /// ```
    pub fn max_free_index(&self) -> usize {
        self.ask(ffi::max_free_index)
    }

    /// Whether some index in it is free or 0.
    ///
    /// ```
    /// use copperjangle::*;
    ///
    /// assert!(abs(Var(2)).has_free_variables());
    /// assert!(!abs(Var(1)).has_free_variables());
    /// ```
    pub fn has_free_variables(&self) -> bool {
        self.ask(ffi::has_free_variables) == 1
    }

    /// Whether no index in it is free or 0.
    ///
    /// ```
    /// use copperjangle::*;
    ///
    /// assert!(abs(app(Var(1), abs(Var(1)))).is_supercombinator());
    /// assert!(!app(abs(Var(2)), abs(Var(1))).is_supercombinator());
    /// ```
    pub fn is_supercombinator(&self) -> bool {
        self.ask(ffi::is_supercombinator) == 1
    }

    /// Whether both are the same term, which `==` tells, too.
    ///
    /// ```
    /// use copperjangle::*;
    ///
    /// assert!(abs(Var(1)).is_isomorphic_to(&parse("λx.x", Classic)?));
    /// assert!(!abs(Var(1)).is_isomorphic_to(&abs(Var(2))));
    /// # Ok::<(), Refusal>(())
    /// ```
    pub fn is_isomorphic_to(&self, other: &Term) -> bool {
        ffi::equality(&self.code, &other.code).value == 1
    }

    /// The answer to a query, which refuses no term within the bounds.
    fn ask(&self, query: fn(&[u8]) -> Answer) -> usize {
        let answer = query(&self.code);
        debug_assert_eq!(answer.refusal, 0);
        answer.value as usize
    }
}
