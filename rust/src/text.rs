//! Terms as text, read and written.

use crate::workspace::with_own;
use crate::{ffi, Notation, Refusal, Term};
use std::fmt;

/// A text has at most so many bytes for each node of its term.
const TEXT_PER_NODE: usize = 20;

/// The term that a text says, in the given notation.
///
/// A lambda is `λ` or a backslash. White space may stand between any two words, and parts of an
/// application associate to the left. Read are ASCII texts with `λ`, of at most 2,097,152 bytes.
///
/// - [`Classic`](Notation::Classic): names begin with a letter; a binder ends with a dot.
/// - [`DeBruijn`](Notation::DeBruijn): an index is one hexadecimal digit, or stands in brackets.
///
/// ```
/// use copperjangle::*;
///
/// let y = parse(r"\(\2(11))(\2(11))", DeBruijn)?;
/// assert_eq!(parse("λf.(λx.f (x x)) (λx.f (x x))", Classic)?, y);
///
/// // `10` is two indices, `[10]` is one.
/// assert_eq!(parse("10", DeBruijn)?, app(Var(1), Var(0)));
/// assert_eq!(parse("[10]", DeBruijn)?, Var(16));
/// # Ok::<(), Refusal>(())
/// ```
///
/// # Errors
///
/// The refusals 3 to 9. [`Workspace::parse`](crate::Workspace::parse) takes a smaller cap.
pub fn parse(text: &str, notation: Notation) -> Result<Term, Refusal> {
    with_own(|workspace| workspace.parse(text, notation))
}

impl Term {
    /// Its text in the given notation.
    ///
    /// De Bruijn's reads back as the same term. Classic text does if the term has no free variable
    /// and no index 0: the names of its variables are made up from `a` on.
    ///
    /// ```
    /// use copperjangle::*;
    ///
    /// let term = parse("λx.λy.x", Classic)?;
    /// assert_eq!(term.text(Classic), "λa.λb.a");
    /// assert_eq!(term.text(DeBruijn), "λλ2");
    /// # Ok::<(), Refusal>(())
    /// ```
    pub fn text(&self, notation: Notation) -> String {
        let mut out = vec![0; TEXT_PER_NODE * self.nodes()];
        let answer = ffi::print(notation, self.as_bytes(), &mut out);
        debug_assert_eq!(answer.refusal, 0);
        out.truncate(answer.value as usize);
        out.shrink_to_fit();
        String::from_utf8(out).expect("a printed text is ASCII with lambda signs")
    }
}

/// Its classic text.
///
/// ```
/// use copperjangle::*;
///
/// let s = parse(r"\\\31(21)", DeBruijn)?;
/// assert_eq!(s.to_string(), "λa.λb.λc.a c (b c)");
/// assert_eq!(abs(Var(3)).to_string(), "λa.c");
/// # Ok::<(), Refusal>(())
/// ```
impl fmt::Display for Term {
    fn fmt(&self, f: &mut fmt::Formatter) -> fmt::Result {
        f.write_str(&self.text(Notation::Classic))
    }
}

/// Its text in De Bruijn's notation.
///
/// ```
/// use copperjangle::*;
///
/// assert_eq!(format!("{:?}", abs(app(Var(16), Var(0)))), "λ[10][0]");
/// ```
impl fmt::Debug for Term {
    fn fmt(&self, f: &mut fmt::Formatter) -> fmt::Result {
        f.write_str(&self.text(Notation::DeBruijn))
    }
}
