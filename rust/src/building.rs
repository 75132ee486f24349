//! Terms made from their parts, in the words of `lambda_calculus`.

use crate::term::{ABSTRACTION, APPLICATION, VARIABLE};
use crate::{Refusal, Term};

/// A variable with a De Bruijn index; 0 is `undefined`.
///
/// ```
/// use copperjangle::*;
///
/// assert_eq!(Var(1), parse("1", DeBruijn)?);
/// assert_eq!(Var(0).to_string(), "undefined");
/// # Ok::<(), Refusal>(())
/// ```
#[allow(non_snake_case)]
pub fn Var(index: usize) -> Term {
    let mut code = vec![VARIABLE];
    code.extend((index as u64).to_le_bytes());
    Term::from_whole(&code)
}

/// An abstraction over a body.
///
/// ```
/// use copperjangle::*;
///
/// assert_eq!(abs(Var(1)), parse("λx.x", Classic)?);
/// # Ok::<(), Refusal>(())
/// ```
///
/// # Panics
///
/// If the abstraction breaks a bound of terms, as [`try_abs`] tells. Where terms come from outside,
/// call that.
pub fn abs(body: Term) -> Term {
    try_abs(body).unwrap_or_else(|refusal| panic!("{refusal}"))
}

/// An application of one term to another. Nothing is reduced.
///
/// ```
/// use copperjangle::*;
///
/// assert_eq!(app(Var(1), Var(2)), parse("12", DeBruijn)?);
/// # Ok::<(), Refusal>(())
/// ```
///
/// # Panics
///
/// If the application breaks a bound of terms, as [`try_app`] tells. Where terms come from outside,
/// call that.
pub fn app(lhs: Term, rhs: Term) -> Term {
    try_app(lhs, rhs).unwrap_or_else(|refusal| panic!("{refusal}"))
}

/// An abstraction over a body, unless it has more than 65,536 nodes or a height of more than 512.
///
/// ```
/// use copperjangle::*;
///
/// let highest = abs!(511, Var(1));
/// assert_eq!(try_abs(highest), Err(Refusal::TooHigh { steps: None }));
/// ```
///
/// # Errors
///
/// Refusal 7 or 9.
pub fn try_abs(body: Term) -> Result<Term, Refusal> {
    let mut code = body.into_bytes();
    code.insert(0, ABSTRACTION);
    Term::from_bytes(code)
}

/// An application of one term to another, unless it has more than 65,536 nodes or a height of more
/// than 512.
///
/// ```
/// use copperjangle::*;
///
/// let mut term = Var(1);
/// for _ in 0..15 {
///     term = app(term.clone(), term);
/// }
/// assert_eq!(term.nodes(), 65_535);
/// assert_eq!(try_app(term.clone(), term), Err(Refusal::TooManyNodes { steps: None }));
/// ```
///
/// # Errors
///
/// Refusal 7 or 9.
pub fn try_app(lhs: Term, rhs: Term) -> Result<Term, Refusal> {
    let mut code = lhs.into_bytes();
    code.insert(0, APPLICATION);
    code.extend(rhs.into_bytes());
    Term::from_bytes(code)
}

/// Applies a term to others, one after another, by [`app`](crate::app()).
///
/// ```
/// use copperjangle::*;
///
/// assert_eq!(app!(Var(1), Var(2), Var(3)), app(app(Var(1), Var(2)), Var(3)));
/// ```
#[macro_export]
macro_rules! app {
    ($first:expr, $($next:expr),+ $(,)?) => {{
        let mut term = $first;
        $(term = $crate::app(term, $next);)+
        term
    }};
}

/// Puts a number of abstractions around a term, by [`abs`](crate::abs()).
///
/// ```
/// use copperjangle::*;
///
/// assert_eq!(abs!(3, Var(1)), abs(abs(abs(Var(1)))));
/// ```
#[macro_export]
macro_rules! abs {
    ($number:expr, $body:expr) => {{
        let mut term = $body;
        for _ in 0..$number {
            term = $crate::abs(term);
        }
        term
    }};
}
