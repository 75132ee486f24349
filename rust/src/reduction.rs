//! Terms applied and reduced.

use crate::workspace::with_own;
use crate::{Limit, Order, Outcome, Refusal, Term};
use std::borrow::Borrow;

impl Term {
    /// The body of this abstraction, with the argument put in for its variable. That is one
    /// contraction, at the root of `self` applied to `argument`.
    ///
    /// ```
    /// use copperjangle::*;
    ///
    /// let abstraction = parse(r"\\42(\13)", DeBruijn)?;
    /// let argument = parse(r"\51", DeBruijn)?;
    /// assert_eq!(abstraction.apply(&argument)?, parse(r"\3(\61)(\1(\71))", DeBruijn)?);
    /// # Ok::<(), Refusal>(())
    /// ```
    ///
    /// # Errors
    ///
    /// Refusal 11 if this is no abstraction, or 12, 7 or 9 of the result.
    pub fn apply(&self, argument: &Term) -> Result<Term, Refusal> {
        with_own(|workspace| workspace.apply(self, argument))
    }

    /// The term after as many steps of the order as there are, or as the limit allows.
    ///
    /// ```
    /// use copperjangle::*;
    ///
    /// let term = parse("(λa.λb.λc.b (a b c)) (λa.λb.b)", Classic)?;
    /// let outcome = term.reduce(NOR, Limit::MAX)?;
    /// assert!(outcome.is_finished());
    /// assert_eq!(outcome.term().to_string(), "λa.λb.a b");
    /// # Ok::<(), Refusal>(())
    /// ```
    ///
    /// # Errors
    ///
    /// Refusal 12, 7 or 9, with the steps completed, if the next term would break a bound.
    pub fn reduce(&self, order: Order, limit: Limit) -> Result<Outcome, Refusal> {
        with_own(|workspace| workspace.reduce(self, order, limit))
    }

    /// The term after as many eta steps as there are, or as the limit allows; 0 means no limit,
    /// since each step makes the term smaller.
    ///
    /// A step takes `λx.M x` to `M`, if neither `x` nor index 0 is in `M`.
    ///
    /// ```
    /// use copperjangle::*;
    ///
    /// let term = parse("λa.λb.a b", Classic)?;
    /// assert_eq!(term.eta(0), Outcome::Finished { term: parse("λa.a", Classic)?, steps: 1 });
    /// # Ok::<(), Refusal>(())
    /// ```
    pub fn eta(&self, limit: usize) -> Outcome {
        with_own(|workspace| workspace.eta(self, limit))
            .expect("eta refuses no term within the bounds")
    }
}

/// As [`Term::reduce`], in the form that `lambda_calculus` has, too.
///
/// ```
/// use copperjangle::*;
///
/// let skk = parse(r"(\\\31(21))(\\2)(\\2)", DeBruijn)?;
/// assert_eq!(beta(skk, NOR, Limit::MAX)?.into_term(), abs(Var(1)));
/// # Ok::<(), Refusal>(())
/// ```
///
/// # Errors
///
/// Those of [`Term::reduce`].
pub fn beta(term: impl Borrow<Term>, order: Order, limit: Limit) -> Result<Outcome, Refusal> {
    term.borrow().reduce(order, limit)
}

/// As [`Term::eta`], in the form that `lambda_calculus` has, too.
///
/// ```
/// use copperjangle::*;
///
/// assert_eq!(eta(parse("λa.λb.a b", Classic)?, 0).into_term(), abs(Var(1)));
/// # Ok::<(), Refusal>(())
/// ```
pub fn eta(term: impl Borrow<Term>, limit: usize) -> Outcome {
    term.borrow().eta(limit)
}
