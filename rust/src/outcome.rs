//! How a reduction ends.

use crate::Term;

/// How a reduction ended, if it was not refused.
///
/// ```
/// use copperjangle::*;
///
/// let term = parse(r"(\11)(\1)", DeBruijn)?;
/// let identity = abs(Var(1));
/// match term.reduce(NOR, Limit::new(1).unwrap())? {
///     Outcome::Finished { .. } => unreachable!("one step is not enough"),
///     Outcome::Unfinished { term, steps } => {
///         assert_eq!((term, steps), (app(identity.clone(), identity.clone()), 1));
///     }
/// }
///
/// // Two steps are enough, though they use up the limit.
/// let outcome = term.reduce(NOR, Limit::new(2).unwrap())?;
/// assert_eq!(outcome, Outcome::Finished { term: identity, steps: 2 });
/// # Ok::<(), Refusal>(())
/// ```
#[derive(Clone, PartialEq, Eq, Hash, Debug)]
#[must_use = "a reduction leaves its term as it is, and hands back another"]
pub enum Outcome {
    /// No step is left.
    Finished {
        /// The term reached.
        term: Term,
        /// The steps taken.
        steps: usize,
    },
    /// As many steps as the limit allows were taken, and one is left.
    Unfinished {
        /// The term reached.
        term: Term,
        /// The steps taken.
        steps: usize,
    },
}

impl Outcome {
    /// Whether no step is left.
    ///
    /// ```
    /// use copperjangle::*;
    ///
    /// assert!(Var(1).eta(0).is_finished());
    /// ```
    pub const fn is_finished(&self) -> bool {
        matches!(self, Outcome::Finished { .. })
    }

    /// The steps taken.
    ///
    /// ```
    /// use copperjangle::*;
    ///
    /// assert_eq!(parse(r"\\\4321", DeBruijn)?.eta(2).steps(), 2);
    /// # Ok::<(), Refusal>(())
    /// ```
    pub const fn steps(&self) -> usize {
        match self {
            Outcome::Finished { steps, .. } | Outcome::Unfinished { steps, .. } => *steps,
        }
    }

    /// The term reached, finished or not.
    ///
    /// ```
    /// use copperjangle::*;
    ///
    /// assert_eq!(*parse(r"\21", DeBruijn)?.eta(0).term(), Var(1));
    /// # Ok::<(), Refusal>(())
    /// ```
    pub const fn term(&self) -> &Term {
        match self {
            Outcome::Finished { term, .. } | Outcome::Unfinished { term, .. } => term,
        }
    }

    /// The term reached, finished or not, without a copy.
    ///
    /// ```
    /// use copperjangle::*;
    ///
    /// assert_eq!(parse(r"\21", DeBruijn)?.eta(0).into_term(), Var(1));
    /// # Ok::<(), Refusal>(())
    /// ```
    pub fn into_term(self) -> Term {
        match self {
            Outcome::Finished { term, .. } | Outcome::Unfinished { term, .. } => term,
        }
    }

    /// The term reached, if no step is left.
    ///
    /// ```
    /// use copperjangle::*;
    ///
    /// let term = parse(r"\\\4321", DeBruijn)?;
    /// assert_eq!(term.eta(0).finished(), Some(Var(1)));
    /// assert_eq!(term.eta(2).finished(), None);
    /// # Ok::<(), Refusal>(())
    /// ```
    pub fn finished(self) -> Option<Term> {
        match self {
            Outcome::Finished { term, .. } => Some(term),
            Outcome::Unfinished { .. } => None,
        }
    }
}
