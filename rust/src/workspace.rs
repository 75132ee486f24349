//! The memory that calls work in.

use crate::ffi::{self, Answer, Lent};
use crate::{Cap, Limit, Notation, Order, Outcome, Refusal, Term};
use std::cell::RefCell;
use std::fmt;

const OUTPUT_PER_NODE: usize = 9;
const ROOM_PER_NODE: usize = 8;
/// The nodes for which a reduction is lent room at first.
const NODES_AT_FIRST: usize = 1024;

/// Memory to read and reduce terms in, under a cap of one's own.
///
/// Functions that take no workspace use one for each thread, under [`Cap::MAX`]. A workspace of
/// one's own bounds how far terms grow: one that outgrows the cap is refused by 9. In all else the
/// answers are the same under every cap. It takes 73 bytes for each node of the cap, at once, and
/// never more.
///
/// A reduction is tried in room for 1,024 nodes, and begun anew in all room if the term outgrows
/// that: the room is cleared after every call, which takes longer the greater the cap is
/// (`docs/BENCHMARKS.md`).
///
/// ```
/// use copperjangle::*;
///
/// let mut workspace = Workspace::new(Cap::new(1024).unwrap());
/// let limit = Limit::new(100).unwrap();
/// for text in ["(λx.x) (λy.y)", "(λx.λy.x) (λz.z)"] {
///     let term = workspace.parse(text, Classic)?;
///     assert!(workspace.reduce(&term, NOR, limit)?.is_finished());
/// }
/// # Ok::<(), Refusal>(())
/// ```
pub struct Workspace {
    cap: Cap,
    out: Vec<u8>,
    room: Vec<u64>,
}

impl Workspace {
    /// A workspace under the given cap.
    ///
    /// ```
    /// use copperjangle::*;
    ///
    /// let mut workspace = Workspace::new(Cap::new(1024).unwrap());
    /// assert_eq!(workspace.parse("1", DeBruijn), Ok(Var(1)));
    /// ```
    pub fn new(cap: Cap) -> Workspace {
        Workspace {
            cap,
            out: vec![0; OUTPUT_PER_NODE * cap.get()],
            room: vec![0; ROOM_PER_NODE * cap.get()],
        }
    }

    /// Its cap.
    ///
    /// ```
    /// use copperjangle::{Cap, Workspace};
    ///
    /// assert_eq!(Workspace::default().cap(), Cap::MAX);
    /// ```
    pub fn cap(&self) -> Cap {
        self.cap
    }

    /// As [`parse`](crate::parse), under this workspace's cap.
    ///
    /// ```
    /// use copperjangle::*;
    ///
    /// let mut workspace = Workspace::new(Cap::new(1024).unwrap());
    /// assert_eq!(workspace.parse("λx.x", Classic), Ok(abs(Var(1))));
    /// ```
    ///
    /// # Errors
    ///
    /// The refusals 3 to 9.
    pub fn parse(&mut self, text: &str, notation: Notation) -> Result<Term, Refusal> {
        // A variable or a lambda takes a byte, and there are fewer applications than variables.
        let most = text.len().saturating_mul(2);
        let answer = ffi::parse(notation, text.as_bytes(), self.lend(most));
        self.term_told(&answer, text)
    }

    /// As [`Term::apply`], under this workspace's cap.
    ///
    /// ```
    /// use copperjangle::*;
    ///
    /// let mut workspace = Workspace::new(Cap::new(1024).unwrap());
    /// assert_eq!(workspace.apply(&abs(Var(1)), &Var(7)), Ok(Var(7)));
    /// ```
    ///
    /// # Errors
    ///
    /// Refusal 11, or 12, 7 or 9 of the result; 9 also if a term given has more nodes than the cap.
    pub fn apply(&mut self, abstraction: &Term, argument: &Term) -> Result<Term, Refusal> {
        let (left, right) = (abstraction.as_bytes(), argument.as_bytes());
        // A node takes a byte, and each of the left becomes at most all of the right.
        let most = left.len().saturating_mul(right.len());
        let answer = ffi::apply(left, right, self.lend(most));
        self.term_told(&answer, "")
    }

    /// As [`Term::reduce`], under this workspace's cap.
    ///
    /// ```
    /// use copperjangle::*;
    ///
    /// let mut workspace = Workspace::new(Cap::new(1024).unwrap());
    /// let grows = workspace.parse(r"(\111)(\111)", DeBruijn)?;
    /// let refusal = workspace.reduce(&grows, NOR, Limit::MAX).unwrap_err();
    /// assert_eq!(refusal, Refusal::TooManyNodes { steps: Some(144) });
    /// # Ok::<(), Refusal>(())
    /// ```
    ///
    /// # Errors
    ///
    /// Refusal 12, 7 or 9 of a next term; 9 also if the term given has more nodes than the cap.
    pub fn reduce(&mut self, term: &Term, order: Order, limit: Limit) -> Result<Outcome, Refusal> {
        let code = term.as_bytes();
        let mut answer = ffi::reduce(order, limit, code, self.lend(NODES_AT_FIRST));
        // 9 alone depends on the cap, and is judged after 12 and 7: any other answer stands.
        if answer.refusal == 9 && self.cap.get() > NODES_AT_FIRST {
            answer = ffi::reduce(order, limit, code, self.lend(usize::MAX));
        }
        self.outcome_told(&answer, term)
    }

    /// As [`Term::eta`], under this workspace's cap.
    ///
    /// ```
    /// use copperjangle::*;
    ///
    /// let mut workspace = Workspace::new(Cap::new(4).unwrap());
    /// assert_eq!(workspace.eta(&parse(r"\21", DeBruijn)?, 0)?.into_term(), Var(1));
    /// let refusal = workspace.eta(&parse(r"\\321", DeBruijn)?, 0).unwrap_err();
    /// assert_eq!(refusal, Refusal::TooManyNodes { steps: None });
    /// # Ok::<(), Refusal>(())
    /// ```
    ///
    /// # Errors
    ///
    /// Refusal 9 if the term given has more nodes than the cap.
    pub fn eta(&mut self, term: &Term, limit: usize) -> Result<Outcome, Refusal> {
        // A node takes a byte, and eta makes no term larger.
        let most = term.as_bytes().len();
        let answer = ffi::eta(limit, term.as_bytes(), self.lend(most));
        self.outcome_told(&answer, term)
    }

    /// All memory, under a cap of so many nodes or the workspace's. Where no term can have more, the
    /// answers are the same, and there is less room to clear.
    fn lend(&mut self, most: usize) -> Lent<'_> {
        Lent {
            cap: most.clamp(1, self.cap.get()),
            out: &mut self.out,
            room: &mut self.room,
        }
    }

    /// The term that stands first in the output.
    fn written(&self, answer: &Answer) -> Term {
        Term::from_whole(&self.out[..answer.value as usize])
    }

    fn term_told(&self, answer: &Answer, text: &str) -> Result<Term, Refusal> {
        match answer.refusal {
            0 => Ok(self.written(answer)),
            _ => Err(Refusal::told(answer, text, None)),
        }
    }

    fn outcome_told(&self, answer: &Answer, term: &Term) -> Result<Outcome, Refusal> {
        let steps = answer.steps as usize;
        if answer.refusal != 0 {
            // A term that is itself above the cap is not refused at a step.
            let begun = term.nodes() <= self.cap.get();
            return Err(Refusal::told(answer, "", begun.then_some(steps)));
        }
        let term = self.written(answer);
        Ok(match answer.finished {
            1 => Outcome::Finished { term, steps },
            _ => Outcome::Unfinished { term, steps },
        })
    }
}

/// A workspace under [`Cap::MAX`].
///
/// ```
/// use copperjangle::{DeBruijn, Workspace};
///
/// assert!(Workspace::default().parse("1", DeBruijn).is_ok());
/// ```
impl Default for Workspace {
    fn default() -> Workspace {
        Workspace::new(Cap::default())
    }
}

impl fmt::Debug for Workspace {
    fn fmt(&self, f: &mut fmt::Formatter) -> fmt::Result {
        f.debug_struct("Workspace")
            .field("cap", &self.cap)
            .finish_non_exhaustive()
    }
}

thread_local! {
    static OWN: RefCell<Workspace> = RefCell::new(Workspace::default());
}

/// Works in this thread's own workspace.
pub(crate) fn with_own<T>(work: impl FnOnce(&mut Workspace) -> T) -> T {
    OWN.with(|own| work(&mut own.borrow_mut()))
}

#[cfg(test)]
mod tests {
    use super::*;

    /// All texts of up to five characters of these.
    fn texts() -> Vec<String> {
        let mut all = vec![String::new()];
        let mut longest = 0..1;
        for _ in 0..5 {
            for i in longest.clone() {
                all.extend([r"\", "1", "2", "(", ")"].map(|next| all[i].clone() + next));
            }
            longest = longest.end..all.len();
        }
        all
    }

    /// What is answered under the smaller caps is what is answered under the workspace's.
    fn is_answered_alike(workspace: &mut Workspace, text: &str) {
        let all = usize::MAX;
        let answer = ffi::parse(Notation::DeBruijn, text.as_bytes(), workspace.lend(all));
        let parsed = workspace.term_told(&answer, text);
        assert_eq!(workspace.parse(text, Notation::DeBruijn), parsed);
        let Ok(term) = parsed else { return };

        let code = term.as_bytes();
        let answer = ffi::eta(0, code, workspace.lend(all));
        let shrunk = workspace.outcome_told(&answer, &term);
        assert_eq!(workspace.eta(&term, 0), shrunk);
        let answer = ffi::apply(code, code, workspace.lend(all));
        let applied = workspace.term_told(&answer, "");
        assert_eq!(workspace.apply(&term, &term), applied);
    }

    #[test]
    fn a_cap_that_no_term_outgrows_changes_no_answer() {
        for cap in [2, 5, 64] {
            let mut workspace = Workspace::new(Cap::new(cap).unwrap());
            for text in texts() {
                is_answered_alike(&mut workspace, &text);
            }
        }
    }
}
