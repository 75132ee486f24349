//! Eta by the rules, slow and direct.
use crate::answer::Outcome;
use crate::term::*;

/// Whether the binder of a depth, or index 0, is in it.
fn blocks(m: &Term, depth: u128) -> bool {
    match m {
        Var(i) => *i == 0 || *i == depth,
        Abs(b) => blocks(b, depth + 1),
        App(l, r) => blocks(l, depth) || blocks(r, depth),
    }
}

fn lowered(m: &Term, depth: u128) -> Term {
    match m {
        Var(i) if *i > depth => Var(i - 1),
        Var(i) => Var(*i),
        Abs(b) => abs(lowered(b, depth + 1)),
        App(l, r) => app(lowered(l, depth), lowered(r, depth)),
    }
}

/// What `\(M 1)` becomes, if it is a place.
fn contracted(t: &Term) -> Option<Term> {
    let Abs(body) = t else { return None };
    let App(m, last) = &**body else { return None };
    (**last == Var(1) && !blocks(m, 1)).then(|| lowered(m, 1))
}

fn place_left(t: &Term) -> bool {
    contracted(t).is_some()
        || match t {
            Var(_) => false,
            Abs(b) => place_left(b),
            App(l, r) => place_left(l) || place_left(r),
        }
}

/// The steps that may still be made, and those that were.
struct Steps {
    left: u64,
    made: u64,
}

impl Steps {
    /// Contracts while possible.
    fn here(&mut self, mut t: Term) -> Term {
        while self.left > 0 {
            let Some(next) = contracted(&t) else { break };
            t = next;
            self.left -= 1;
            self.made += 1;
        }
        t
    }

    /// The sequence: here, the parts with the left one first, and at an abstraction here again.
    fn all(&mut self, t: Term) -> Term {
        match self.here(t) {
            Var(i) => Var(i),
            Abs(b) => {
                let again = abs(self.all(*b));
                self.here(again)
            }
            App(l, r) => {
                let left = self.all(*l);
                app(left, self.all(*r))
            }
        }
    }
}

/// A run from a term that is within the bounds; limit 0 means none.
pub fn eta(limit: u64, t: Term) -> Outcome {
    let left = if limit == 0 { u64::MAX } else { limit };
    let mut steps = Steps { left, made: 0 };
    let t = steps.all(t);
    Outcome::run(!place_left(&t), steps.made, bytes(&t))
}
