//! Chains of places that crates/replay contracts by eta: the highest there are, and some over a large term.
use crate::call::Call;
use crate::replay::Replay;
use crate::term::*;

/// Each place is M of the one around it.
fn nested(count: u64, end: Term) -> Term {
    (0..count).fold(end, |t, _| abs(app(t, var(1))))
}

/// A place is one only once the place in it is contracted.
fn stacked(count: u64, end: Term) -> Term {
    binders(count, (1..=count).rev().map(var).fold(end, app))
}

fn pair(index: u64) -> Term {
    app(var(index), var(index))
}

fn row(t: Term, count: usize) -> Term {
    apply(t.clone(), vec![t; count - 1])
}

/// 31,744 variables.
fn rows(index: u64) -> Term {
    row(row(var(index), 256), 124)
}

impl Replay {
    fn chain(&mut self, limit: u64, t: Term) {
        self.decide(&Call::Eta {
            limit,
            cap: self.stated(),
            term: &bytes(&t),
        });
    }
}

pub fn all(replay: &mut Replay) {
    replay.title("# eta: chains of height 512, and one place more");
    replay.state(1000);
    for limit in [0, 254] {
        replay.chain(limit, nested(255, pair(4095)));
        replay.chain(limit, stacked(255, pair(256)));
    }
    replay.chain(0, nested(255, pair(255)));
    replay.chain(0, stacked(255, pair(3)));
    replay.chain(0, nested(256, pair(4095)));
    replay.title("# eta: 60 places over 31,744 variables");
    replay.state(65_536);
    for limit in [0, 59, 60] {
        replay.chain(limit, nested(60, rows(61)));
    }
    replay.chain(0, nested(60, rows(0)));
    replay.chain(59, stacked(60, rows(61)));
    for index in [1, 60, u64::MAX] {
        replay.chain(0, stacked(60, rows(index)));
    }
}
