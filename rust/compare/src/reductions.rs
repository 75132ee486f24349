//! Reductions that crates/replay is asked for: examples in all orders, refusals on the way, heights, long runs.
use crate::call::Call;
use crate::examples::{self, Example};
use crate::posed;
use crate::random::*;
use crate::replay::Replay;
use crate::term::*;

const ENOUGH: u64 = 1000;

impl Replay {
    fn all_orders(&mut self, limits: &[u64], cap: u64, t: &Term) {
        self.state(cap);
        for limit in limits {
            self.decide_in_all_orders(*limit, &bytes(t));
        }
    }
}

fn documented(replay: &mut Replay) {
    replay.state(ENOUGH);
    for example in examples::all() {
        match example {
            Example::From(place) => replay.title(&format!("# {place}")),
            Example::Of(text) => {
                for limit in [1, 10, 1000] {
                    replay.decide_in_all_orders(limit, &examples::coded(&text));
                }
            }
        }
    }
}

/// A part at the end of a way: as it is, in a body, in an argument, in a function part, under both.
fn placed(part: &Term) -> Vec<Term> {
    let p = || part.clone();
    vec![
        p(),
        abs(p()),
        app(var(1), p()),
        app(p(), var(1)),
        abs(apply(var(1), vec![abs(p()), var(2)])),
        app(app(var(2), p()), p()),
        app(abs(var(1)), p()),
        app(abs(app(var(1), var(2))), app(identity(), p())),
    ]
}

/// The same redex once its function part has taken two steps, which come first in every order.
fn later(redex: &Term) -> Term {
    let App(function, argument) = redex.clone() else {
        unreachable!()
    };
    let twice = app(identity(), app(identity(), *function));
    app(twice, *argument)
}

/// The body is a row of so many applications with the bound variable first.
fn tall(count: u64, argument: Term) -> Term {
    app(
        abs((0..count).fold(var(1), |t, _| app(t, var(2)))),
        argument,
    )
}

fn refused_steps(replay: &mut Replay) {
    replay.title("# 12 of a next term, at depth, after no step and after some; at the limit it is unfinished",
    );
    let great = app(binders(2, var(2)), var(u64::MAX));
    for t in [placed(&great), placed(&later(&great))].concat() {
        replay.all_orders(&[1, 2, 3, 9], ENOUGH, &t);
    }
    replay.title("# 9 of a next term: caps that are just too small, and just enough");
    let argument = apply(var(3), vec![var(4), var(5), var(6)]);
    let copied = app(abs(apply(var(1), vec![var(1), var(1)])), argument);
    for t in [placed(&copied), placed(&later(&copied))].concat() {
        for more in [0, 2, 3, 8, 9] {
            replay.all_orders(&[2, 9], nodes(&t) + more, &t);
        }
    }
    replay.title("# 7 of a next term: height 512 is fine");
    for argument_height in [9, 12, 13] {
        let argument = (1..argument_height).fold(var(3), |t, _| app(var(3), t));
        let redex = tall(500, argument);
        for t in [placed(&redex), placed(&later(&redex))].concat() {
            replay.all_orders(&[9], 3000, &t);
        }
    }
    replay.title("# 12, 7, then 9 of one next term; then none of them");
    let twice = binders(509, app(var(509), var(509)));
    let row = |index: u64, count: usize| apply(var(index), vec![var(index); count]);
    for argument in [row(u64::MAX, 3), row(1, 3), row(1, 2)] {
        let t = app(twice.clone(), argument);
        replay.all_orders(&[3], nodes(&t), &t);
    }
    let t = app(twice, row(1, 2));
    replay.all_orders(&[3], nodes(&t) + 1, &t);
}

fn highest(replay: &mut Replay) {
    replay.title(
        "# height 512: a last redex, and omega, far to the left, far to the right, under binders",
    );
    for end in [app(identity(), var(5)), omega()] {
        let turns = 512 - height(&end);
        let left = (0..turns).fold(end.clone(), |t, _| app(t, var(2)));
        let right = (0..turns).fold(end.clone(), |t, _| app(var(2), t));
        let under = binders(turns, end.clone());
        for t in [left, right, under] {
            replay.all_orders(&[40], 2000, &t);
        }
    }
    replay.title("# height 512: identities applied in a row, from the left and from the right");
    let left = (0..510).fold(identity(), |t, _| app(t, identity()));
    let right = (0..510).fold(identity(), |t, _| app(identity(), t));
    for t in [left, right] {
        replay.all_orders(&[1, 1000], 3000, &t);
    }
}

/// Terms that go on for ever, most of them growing and shrinking again.
fn long(replay: &mut Replay) {
    replay.title("# 100,000 steps in a room that is filled and made anew all the time");
    let half = binders(2, apply(var(2), vec![var(2), identity()]));
    let terms = [
        omega(),
        app(y(), identity()),
        app(theta(), identity()),
        apply(half.clone(), vec![half, identity()]),
        abs(apply(var(1), vec![omega(), app(identity(), var(1))])),
        app(omega(), abs(app(identity(), var(2)))),
    ];
    for t in &terms {
        for cap in [nodes(t), nodes(t) + 3, nodes(t) + 20] {
            replay.all_orders(&[100_000], cap, t);
        }
    }
}

fn random(replay: &mut Replay) {
    replay.title("# random terms under tight caps");
    let mut r = Random(20_261_115);
    for _ in 0..400 {
        let posed = posed::any(&mut r);
        replay.state(posed.cap);
        replay.decide(&Call::Reduce {
            order: r.below(7),
            limit: posed.limit,
            cap: posed.cap,
            term: &bytes(&posed.term),
        });
    }
}

pub fn all(replay: &mut Replay) {
    for part in [documented, refused_steps, highest, long, random] {
        part(replay);
    }
}
