//! The terms whose `apply` and `eta` are timed.
use crate::jobs::Job;
use crate::rows::{copies, tree, Row};
use crate::term::*;

/// A leaf of 14 nodes without a place of eta, of which no variable names one of so many binders around it.
pub fn twig(around: u64) -> Term {
    let left = abs(apply(var(1), vec![var(around + 2), var(around + 3)]));
    let deep = binders(2, app(var(2), var(around + 3)));
    app(left, app(var(around + 1), deep))
}

/// 4,096 of them: 61,439 nodes.
fn twigs(around: u64) -> Term {
    tree(&twig(around), 4096)
}

fn applications() -> Vec<(&'static str, Term, Term)> {
    let twig_row = || tree(&twig(0), 64);
    let put_in = || abs(var(1));
    let small = binders(2, apply(var(4), vec![var(2), abs(app(var(1), var(3)))]));
    vec![
        ("P8: 10 nodes to 4", small, abs(app(var(5), var(1)))),
        ("959 nodes put in once", put_in(), twig_row()),
        ("61,439 nodes put in once", put_in(), twigs(0)),
        (
            "61,439 nodes under 400 binders",
            binders(401, var(401)),
            twigs(0),
        ),
        ("dropped, 61,439 nodes fall", abs(twigs(1)), var(1)),
        ("60 copies of 999", copies(60, 1), tree(&var(2), 500)),
        (
            "60 copies of 999, raised",
            copies(60, 2),
            tree(&var(2), 500),
        ),
        (
            "64 closed copies of 962, under a binder",
            binders(2, tree(&var(2), 64)),
            binders(3, twig_row()),
        ),
    ]
}

/// So many abstractions one in another stand in a nest, under one more.
pub const NEST: u64 = 240;

/// `\(\(..(M 1)..)1)1`
pub fn nest_from_outside(end: Term) -> Term {
    abs((0..NEST).fold(end, |t, _| abs(app(t, var(1)))))
}

/// `\\..\ M n .. 2 1`: each abstraction is a place once the one in it is contracted.
fn nest_from_inside(end: Term) -> Term {
    let last = (1..=NEST).rev().fold(end, |t, i| app(t, var(i)));
    binders(NEST + 1, last)
}

fn places() -> Vec<(&'static str, Term)> {
    let place = abs(app(var(5), var(1)));
    let three = apply(place.clone(), vec![place.clone(), place]);
    let inner = abs(app(var(4), var(1)));
    let small = binders(2, apply(var(3), vec![inner, var(2), var(1)]));
    let blocked = app(twigs(NEST), var(0));
    vec![
        ("P15: 12 nodes, 3 places", small),
        ("959 nodes, no place", tree(&twig(0), 64)),
        ("61,439 nodes, no place", twigs(0)),
        ("12,288 places side by side", tree(&three, 4096)),
        (
            "240 places nested, from outside",
            nest_from_outside(twigs(NEST)),
        ),
        (
            "240 places nested, from inside",
            nest_from_inside(twigs(NEST)),
        ),
        ("240 nested that 0 blocks", nest_from_outside(blocked)),
    ]
}

pub fn rows() -> Vec<Row> {
    let mut rows: Vec<Row> = vec![];
    for (name, abstraction, argument) in applications() {
        let (abstraction, argument) = (bytes(&abstraction), bytes(&argument));
        let job = Job::Apply {
            abstraction,
            argument,
        };
        rows.push(Row::new("apply", name, job));
    }
    for (name, term) in places() {
        let term = bytes(&term);
        rows.push(Row::new("eta", name, Job::Eta { term }));
    }
    rows
}
