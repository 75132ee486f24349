//! The terms whose reduction is timed, with the orders in which that is sensible.
use crate::growth::beside;
use crate::jobs::Job;
use crate::random::*;
use crate::reduction::Order::*;
use crate::reduction::{Order, ORDERS};
use crate::rows::{copies, tree, Row};
use crate::term::*;

/// A name, the orders, the limit and the term.
type Timed = (&'static str, &'static [Order], u64, Term);

const FULL: &[Order] = &[NOR, HNO, APP, HAP];
const LAZY: &[Order] = &[NOR, HNO, CBN, HSP];
const ENTERING: &[Order] = &[NOR, HSP, HNO, APP, HAP];
const BESIDE: &[Order] = &[NOR, HNO, APP, CBV, HAP];
const SOME: &[Order] = &[NOR, APP, HAP];

fn student_terms() -> Vec<Timed> {
    vec![
        ("S K K", &ORDERS, 1000, apply(s(), vec![k(), k()])),
        ("S K K x", &[NOR], 1000, apply(s(), vec![k(), k(), var(7)])),
    ]
}

fn arithmetic() -> Vec<Timed> {
    let of = |f: Term, m, n| apply(f, vec![numeral(m), numeral(n)]);
    vec![
        ("2^8", FULL, 1000, of(power(), 2, 8)),
        ("3 * 4", FULL, 1000, of(multiply(), 3, 4)),
        ("15 * 15", FULL, 1000, of(multiply(), 15, 15)),
        ("100 + 120", FULL, 1000, of(add(), 100, 120)),
    ]
}

fn factorials() -> Vec<Timed> {
    vec![
        ("factorial of 4", LAZY, 100_000, factorial(4)),
        ("factorial of 5", LAZY, 100_000, factorial(5)),
    ]
}

fn predecessors() -> Vec<Timed> {
    let term = app(predecessor(), numeral(200));
    vec![("predecessor of 200", FULL, 100_000, term)]
}

fn long_runs() -> Vec<Timed> {
    let y_i = || app(y(), identity());
    vec![
        ("omega, 10^5", &ORDERS, 100_000, omega()),
        ("omega, 10^6", &[NOR, APP], 1_000_000, omega()),
        ("Y I, 10^5", &ORDERS, 100_000, y_i()),
        ("Y I, 10^6", &[NOR], 1_000_000, y_i()),
    ]
}

fn deep_runs() -> Vec<Timed> {
    let at_head = (0..500).fold(omega(), |t, _| app(t, var(3)));
    let last = (0..500).fold(omega(), |t, _| app(var(3), t));
    let first = (0..499).fold(app(var(3), omega()), |t, _| app(t, var(3)));
    let bound = binders(500, omega());
    vec![
        ("omega, 500 arguments, 10^5", &ORDERS, 100_000, at_head),
        ("omega as 500th argument, 10^5", BESIDE, 100_000, last),
        ("omega first of 500 arguments, 10^5", BESIDE, 100_000, first),
        ("omega, 500 binders, 10^5", ENTERING, 100_000, bound),
    ]
}

fn identities() -> Vec<Timed> {
    let left = (0..500).fold(identity(), |t, _| app(t, identity()));
    let right = (0..500).fold(identity(), |t, _| app(identity(), t));
    vec![
        ("500 identities from the left", &ORDERS, 1000, left),
        ("500 identities from the right", &ORDERS, 1000, right),
    ]
}

fn redexes() -> Vec<Timed> {
    let term = tree(&app(identity(), var(2)), 8192);
    vec![("8,192 redexes", BESIDE, 100_000, term)]
}

fn short_and_idle() -> Vec<Timed> {
    let name = "omega beside 57,343 idle, 10^4";
    vec![(name, &ORDERS, 10_000, beside(28_672))]
}

fn long_and_idle() -> Vec<Timed> {
    let steps = 1_000_000;
    vec![
        ("omega beside 895 idle, 10^6", SOME, steps, beside(448)),
        ("omega beside 7,167 idle, 10^6", SOME, steps, beside(3584)),
        (
            "omega beside 57,343 idle, 10^6",
            SOME,
            steps,
            beside(28_672),
        ),
    ]
}

fn large_copies() -> Vec<Timed> {
    let put = |index: u64| app(copies(60, index), tree(&var(2), 500));
    vec![
        ("60 copies of 999", &ORDERS, 100, put(1)),
        ("60 copies of 999, raised", &ORDERS, 100, put(2)),
    ]
}

fn doublings() -> Vec<Timed> {
    let double = abs(app(var(1), var(1)));
    let term = (0..12).fold(var(4), |t, _| app(double.clone(), t));
    vec![("12 doublings", &ORDERS, 100_000, term)]
}

pub fn rows() -> Vec<Row> {
    let groups = [
        ("student terms", student_terms()),
        ("arithmetic", arithmetic()),
        ("factorials", factorials()),
        ("predecessor", predecessors()),
        ("long runs", long_runs()),
        ("deep runs", deep_runs()),
        ("identities", identities()),
        ("redexes side by side", redexes()),
        ("10^4 steps beside idle nodes", short_and_idle()),
        ("10^6 steps beside idle nodes", long_and_idle()),
        ("copies", large_copies()),
        ("doublings", doublings()),
    ];
    let mut out = vec![];
    for (group, timed) in groups {
        for (name, orders, limit, term) in timed {
            out.extend(orders.iter().map(|order| {
                let job = Job::Reduce {
                    order: *order,
                    limit,
                    term: bytes(&term),
                };
                Row::new(group, name, job)
            }));
        }
    }
    out
}
