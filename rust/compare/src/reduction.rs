//! Contraction and reduction by the rules, slow and direct: the table of orders, and one step after another.
use crate::answer::{Answer, Outcome};
use crate::term::*;
use Order::*;
use Way::*;

// their names are the original's
#[allow(clippy::upper_case_acronyms)]
#[derive(Clone, Copy, PartialEq, Eq, Debug)]
pub enum Order {
    NOR,
    CBN,
    HSP,
    HNO,
    APP,
    CBV,
    HAP,
}

pub const ORDERS: [Order; 7] = [NOR, CBN, HSP, HNO, APP, CBV, HAP];

#[derive(Clone, Copy)]
enum Way {
    Left(Order),
    Right(Order),
    Here,
}

/// Where the next step of an application may lie, in the sequence of the table.
fn ways(order: Order) -> &'static [Way] {
    match order {
        CBN => &[Left(CBN), Here],
        HSP => &[Left(HSP), Here],
        CBV => &[Left(CBV), Right(CBV), Here],
        APP => &[Left(APP), Right(APP), Here],
        NOR => &[Left(CBN), Here, Left(NOR), Right(NOR)],
        HNO => &[Left(HSP), Here, Left(HNO), Right(HNO)],
        HAP => &[Left(CBV), Right(HAP), Here, Left(HAP)],
    }
}

/// The way down to the part that the next step contracts, its last turn first; none if no step is left.
fn place(order: Order, t: &Term) -> Option<Vec<Way>> {
    match t {
        Var(_) => None,
        Abs(_) if order == CBN || order == CBV => None,
        Abs(b) => turned(place(order, b), Here),
        App(l, r) => ways(order).iter().find_map(|way| match way {
            Left(o) => turned(place(*o, l), *way),
            Right(o) => turned(place(*o, r), *way),
            Here => matches!(**l, Abs(_)).then(Vec::new),
        }),
    }
}

fn turned(path: Option<Vec<Way>>, turn: Way) -> Option<Vec<Way>> {
    path.map(|mut path| {
        path.push(turn);
        path
    })
}

/// Free indices raised; a part of the term that lies under so many abstractions has that depth.
pub fn raise(t: &Term, by: u128, depth: u128) -> Term {
    match t {
        Var(i) if *i > depth => Var(i + by),
        Var(i) => Var(*i),
        Abs(b) => abs(raise(b, by, depth + 1)),
        App(l, r) => app(raise(l, by, depth), raise(r, by, depth)),
    }
}

/// The argument put into a body that lies at a depth.
pub fn put(body: &Term, depth: u128, argument: &Term) -> Term {
    match body {
        Var(i) if *i == depth => raise(argument, depth - 1, 0),
        Var(i) if *i > depth => Var(i - 1),
        Var(i) => Var(*i),
        Abs(b) => abs(put(b, depth + 1, argument)),
        App(l, r) => app(put(l, depth, argument), put(r, depth, argument)),
    }
}

fn contract(t: &mut Term, path: &[Way]) {
    match (t, path) {
        (Abs(b), [rest @ .., _]) => contract(b, rest),
        (App(l, _), [rest @ .., Left(_)]) => contract(l, rest),
        (App(_, r), [rest @ .., _]) => contract(r, rest),
        (t, _) => {
            let App(l, r) = &*t else { unreachable!() };
            let Abs(body) = &**l else { unreachable!() };
            *t = put(body, 1, r);
        }
    }
}

/// 12, 7, then 9 of a term.
pub fn judge(t: &Term, cap: u64) -> Option<u64> {
    if greatest_index(t) > u64::MAX as u128 {
        Some(12)
    } else if height(t) > 512 {
        Some(7)
    } else if nodes(t) > cap {
        Some(9)
    } else {
        None
    }
}

/// A run from a term that is within the bounds.
pub fn reduce(order: Order, limit: u64, cap: u64, mut t: Term) -> Outcome {
    let mut steps = 0;
    while let Some(path) = place(order, &t) {
        if steps == limit {
            return Outcome::run(false, steps, bytes(&t));
        }
        contract(&mut t, &path);
        if let Some(refusal) = judge(&t, cap) {
            return Answer::refused_after(refusal, steps).into();
        }
        steps += 1;
    }
    Outcome::run(true, steps, bytes(&t))
}

/// The most nodes that a term has in so many steps.
pub fn most_nodes(order: Order, steps: u64, mut t: Term) -> u64 {
    let mut most = nodes(&t);
    for _ in 0..steps {
        let Some(path) = place(order, &t) else { break };
        contract(&mut t, &path);
        most = most.max(nodes(&t));
    }
    most
}
