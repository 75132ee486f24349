//! Random and damaged coded terms, and numbers around every bound.
use crate::call::{Call, Lengths, QUERIES};
use crate::extremes;
use crate::hostile_texts;
use crate::judge::Judge;
use crate::posed::{self, Posed};
use crate::random::*;
use crate::reduction::{most_nodes, put, raise, ORDERS};
use crate::term::*;

/// Caps that are refused, one of which would not be if it were cut to fewer bits.
const UNBOUNDED: [u64; 4] = [0, 65_537, (1 << 32) + 9, u64::MAX];

/// A number that names none of so many, likewise.
fn nameless(r: &mut Random, count: u64) -> u64 {
    r.pick(&[count, count + 1, 256, 1 << 32, (1 << 32) + 1, u64::MAX])
}

/// A number near another one.
fn around(r: &mut Random, number: u64) -> u64 {
    r.pick(&[number.saturating_sub(1), number, number + 1])
}

fn any_term(r: &mut Random) -> Term {
    match r.below(150) {
        0 => {
            let turns = around(r, 511);
            tower(r, turns, var(1), true)
        }
        1 => posed::high(r).term,
        _ => posed::any(r).term,
    }
}

fn reduced(judge: &mut Judge, r: &mut Random) {
    let posed = match r.below(1000) {
        0 => posed::growing(r),
        1..=3 => posed::long(r),
        4..=9 => posed::high(r),
        10..=19 => posed::edge(r),
        20..=99 => posed::any(r),
        _ => {
            let Posed { limit, cap, term } = posed::any(r);
            let (limit, cap) = (limit.min(10), cap.min(200));
            Posed { limit, cap, term }
        }
    };
    let Posed { limit, cap, term } = posed;
    let s = &bytes(&term)[..];
    let order = r.below(7);
    let call = |limit, cap| Call::Reduce {
        order,
        limit,
        cap,
        term: s,
    };
    let answer = judge.ask(&call(limit, cap)).answer;
    let most = if answer.refusal == 0 && answer.finished == 0 {
        1
    } else {
        1_000_000
    };
    let near = around(r, answer.steps);
    judge.ask(&call(r.pick(&[near, near, near, 1, most]), cap));
    let most = most_nodes(ORDERS[order as usize], answer.steps, term);
    judge.ask(&call(limit, around(r, most)));
}

fn shrunk(judge: &mut Judge, r: &mut Random) {
    let free = r.pick(&FREE);
    let size = r.below(16);
    let t = match r.below(1000) {
        0..=9 => any_term(r),
        10 => {
            let t = with_places(r, size, 0, free);
            (0..250).fold(t, |t, _| abs(app(raise(&t, 1, 0), var(1))))
        }
        _ => with_places(r, size, 0, free),
    };
    let (s, count) = (&bytes(&t)[..], nodes(&t));
    let call = |limit, cap| Call::Eta {
        limit,
        cap,
        term: s,
    };
    let steps = judge.ask(&call(0, count)).answer.steps;
    let near = around(r, steps);
    judge.ask(&call(near, count + 1));
    let limit = r.below(steps + 1);
    judge.ask(&call(limit, count));
    judge.ask(&call(u64::MAX - r.below(2), around(r, count)));
}

fn applied(judge: &mut Judge, r: &mut Random) {
    let free = r.pick(&FREE);
    let (body, argument) = if r.chance(1) {
        let (high, more) = (r.below(510), r.below(3));
        let body = tower(r, high, var(1), false);
        (body, tower(r, 510 - high + more, var(3), true))
    } else {
        let (m, n) = (1 + r.below(30), 1 + r.below(20));
        (term(r, m, 1, free), term(r, n, 0, free))
    };
    let next = nodes(&put(&body, 1, &argument));
    let enough = next.max(nodes(&body) + 1).max(nodes(&argument));
    let (s, u) = (bytes(&abs(body)), bytes(&argument));
    let call = |abstraction, cap| Call::Apply {
        cap,
        abstraction,
        argument: &u,
    };
    judge.ask(&call(&s, enough));
    judge.ask(&call(&s, around(r, enough)));
    judge.ask(&call(&s[1..], enough));
}

fn asked(judge: &mut Judge, r: &mut Random) {
    let s = bytes(&any_term(r));
    for query in QUERIES {
        judge.ask(&Call::Query(query, &s));
    }
}

fn printed(judge: &mut Judge, r: &mut Random) {
    let t = any_term(r);
    let (term, count) = (&bytes(&t)[..], nodes(&t) as usize);
    for notation in [0, 1] {
        let call = Call::Print { notation, term };
        let length = judge.ask(&call).first.len();
        let out = r.pick(&[20 * count - 1, 20 * count, length.saturating_sub(1), 0]);
        judge.ask_lent(&call, Lengths { out, room: 0 });
    }
}

/// A byte changed, cut off, put in or taken out.
fn damage(r: &mut Random, s: &mut Vec<u8>) {
    let place = r.below(s.len() as u64) as usize;
    match r.below(6) {
        0 => s.truncate(place),
        1 => s[place] = r.below(256) as u8,
        2 => s[place] = r.below(5) as u8,
        3 => s.push(r.below(256) as u8),
        4 => s.insert(place, r.below(5) as u8),
        _ => drop(s.remove(place)),
    }
}

fn compared(judge: &mut Judge, r: &mut Random) {
    let mut s = bytes(&any_term(r));
    let mut u = s.clone();
    judge.ask(&Call::Equality(&s, &u));
    damage(r, &mut u);
    judge.ask(&Call::Equality(&s, &u));
    judge.ask(&Call::Equality(&u, &s));
    damage(r, &mut s);
    judge.ask(&Call::Equality(&s, &u));
}

/// Any entry point that takes coded terms, with these inputs.
fn ask_any(judge: &mut Judge, r: &mut Random, cap: u64, s: &[u8], u: &[u8]) {
    let (order, limit) = (r.below(7), 1 + r.below(9));
    judge.ask(&match r.below(6) {
        0 => Call::Query(r.pick(&QUERIES), s),
        1 => Call::Equality(s, u),
        2 => Call::Print {
            notation: r.below(2),
            term: s,
        },
        3 => Call::Apply {
            cap,
            abstraction: s,
            argument: u,
        },
        4 => Call::Eta {
            limit,
            cap,
            term: s,
        },
        _ => Call::Reduce {
            order,
            limit,
            cap,
            term: s,
        },
    });
}

fn damaged(judge: &mut Judge, r: &mut Random) {
    let (t, v) = (any_term(r), small(r, 0, Free::Small));
    let (mut s, mut u) = (bytes(&t), bytes(&v));
    let cap = around(r, nodes(&t));
    damage(r, &mut s);
    ask_any(judge, r, cap, &s, &u);
    damage(r, &mut u);
    ask_any(judge, r, cap, &bytes(&t), &u);
    ask_any(judge, r, cap, &s, &u);
}

/// A number that names nothing, or a cap or a limit outside its bounds, with any input.
fn unbounded(judge: &mut Judge, r: &mut Random) {
    let mut s = bytes(&small(r, 0, Free::Small));
    if r.chance(20) {
        damage(r, &mut s);
    }
    let (term, cap) = (&s[..], 1 + r.below(20));
    let mut call = |order, limit, cap| {
        judge.ask(&Call::Reduce {
            order,
            limit,
            cap,
            term,
        })
    };
    call(nameless(r, 7), 1, cap);
    call(
        r.below(7),
        r.pick(&[0, 1_000_001, (1 << 32) + 1, u64::MAX]),
        cap,
    );
    call(r.below(7), 1, r.pick(&UNBOUNDED));
    let notation = nameless(r, 2);
    judge.ask(&Call::Print { notation, term });
    hostile_texts::unbounded(judge, notation, r.pick(&UNBOUNDED), term);
    let cap = r.pick(&UNBOUNDED);
    ask_any(judge, r, cap, term, term);
}

/// A few questions about one input.
pub fn pose(judge: &mut Judge, r: &mut Random) {
    match r.below(40) {
        0..=7 => reduced(judge, r),
        8..=13 => shrunk(judge, r),
        14..=17 => applied(judge, r),
        18..=19 => asked(judge, r),
        20..=21 => compared(judge, r),
        22..=24 => printed(judge, r),
        25..=27 => damaged(judge, r),
        28 => unbounded(judge, r),
        _ => hostile_texts::pose(judge, r),
    }
    if r.below(20_000) == 0 {
        extremes::pose(judge, r);
    }
}

/// So many comparisons, or as many as there is time for.
pub fn run(judge: &mut Judge, seed: u64, count: u64) {
    let mut r = Random(seed);
    let all = judge.comparisons().saturating_add(count);
    while judge.comparisons() < all && !judge.is_late() {
        pose(judge, &mut r);
    }
}
