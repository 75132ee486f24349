//! The longest texts, the greatest caps and the largest terms, which take long: few of them are asked.
use crate::call::{Call, Lengths, CLASSIC, DE_BRUIJN, QUERIES};
use crate::judge::Judge;
use crate::random::*;
use crate::term::*;

const MOST_TEXT: usize = 2_097_152;
const MOST_NODES: u64 = 65_536;

/// A text of just that many bytes: what is first, what is repeated, what is last.
fn filled(first: &str, repeated: &str, last: &str, length: usize) -> Vec<u8> {
    let count = (length - first.len() - last.len()) / repeated.len();
    let mut text = format!("{first}{}{last}", repeated.repeat(count)).into_bytes();
    text.resize(length, b' ');
    text
}

fn longest_text(judge: &mut Judge, r: &mut Random) {
    let (row, groups) = ("1".repeat(3000), r"\a.".to_string() + &"(a)".repeat(3000));
    let (notation, first, repeated, last) = r.pick(&[
        (DE_BRUIJN, "1", " ", "2"),
        (DE_BRUIJN, &row[..], " ", "2"),
        (DE_BRUIJN, "[", "0", "1]"),
        (DE_BRUIJN, "1)", "(", "!"),
        (DE_BRUIJN, "", "λ", "1"),
        (CLASSIC, r"\a.", " ", "a"),
        (CLASSIC, &groups[..], " ", ""),
        (CLASSIC, r"\", "λ", ""),
        (CLASSIC, r"\a.a) ", "b ", "\u{b}"),
    ]);
    for length in [MOST_TEXT, MOST_TEXT + 1] {
        let text = &filled(first, repeated, last, length)[..];
        judge.ask(&Call::Parse {
            notation,
            cap: 5,
            text,
        });
    }
}

/// A term of just that many nodes, with nothing to contract: left parts have an odd number of them, and are no
/// abstractions.
fn wide(r: &mut Random, count: u64) -> Term {
    if count == 1 {
        var(r.below(20))
    } else if count % 2 == 0 {
        abs(wide(r, count - 1))
    } else {
        let left = (count / 2) | 1;
        let part = wide(r, left);
        app(part, wide(r, count - 1 - left))
    }
}

fn largest_term(judge: &mut Judge, r: &mut Random) {
    let count = MOST_NODES - 1 + r.below(3);
    let term = &bytes(&wide(r, count))[..];
    judge.ask(&Call::Query(r.pick(&QUERIES), term));
    judge.ask(&Call::Equality(term, term));
    let notation = r.below(2);
    let text = &judge.ask(&Call::Print { notation, term }).first[..];
    let cap = MOST_NODES - r.below(2);
    judge.ask(&Call::Parse {
        notation,
        cap,
        text,
    });
    judge.ask(&Call::Eta {
        limit: 0,
        cap,
        term,
    });
    judge.ask(&Call::Reduce {
        order: r.below(7),
        limit: 100,
        cap,
        term,
    });
    let identity = bytes(&identity());
    judge.ask(&Call::Apply {
        cap,
        abstraction: &identity,
        argument: term,
    });
}

/// A small input under the greatest cap, with just enough lent, and with one byte or number too few.
fn greatest_cap(judge: &mut Judge, r: &mut Random) {
    let (cap, free) = (MOST_NODES, r.pick(&FREE));
    let (s, u) = (bytes(&small(r, 0, free)), bytes(&small(r, 0, free)));
    let call = match r.below(4) {
        0 => Call::Parse {
            notation: r.below(2),
            cap,
            text: b"\\a.(a)",
        },
        1 => Call::Apply {
            cap,
            abstraction: &s,
            argument: &u,
        },
        2 => Call::Eta {
            limit: 0,
            cap,
            term: &s,
        },
        _ => Call::Reduce {
            order: r.below(7),
            limit: 3,
            cap,
            term: &s,
        },
    };
    let (out, room) = (9 * cap as usize, 8 * cap as usize);
    for (out, room) in [(out, room), (out - 1, room), (out, room - 1)] {
        judge.ask_lent(&call, Lengths { out, room });
    }
}

/// Many steps, the room being made anew all the time.
fn long_run(judge: &mut Judge, r: &mut Random) {
    let t = turning(r);
    let cap = nodes(&t) + r.below(30);
    judge.ask(&Call::Reduce {
        order: r.below(7),
        limit: 30_000,
        cap,
        term: &bytes(&t),
    });
}

pub fn pose(judge: &mut Judge, r: &mut Random) {
    match r.below(4) {
        0 => longest_text(judge, r),
        1 => largest_term(judge, r),
        2 => greatest_cap(judge, r),
        _ => long_run(judge, r),
    }
}
