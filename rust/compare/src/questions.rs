//! What crates/replay is asked: examples, all small texts of some shapes, all small terms, and random ones.
use crate::call::{Call, CLASSIC, DE_BRUIJN, QUERIES};
use crate::examples::{self, coded, Example};
use crate::hostile_texts;
use crate::random::*;
use crate::replay::{Replay, CAP};
use crate::small_terms::all_terms;
use crate::small_texts::each_text;
use crate::term::*;

impl Replay {
    fn text(&mut self, notation: u64, text: &str) -> bool {
        self.add(&Call::Parse {
            notation,
            cap: CAP,
            text: text.as_bytes(),
        })
    }

    fn reduce(&mut self, order: u64, limit: u64, term: &[u8]) -> bool {
        self.add(&Call::Reduce {
            order,
            limit,
            cap: CAP,
            term,
        })
    }

    fn eta(&mut self, limit: u64, term: &[u8]) -> bool {
        self.add(&Call::Eta {
            limit,
            cap: CAP,
            term,
        })
    }

    fn apply(&mut self, abstraction: &[u8], argument: &[u8]) -> bool {
        self.add(&Call::Apply {
            cap: CAP,
            abstraction,
            argument,
        })
    }

    fn print(&mut self, term: &[u8]) {
        for notation in [DE_BRUIJN, CLASSIC] {
            self.add(&Call::Print { notation, term });
        }
    }

    fn queries(&mut self, term: &[u8]) {
        for query in QUERIES {
            self.add(&Call::Query(query, term));
        }
    }
}

/// P1 to P16, but for P12, to which the original has no answer; orders are by number.
fn listed(replay: &mut Replay) {
    for text in ["10", "[10]", "[]", "λλ[", "1)2", "(1", ""] {
        replay.text(DE_BRUIJN, text);
    }
    replay.text(CLASSIC, r"\a.\b.a b");
    replay.apply(&coded(r"\\42(\13)"), &coded(r"\51"));
    for (order, limit, text) in [
        (0, 3, r"(\11)(\11)"),
        (0, 5, r"(\2)((\11)(\11))"),
        (4, 5, r"(\2)((\11)(\11))"),
        (0, 2, r"(\11)(\1)"),
        (1, 9, r"\(\1)1"),
        (0, 9, r"\(\1)1"),
    ] {
        replay.reduce(order, limit, &coded(text));
    }
    for (limit, text) in [
        (0, r"\21"),
        (0, r"\[0]1"),
        (2, r"\\3(\41)21"),
        (0, r"\\3(\41)21"),
    ] {
        replay.eta(limit, &coded(text));
    }
}

/// The original's pages: its texts as they stand, then its terms in every use.
fn documented(replay: &mut Replay) {
    for text in [
        r"λf.(λx.f (x x)) (λx.f (x x))",
        r"(λa.λb.λc.a (λd.λe.e (d b)) (λd.c) (λd.d)) (λa.λb.a b)",
        r"(λa.λb.λc.b (a b c)) (λa.λb.b)",
        "λa.λb. a b",
        "λa.a",
        "z",
        "λa.y",
    ] {
        replay.text(CLASSIC, text);
    }
    for text in ["λλλ31(21)", r"\\\3 1 (2 1)", "10", "[10]", "[A]", "A"] {
        replay.text(DE_BRUIJN, text);
    }
    for (index, example) in examples::all().iter().enumerate() {
        let Example::Of(text) = example else { continue };
        replay.text(DE_BRUIJN, text);
        let s = coded(text);
        replay.reduce(1 + index as u64 % 6, 100, &s);
        replay.eta(0, &s);
        replay.add(&Call::Print {
            notation: CLASSIC,
            term: &s,
        });
        replay.add(&Call::Query(QUERIES[index % 6], &s));
    }
}

fn small(replay: &mut Replay) {
    for (notation, alphabet, longest) in [(DE_BRUIJN, r"\()1[]", 3), (CLASSIC, r"\.a )", 4)] {
        for length in 0..=longest {
            each_text(alphabet, length, &mut String::new(), &mut |text| {
                replay.text(notation, text);
            });
        }
    }
    let all = all_terms(5);
    for s in all[..4].concat() {
        replay.queries(&s);
        replay.print(&s);
        for u in all[..3].concat() {
            replay.add(&Call::Equality(&s, &u));
            replay.apply(&s, &u);
        }
    }
    for (index, s) in all[4..].concat().iter().enumerate() {
        replay.eta(index as u64 % 3, s);
        replay.reduce(index as u64 % 7, 1 + index as u64 % 2, s);
    }
}

/// A random term with something done to it; tells whether there was an answer.
fn any(replay: &mut Replay, r: &mut Random) -> bool {
    let free = r.pick(&FREE);
    let size = 1 + r.below(60);
    let t = match r.below(6) {
        0 => known(r),
        1 => turning(r),
        _ => term(r, size, 0, free),
    };
    let s = &bytes(&t)[..];
    let small = bytes(&term(r, size / 4 + 1, 0, free));
    match r.below(10) {
        0..=3 => replay.reduce(r.below(7), r.pick(&[1, 2, 3, 5, 10, 30, 100]), s),
        4 => replay.eta(r.below(4), &bytes(&with_places(r, size / 3, 0, free))),
        5 => replay.apply(&bytes(&abs(term(r, size / 2, 1, free))), &small),
        6 => replay.add(&Call::Print {
            notation: r.below(2),
            term: s,
        }),
        7 => replay.add(&Call::Query(r.pick(&QUERIES), s)),
        8 if r.chance(50) => replay.add(&Call::Equality(s, s)),
        8 => replay.add(&Call::Equality(&small, s)),
        _ => {
            let (notation, text) = hostile_texts::any(r);
            replay.add(&Call::Parse {
                notation,
                cap: CAP,
                text: &text,
            })
        }
    }
}

pub fn all(replay: &mut Replay) {
    replay.title("# answers of the original");
    replay.state(CAP);
    for part in [listed, documented, small] {
        part(replay);
    }
    let mut r = Random(20_261_115);
    let mut left = 1200;
    while left > 0 {
        left -= any(replay, &mut r) as u64;
    }
}
