//! Questions of crates/replay that are written by hand, in its own words.
use crate::call::{Call, Lengths, ENTRIES, QUERIES};
use crate::reduction::ORDERS;
use crate::replay::Replay;
use crate::spelling::{coded, unfolded};

const CASES: [&str; 7] = [
    include_str!("cases/queries.txt"),
    include_str!("cases/print.txt"),
    include_str!("cases/parse.txt"),
    include_str!("cases/nesting.txt"),
    include_str!("cases/apply.txt"),
    include_str!("cases/eta.txt"),
    include_str!("cases/reduce.txt"),
];

/// The next word, and what stands behind the space that ends it.
fn cut(line: &[u8]) -> (&[u8], &[u8]) {
    match line.iter().position(|b| *b == b' ') {
        Some(end) => (&line[..end], &line[end + 1..]),
        None => (line, &[]),
    }
}

fn number(word: &[u8]) -> u64 {
    let digits = std::str::from_utf8(word).expect("a number");
    digits.parse().expect("a number")
}

fn notation(word: &[u8]) -> u64 {
    match word {
        b"dbr" => 0,
        b"cla" => 1,
        _ => 2,
    }
}

fn reduce(replay: &mut Replay, words: &[u8]) {
    let (name, rest) = cut(words);
    let (limit, term) = cut(rest);
    let (limit, term) = (number(limit), &coded(term)[..]);
    if name == b"ALL" {
        return replay.decide_in_all_orders(limit, term);
    }
    let named = |order| format!("{order:?}").as_bytes() == name;
    replay.decide(&Call::Reduce {
        order: ORDERS.iter().position(named).unwrap_or(7) as u64,
        limit,
        cap: replay.stated(),
        term,
    });
}

fn ask(replay: &mut Replay, entry: usize, words: &[u8]) {
    let cap = replay.stated();
    let (word, rest) = cut(words);
    match ENTRIES[entry] {
        "reduce" => reduce(replay, words),
        "equality" => replay.decide(&Call::Equality(&coded(word), &coded(rest))),
        "print" => replay.decide(&Call::Print {
            notation: notation(word),
            term: &coded(rest),
        }),
        "parse" => replay.decide(&Call::Parse {
            notation: notation(word),
            cap,
            text: rest,
        }),
        "apply" => replay.decide(&Call::Apply {
            cap,
            abstraction: &coded(word),
            argument: &coded(rest),
        }),
        "eta" => replay.decide(&Call::Eta {
            limit: number(word),
            cap,
            term: &coded(rest),
        }),
        _ => replay.decide(&Call::Query(QUERIES[entry], &coded(words))),
    }
}

/// A line: what is lent from here on, a question, or a title.
fn read(replay: &mut Replay, line: &str) {
    let unfolded = unfolded(line);
    let (word, rest) = cut(&unfolded);
    let is_entry = |name: &&str| name.as_bytes() == word;
    if word == b"lend" {
        let (cap, rest) = cut(rest);
        let (out, room) = cut(rest);
        let (out, room) = (number(out) as usize, number(room) as usize);
        replay.lend(number(cap), Lengths { out, room });
    } else if let Some(entry) = ENTRIES.iter().position(|name| is_entry(&name)) {
        ask(replay, entry, rest);
    } else {
        replay.title(line);
    }
}

pub fn all(replay: &mut Replay) {
    for line in CASES.iter().flat_map(|file| file.lines()) {
        read(replay, line);
    }
}
