//! Random and damaged texts, and texts around every bound.
use crate::call::{Call, CLASSIC};
use crate::judge::Judge;
use crate::posed;
use crate::random::*;
use crate::reading::read;
use crate::term::*;

/// Names for binders and variables; the empty one is for binders only.
const NAMES: [&str; 10] = [
    "a",
    "b",
    "ab",
    "x1",
    "A",
    "aλ",
    "λ",
    "undefined",
    "a1b2",
    "",
];

const SPACES: [&str; 5] = [" ", " ", "\t", "\n", "\r"];

/// Bytes that texts are damaged with: parts of the notations, and bytes around the ends of the text domain.
const BYTES: &[u8] =
    b"\\()[]. 1aFgGzZ09@/:`{~!\t\n\r\x08\x0b\x0c\x0e\x1f\x7f\x80\xbb\xcd\xce\xcf\xff\0";

/// The text of a random term.
fn written(r: &mut Random, notation: u64) -> String {
    let free = if notation == CLASSIC && r.chance(80) {
        Free::None
    } else {
        r.pick(&FREE)
    };
    let nodes = 1 + r.below(40);
    let t = term(r, nodes, 0, free);
    if notation == CLASSIC {
        classic(&t)
    } else {
        de_bruijn(&t)
    }
}

/// An index between brackets, of about as many digits as the greatest, with zeros before it or not.
fn bracketed(r: &mut Random) -> String {
    let zeros = "0".repeat(r.pick(&[0, 0, 1, 20]));
    let digits = match r.below(4) {
        0 => "F".repeat(15 + r.below(3) as usize),
        1 => format!("1{}", "0".repeat(14 + r.below(3) as usize)),
        2 => format!("{:x}", r.below(u64::MAX)),
        _ => format!("{:X}", r.below(40)),
    };
    format!("[{zeros}{digits}]")
}

fn de_bruijn_word(r: &mut Random) -> String {
    match r.below(12) {
        0 => r"\".to_string(),
        1 => "λ".to_string(),
        2..=3 => "(".to_string(),
        4..=5 => ")".to_string(),
        6 => r.pick(&SPACES).to_string(),
        7 => bracketed(r),
        _ => format!("{:x}", r.below(16)),
    }
}

fn classic_word(r: &mut Random, names: &[&str]) -> String {
    match r.below(12) {
        0..=2 => format!("{}{}.", r.pick(&["\\", "λ"]), r.pick(names)),
        3..=4 => "(".to_string(),
        5..=6 => ")".to_string(),
        7 => r.pick(&SPACES).to_string(),
        _ => r.pick(names).to_string() + r.pick(&SPACES),
    }
}

/// Words at random; in classic notation two names are mostly bound.
fn words(r: &mut Random, notation: u64) -> String {
    let count = 1 + r.below(20);
    if notation != CLASSIC {
        return (0..count).map(|_| de_bruijn_word(r)).collect();
    }
    let names = [r.pick(&NAMES), r.pick(&NAMES)];
    let bound: String = names.iter().map(|name| format!("λ{name}.")).collect();
    let rest: String = (0..count).map(|_| classic_word(r, &names)).collect();
    if r.chance(80) {
        bound + &rest
    } else {
        rest
    }
}

/// So many parentheses and binders open, about the most that may be, and something or nothing in them.
fn nested(r: &mut Random, notation: u64) -> String {
    let count = 510 + r.below(5);
    let binder = if notation == CLASSIC { r"\a." } else { "λ" };
    let part = r.pick(&[0, 50, 100]);
    let opened = (0..count).map(|_| if r.chance(part) { binder } else { "(" });
    let mut text: String = opened.collect();
    text += match (r.below(3), notation == CLASSIC) {
        (0, _) => "",
        (_, false) => "1",
        (_, true) => "a",
    };
    text + &")".repeat(r.pick(&[0, 1, 300, 513]))
}

/// About as many binders as may be open, of different names or not, and some of their variables.
fn many_names(r: &mut Random) -> String {
    let (count, names) = (500 + r.below(14), r.pick(&[7, 100, 1000]));
    let bound = (0..count).map(|i| format!("λv{}.", i % names));
    let mut text: String = bound.collect();
    for _ in 0..1 + r.below(5) {
        text += &format!("v{} ", r.below(names.min(count)));
    }
    text
}

/// A row of so many items: as high a term as may be, or one higher.
fn long_row(r: &mut Random, notation: u64) -> String {
    let count = 509 + r.below(5) as usize;
    if notation == CLASSIC {
        r"\a.".to_string() + &"a ".repeat(count)
    } else {
        "1".repeat(count)
    }
}

fn damage(r: &mut Random, text: &mut Vec<u8>) {
    let place = r.below(text.len() as u64 + 1) as usize;
    match r.below(5) {
        0 => text.truncate(place),
        1..=2 if place < text.len() => text[place] = r.pick(BYTES),
        3 if place < text.len() => drop(text.remove(place)),
        _ => text.insert(place, r.pick(BYTES)),
    }
}

/// A notation and a text, as it is or damaged.
pub fn any(r: &mut Random) -> (u64, Vec<u8>) {
    let notation = r.below(2);
    let text = match r.below(400) {
        0..=5 => nested(r, notation),
        6..=8 => long_row(r, notation),
        9 => de_bruijn(&posed::high(r).term),
        10..=13 if notation == CLASSIC => many_names(r),
        10..=220 => written(r, notation),
        _ => words(r, notation),
    };
    let mut text = text.into_bytes();
    for _ in 0..r.pick(&[0, 0, 1, 1, 3]) {
        damage(r, &mut text);
    }
    (notation, text)
}

/// Under caps around the nodes of its term.
pub fn pose(judge: &mut Judge, r: &mut Random) {
    let (notation, text) = any(r);
    let count = read(notation, &text).map_or(4, |t| nodes(&t));
    for cap in [count, r.pick(&[count - 1, count + 1, 1])] {
        judge.ask(&Call::Parse {
            notation,
            cap,
            text: &text,
        });
    }
}

/// A notation by a number that names none, and a cap that is refused.
pub fn unbounded(judge: &mut Judge, notation: u64, cap: u64, text: &[u8]) {
    for (notation, cap) in [(notation, 9), (0, cap), (1, cap), (notation, cap)] {
        judge.ask(&Call::Parse {
            notation,
            cap,
            text,
        });
    }
}
