//! Questions of crates/replay and their answers, line by line, for the gate: no Rust is at hand there.
use crate::answer::Outcome;
use crate::call::{Call, Lengths, CLASSIC, ENTRIES};
use crate::cases;
use crate::chains;
use crate::original;
use crate::questions;
use crate::reduction::ORDERS;
use crate::reductions;
use crate::reference;
use crate::spelling::{folded, spelled};
use std::collections::HashSet;
use std::fs;

/// The cap of the questions that the original answers.
pub const CAP: u64 = 4096;

/// Longer lines that the original answers would make up most of the file.
const MOST_LINE: usize = 600;

/// What has more bytes than these is told by its checksum.
const MOST_TOLD: usize = 6000;

/// What is lent beyond the need of a cap, so that a write there shows.
pub const MORE: usize = 5;

/// The Adler-32 checksum of bytes.
fn checksum(bytes: &[u8]) -> u64 {
    let (mut low, mut high) = (1, 0);
    for b in bytes {
        low = (low + *b as u64) % 65521;
        high = (high + low) % 65521;
    }
    high * 65536 + low
}

/// In an order, or in all of them.
fn question(call: &Call, all_orders: bool) -> String {
    let notation = |number| match number {
        0 => "dbr",
        CLASSIC => "cla",
        _ => "none",
    };
    let words = match *call {
        Call::Print { notation: n, .. } | Call::Parse { notation: n, .. } => {
            notation(n).to_string()
        }
        Call::Eta { limit, .. } => limit.to_string(),
        Call::Reduce { order, limit, .. } => match ORDERS.get(order as usize) {
            _ if all_orders => format!("ALL {limit}"),
            Some(order) => format!("{order:?} {limit}"),
            None => format!("none {limit}"),
        },
        _ => String::new(),
    };
    let mut line = ENTRIES[call.entry()].as_bytes().to_vec();
    if !words.is_empty() {
        line.extend([b" ", words.as_bytes()].concat());
    }
    for input in call.inputs() {
        line.push(b' ');
        match call {
            Call::Parse { .. } => line.extend(input),
            _ => line.extend(spelled(input)),
        }
    }
    folded(&line)
}

/// The six numbers of the answer, and what stands first in the output: a text as it is, a term as it is spelled.
fn answer(call: &Call, outcome: &Outcome) -> String {
    let Outcome { answer, first } = outcome;
    let numbers = [
        answer.refusal,
        answer.finished,
        answer.value,
        answer.steps,
        answer.place,
        answer.code,
    ];
    let numbers = numbers.map(|number| number.to_string()).join(" ");
    let text = |bytes: &[u8]| String::from_utf8(bytes.to_vec()).expect("a text of the domain");
    if first.is_empty() {
        numbers
    } else if first.len() > MOST_TOLD {
        format!("{numbers} checksum {}", checksum(first))
    } else if matches!(call, Call::Print { .. }) {
        format!("{numbers} {}", text(first))
    } else {
        format!("{numbers} {}", text(&spelled(first)))
    }
}

#[derive(Default)]
pub struct Replay {
    input: String,
    output: String,
    asked: HashSet<String>,
    lent: (u64, Lengths),
    calls: u64,
    answered_by_original: u64,
}

/// Whether the original refuses in the same way, or nothing is refused; it has no other refusals.
fn original_answers(outcome: &Outcome) -> bool {
    matches!(outcome.answer.refusal, 0 | 5 | 6 | 8 | 11)
}

impl Replay {
    /// A line that asks nothing is repeated.
    pub fn title(&mut self, words: &str) {
        self.push(words, words);
    }

    fn push(&mut self, question: &str, answer: &str) {
        self.input += &format!("{question}\n");
        self.output += &format!("{answer}\n");
    }

    /// What the calls from here on state and are lent.
    pub fn lend(&mut self, cap: u64, lent: Lengths) {
        let (old, Lengths { out, room }) = self.lent;
        if (old, out, room) != (cap, lent.out, lent.room) {
            self.lent = (cap, lent);
            self.title(&format!("lend {cap} {} {}", lent.out, lent.room));
        }
    }

    /// As much as a cap asks for, and a little more.
    pub fn state(&mut self, cap: u64) {
        let held = cap.min(65_536) as usize;
        let (out, room) = (9 * held + MORE, 8 * held + MORE);
        self.lend(cap, Lengths { out, room });
    }

    pub fn stated(&self) -> u64 {
        self.lent.0
    }

    /// Adds a question that the original can answer and that is not there yet; tells whether it did.
    pub fn add(&mut self, call: &Call) -> bool {
        let expected = reference::outcome(call, self.lent.1);
        if !original_answers(&expected) {
            return false;
        }
        let outcome = original::outcome(call);
        assert_eq!(outcome, expected, "{call:?}: the reference differs");
        let (question, answer) = (question(call, false), answer(call, &outcome));
        let fits = question.len().max(answer.len()) <= MOST_LINE;
        if fits && self.asked.insert(question.clone()) {
            self.calls += 1;
            self.answered_by_original += 1;
            self.push(&question, &answer);
            return true;
        }
        false
    }

    /// What the reference says; the original has to say the same wherever it has a say.
    fn decided(&mut self, call: &Call) -> String {
        let outcome = reference::outcome(call, self.lent.1);
        self.calls += 1;
        self.answered_by_original += original_answers(&outcome) as u64;
        assert!(
            original::agrees(call, &outcome),
            "{call:?}: the original differs"
        );
        answer(call, &outcome)
    }

    /// Adds a question that the rules decide.
    pub fn decide(&mut self, call: &Call) {
        let answer = self.decided(call);
        self.push(&question(call, false), &answer);
    }

    /// Adds a reduction in each order, by one line.
    pub fn decide_in_all_orders(&mut self, limit: u64, term: &[u8]) {
        let cap = self.stated();
        let in_order = |order| Call::Reduce {
            order,
            limit,
            cap,
            term,
        };
        let answers: Vec<String> = (0..7).map(|order| self.decided(&in_order(order))).collect();
        self.push(&question(&in_order(0), true), &answers.join("\n"));
    }
}

pub fn write(folder: &str) -> bool {
    let mut replay = Replay::default();
    for part in [questions::all, cases::all, chains::all, reductions::all] {
        part(&mut replay);
    }
    let Replay { input, output, .. } = &replay;
    let (calls, same) = (replay.calls, replay.answered_by_original);
    println!(
        "{calls} calls, of which the original answered {same}, and {} in its own section",
        replay.asked.len()
    );
    println!(
        "{} bytes of questions, {} of answers",
        input.len(),
        output.len()
    );
    fs::write(format!("{folder}/stdin"), input).unwrap();
    fs::write(format!("{folder}/stdout"), output).unwrap();
    true
}
