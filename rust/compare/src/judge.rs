//! Holds the archive's answer and buffers to the reference, and the reference to the original; counts, and keeps the
//! smallest difference.
use crate::answer::Outcome;
use crate::archive::Archive;
use crate::call::{Call, Lengths};
use crate::original;
use crate::random::Random;
use crate::reference;
use crate::tally::Tally;
use std::time::Instant;

/// A difference, by the bytes of its inputs and what is wrong.
struct Difference {
    size: usize,
    words: String,
}

pub struct Judge {
    archive: Archive,
    tally: Tally,
    smallest: Option<Difference>,
    until: Option<Instant>,
    /// Chooses how much is lent.
    random: Random,
}

impl Judge {
    /// With a time after which it wants no more questions, or without.
    pub fn new(until: Option<Instant>) -> Judge {
        Judge {
            archive: Archive::new(),
            tally: Tally::default(),
            smallest: None,
            until,
            random: Random(0),
        }
    }

    pub fn is_late(&self) -> bool {
        self.until.is_some_and(|until| Instant::now() >= until)
    }

    pub fn comparisons(&self) -> u64 {
        self.tally.comparisons
    }

    /// One comparison: a call with so much lent. Returns what it had to be.
    pub fn ask_lent(&mut self, call: &Call, lent: Lengths) -> Outcome {
        let wanted = reference::outcome(call, lent);
        let got = self.archive.call(call, lent);
        self.tally.count(call.entry(), &wanted.answer);
        let wrong = if !original::agrees(call, &wanted) {
            Some(format!("the original: {:?}", original::outcome(call)))
        } else if got != wanted.answer {
            Some(format!("the archive: {got:?}"))
        } else {
            let buffer = self.archive.wrong_buffer(call, &wanted);
            buffer.map(|buffer| format!("the archive left something else in {buffer}"))
        };
        if let Some(wrong) = wrong {
            self.differs(call, lent, &wanted, &wrong);
        }
        wanted
    }

    fn differs(&mut self, call: &Call, lent: Lengths, wanted: &Outcome, wrong: &str) {
        self.tally.differences += 1;
        let size = call.inputs().iter().map(|s| s.len()).sum();
        if self.smallest.as_ref().is_none_or(|other| size < other.size) {
            let line = call.line(lent);
            let words = format!("ask {line}\n  wanted {wanted:?}\n  {wrong}");
            self.smallest = Some(Difference { size, words });
        }
    }

    /// A call with enough lent: just enough, or some more. From time to time also with one byte or number too few.
    pub fn ask(&mut self, call: &Call) -> Outcome {
        let Lengths { out, room } = needed(call);
        let more = self.random.pick(&[0, 5, 1, 0, 12]);
        let enough = Lengths {
            out: out + more,
            room: room + more,
        };
        let outcome = self.ask_lent(call, enough);
        match self.random.below(16) {
            0 if out > 0 => {
                let out = out - 1;
                self.ask_lent(call, Lengths { out, room });
            }
            1 if room > 0 => {
                let room = room - 1;
                self.ask_lent(call, Lengths { out, room });
            }
            _ => {}
        }
        outcome
    }

    /// Tells the counts and the smallest difference; whether there is none.
    pub fn report(&self) -> bool {
        self.tally.report();
        if let Some(difference) = &self.smallest {
            println!("smallest difference:\n{}", difference.words);
        }
        let (all, wrong) = (self.tally.comparisons, self.tally.differences);
        println!("{all} comparisons, {wrong} differences");
        wrong == 0
    }
}

/// The least that a call needs not to be refused by 2 or 13.
fn needed(call: &Call) -> Lengths {
    if let Call::Print { notation, term } = call {
        let out = reference::written(*notation, term).map_or(0, |text| text.len());
        return Lengths { out, room: 0 };
    }
    match call.cap() {
        Some(cap) if cap <= 65_536 => Lengths {
            out: 9 * cap as usize,
            room: 8 * cap as usize,
        },
        _ => Lengths::default(),
    }
}
