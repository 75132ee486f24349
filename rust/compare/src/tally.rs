//! How many comparisons were made of each entry point, and how they ended.
use crate::answer::Answer;
use crate::call::ENTRIES;
use std::array::from_fn;

/// Given, finished, unfinished, then the refusals by number.
const ENDINGS: usize = 16;

#[derive(Default)]
pub struct Tally {
    pub comparisons: u64,
    pub differences: u64,
    counts: [[u64; ENDINGS]; ENTRIES.len()],
}

fn ending(entry: usize, answer: &Answer) -> usize {
    let runs = matches!(ENTRIES[entry], "eta" | "reduce");
    match answer.refusal {
        0 if !runs => 0,
        0 if answer.finished == 1 => 1,
        0 => 2,
        number => 2 + number as usize,
    }
}

fn name(ending: usize) -> String {
    match ending {
        0 => "given".to_string(),
        1 => "finished".to_string(),
        2 => "unfinished".to_string(),
        _ => format!("refused {}", ending - 2),
    }
}

fn told(counts: &[u64]) -> String {
    let told = |(ending, count): (usize, &u64)| format!("{} {count}", name(ending));
    let some = counts.iter().enumerate().filter(|(_, count)| **count > 0);
    some.map(told).collect::<Vec<String>>().join(", ")
}

impl Tally {
    pub fn count(&mut self, entry: usize, answer: &Answer) {
        self.comparisons += 1;
        self.counts[entry][ending(entry, answer)] += 1;
    }

    /// A line for each entry point, and one for all.
    pub fn report(&self) {
        for (entry, counts) in ENTRIES.iter().zip(&self.counts) {
            let all: u64 = counts.iter().sum();
            if all > 0 {
                println!("{entry} {all}: {}", told(counts));
            }
        }
        let sums: [u64; ENDINGS] = from_fn(|i| self.counts.iter().map(|counts| counts[i]).sum());
        println!("all {}: {}", self.comparisons, told(&sums));
    }
}
