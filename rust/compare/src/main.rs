//! Compares the archive with the original crate and with a reference written from the rules, and times both.
mod answer;
mod archive;
mod bench;
mod call;
mod cases;
mod chains;
mod eta;
mod examples;
mod extremes;
mod growth;
mod hostile;
mod hostile_texts;
mod jobs;
mod judge;
mod lent;
mod linear;
mod linear_rows;
mod original;
mod picture;
mod posed;
mod questions;
mod random;
mod reading;
mod reduce_rows;
mod reduction;
mod reductions;
mod reference;
mod replay;
mod rows;
mod small_terms;
mod small_texts;
mod spelling;
mod step_rows;
mod tables;
mod tally;
mod term;
mod text_rows;
mod timing;

use call::Written;
use judge::Judge;
use random::Random;
use std::env;
use std::time::{Duration, Instant};

const USAGE: &str = "all [SEED [SECONDS]] | texts [LENGTH] | terms [NODES] | random SEED COUNT
ten-million [SEED] | ask CALL | replay [FOLDER] | time [WORDS]";

/// Terms are boxed trees, walked and dropped by recursion: what is too high for the archive may be walked here too.
const STACK: usize = 1 << 30;

/// A path beside this project, in the repository.
fn in_repository(path: &str) -> String {
    format!("{}/../../{path}", env!("CARGO_MANIFEST_DIR"))
}

/// Everything in small, and random inputs for the rest of the time.
fn all(seed: u64, seconds: u64) -> bool {
    println!("seed {seed}");
    let mut judge = Judge::new(Some(Instant::now() + Duration::from_secs(seconds)));
    small_texts::run(&mut judge, 3);
    small_terms::run(&mut judge, 4);
    extremes::pose(&mut judge, &mut Random(seed));
    hostile::run(&mut judge, seed, u64::MAX);
    judge.report()
}

/// All texts of up to 6 characters, all terms of up to 9 nodes, and random inputs for the rest of ten million.
fn ten_million(seed: u64) -> bool {
    println!("seed {seed}");
    let mut judge = Judge::new(None);
    small_texts::run(&mut judge, 6);
    println!("{} comparisons after the texts", judge.comparisons());
    small_terms::run(&mut judge, 9);
    println!("{} comparisons after the terms", judge.comparisons());
    let rest = 10_000_000_u64.saturating_sub(judge.comparisons());
    hostile::run(&mut judge, seed, rest);
    judge.report()
}

/// What one mode asks.
fn alone(ask: impl FnOnce(&mut Judge)) -> bool {
    let mut judge = Judge::new(None);
    ask(&mut judge);
    judge.report()
}

fn random(seed: u64, count: u64) -> bool {
    println!("seed {seed}");
    alone(|judge| hostile::run(judge, seed, count))
}

fn ask(words: &[String]) -> bool {
    let Some((written, lent)) = Written::read(words) else {
        return usage();
    };
    match written.call() {
        Some(call) => alone(|judge| println!("{:?}", judge.ask_lent(&call, lent))),
        None => usage(),
    }
}

fn usage() -> bool {
    eprintln!("{USAGE}");
    false
}

fn run(words: &[String]) -> bool {
    let number = |i: usize, otherwise: u64| match words.get(i) {
        Some(word) => word.parse().expect("a number"),
        None => otherwise,
    };
    let folder = |otherwise: &str| words.get(1).cloned().unwrap_or(in_repository(otherwise));
    match words.first().map(String::as_str) {
        Some("all") => all(number(1, 1), number(2, 10)),
        Some("texts") => alone(|judge| small_texts::run(judge, number(1, 5))),
        Some("terms") => alone(|judge| small_terms::run(judge, number(1, 7))),
        Some("random") => random(number(1, 1), number(2, 100_000)),
        Some("ten-million") => ten_million(number(1, 1)),
        Some("ask") => ask(&words[1..]),
        Some("replay") => replay::write(&folder("crates/replay")),
        Some("time") => bench::run(&words[1..]),
        _ => usage(),
    }
}

fn main() {
    let words: Vec<String> = env::args().skip(1).collect();
    let thread = std::thread::Builder::new().stack_size(STACK);
    let fine = thread.spawn(move || run(&words)).unwrap().join().unwrap();
    std::process::exit(if fine { 0 } else { 1 });
}
