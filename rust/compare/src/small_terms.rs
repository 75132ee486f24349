//! All small terms with indices 0 to 3, asked of every entry point that takes coded terms, and their texts read again.
use crate::call::{Call, CLASSIC, DE_BRUIJN, QUERIES};
use crate::judge::Judge;
use crate::term::*;

/// More nodes than any small term comes to in a few steps, mostly.
const SOME: u64 = 40;

/// The coded terms of each number of nodes up to one.
pub fn all_terms(most: usize) -> Vec<Vec<Vec<u8>>> {
    let variables = (0..4).map(|i| bytes(&var(i))).collect();
    let mut all: Vec<Vec<Vec<u8>>> = vec![vec![], variables];
    for n in 2..=most {
        let mut here: Vec<Vec<u8>> = all[n - 1].iter().map(|b| [&[2], &b[..]].concat()).collect();
        for left in 1..n - 1 {
            for l in &all[left] {
                let rights = all[n - 1 - left].iter();
                here.extend(rights.map(|r| [&[3], &l[..], &r[..]].concat()));
            }
        }
        all.push(here);
    }
    all
}

/// Limits with caps that leave no room, a little and enough.
fn runs(judge: &mut Judge, n: u64, term: &[u8]) {
    for order in 0..7 {
        for (limit, cap) in [(1, n), (2, SOME), (3, n + 1), (4, SOME), (5, n), (6, SOME)] {
            judge.ask(&Call::Reduce {
                order,
                limit,
                cap,
                term,
            });
        }
    }
    for (limit, cap) in [(0, n), (1, n), (2, n + 1), (3, SOME), (4, n)] {
        judge.ask(&Call::Eta { limit, cap, term });
    }
}

fn texts(judge: &mut Judge, n: u64, term: &[u8]) {
    for notation in [DE_BRUIJN, CLASSIC] {
        let text = judge.ask(&Call::Print { notation, term }).first;
        let (text, cap) = (&text[..], n);
        judge.ask(&Call::Parse {
            notation,
            cap,
            text,
        });
    }
}

/// Equality and `apply` of a term and all of so many nodes.
fn pairs(judge: &mut Judge, first: &[u8], n: u64, others: &[Vec<u8>], m: u64) {
    for (i, second) in others.iter().enumerate() {
        judge.ask(&Call::Equality(first, second));
        judge.ask(&Call::Apply {
            cap: [SOME, n + m, n.max(m)][i % 3],
            abstraction: first,
            argument: second,
        });
    }
}

/// All terms of up to so many nodes, and all pairs of as many nodes together.
pub fn run(judge: &mut Judge, most: u64) {
    let all = all_terms(most as usize);
    for (n, terms) in all.iter().enumerate() {
        for term in terms {
            if judge.is_late() {
                return;
            }
            for query in QUERIES {
                judge.ask(&Call::Query(query, term));
            }
            runs(judge, n as u64, term);
            texts(judge, n as u64, term);
            for (m, others) in all.iter().enumerate().skip(1).take(most as usize - n) {
                pairs(judge, term, n as u64, others, m as u64);
            }
        }
    }
}
