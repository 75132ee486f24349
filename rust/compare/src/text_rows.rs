//! The texts that are read and the terms that are printed in the benchmark: closed, and at most 512 high.
use crate::call::{CLASSIC, DE_BRUIJN};
use crate::jobs::Job;
use crate::random::{numeral, term, Free, Random};
use crate::rows::{with_commas, Row};
use crate::term::*;

/// Abstractions around one variable, at most so many nodes together, in each part of a tree of applications.
const CHAIN: u64 = 250;

fn chains(nodes: u64) -> Term {
    let left = (nodes - 1) / 2;
    let part = |nodes: u64| match nodes {
        0..=CHAIN => binders(nodes - 1, var(nodes / 2)),
        _ => chains(nodes),
    };
    app(part(left), part(nodes - 1 - left))
}

/// Variables under applications, in the body of three abstractions; the nodes are even.
fn variables(nodes: u64) -> Term {
    fn part(first: u64, count: u64) -> Term {
        if count == 1 {
            return var(1 + first % 3);
        }
        let left = count / 2;
        app(part(first, left), part(first + left, count - left))
    }
    binders(3, part(0, nodes / 2 - 1))
}

fn random(nodes: u64) -> Term {
    let body = term(&mut Random(nodes), nodes - 3, 3, Free::None);
    binders(3, body)
}

fn terms() -> Vec<(&'static str, Term)> {
    let mut terms = vec![("numeral", numeral(3)), ("numeral", numeral(498))];
    for size in [10, 1000, 65_536] {
        terms.push(("abstractions under applications", chains(size)));
        terms.push(("applications of variables", variables(size)));
        terms.push(("random", random(size)));
    }
    terms
}

pub fn text_of(notation: u64, t: &Term) -> String {
    if notation == CLASSIC {
        classic(t)
    } else {
        de_bruijn(t)
    }
}

pub const NOTATIONS: [u64; 2] = [DE_BRUIJN, CLASSIC];

/// Printing has room to spare, or just as much as the text needs.
pub const GROUPS: [&str; 3] = ["parse", "print", "print, tight"];

fn parse_row(name: String, notation: u64, t: &Term) -> Row {
    let text = text_of(notation, t);
    Row::new(GROUPS[0], name, Job::Parse { notation, text })
}

fn print_row(group: &'static str, name: String, notation: u64, t: &Term, out: usize) -> Row {
    let term = bytes(t);
    let job = Job::Print {
        notation,
        term,
        out,
    };
    Row::new(group, name, job)
}

pub fn rows() -> Vec<Row> {
    let (mut read, mut spare, mut tight) = (vec![], vec![], vec![]);
    for (name, t) in terms() {
        for notation in NOTATIONS {
            let name = format!("{name}, {} nodes", with_commas(nodes(&t)));
            let (ample, length) = (20 * nodes(&t) as usize, text_of(notation, &t).len());
            read.push(parse_row(name.clone(), notation, &t));
            spare.push(print_row(GROUPS[1], name.clone(), notation, &t, ample));
            tight.push(print_row(GROUPS[2], name, notation, &t, length));
        }
    }
    read.into_iter().chain(spare).chain(tight).collect()
}
