//! The answers that the original crate gives, one term after another.
use crate::{classic, de_bruijn, limit};
use copperjangle::*;

const ANSWERS: &str = include_str!("answers.txt");

#[test]
fn every_answer_is_that_of_the_original() {
    let mut term = Var(0);
    let mut terms = 0;
    for line in ANSWERS.lines().filter(|line| !line.starts_with('#')) {
        let (kind, rest) = line.split_once(' ').unwrap();
        match kind {
            "term" => {
                term = de_bruijn(rest);
                assert_eq!(format!("{term:?}"), rest);
                terms += 1;
            }
            "classic" => has_text(&term, rest),
            "asks" => is_asked(&term, rest),
            "eta" => comes_to(&term.eta(0), rest),
            _ => is_reduced(&term, line),
        }
    }
    assert_eq!(terms, 47);
}

fn has_text(term: &Term, text: &str) {
    assert_eq!(term.to_string(), text);
    if term.is_supercombinator() {
        assert_eq!(classic(text), *term);
    }
}

fn is_asked(term: &Term, answers: &str) {
    let free = if term.has_free_variables() {
        "free"
    } else {
        "closed"
    };
    let found = format!("{} {} {free}", term.max_depth(), term.max_free_index());
    assert_eq!(found, answers, "{term:?}");
    assert_eq!(term.is_supercombinator(), free == "closed");
}

/// The line has orders, then a limit, then what they come to.
fn is_reduced(term: &Term, line: &str) {
    let (first, rest) = line.split_at(line.find(|c: char| c.is_ascii_digit()).unwrap());
    let (most, answer) = rest.split_once(' ').unwrap();
    let most = most.parse().unwrap();
    for order in first.split_whitespace() {
        let outcome = term.reduce(order.parse().unwrap(), limit(most)).unwrap();
        comes_to(&outcome, answer);
        // No answer that is recorded uses up its limit and is finished.
        assert_eq!(
            outcome.is_finished(),
            outcome.steps() < most,
            "{order} {term:?}"
        );
    }
}

fn comes_to(outcome: &Outcome, answer: &str) {
    assert_eq!(format!("{} {:?}", outcome.steps(), outcome.term()), answer);
}
