//! Tests of the whole crate, over the archive.
mod answers;
mod bounds;
mod examples;
mod refusals;

use copperjangle::*;

fn classic(text: &str) -> Term {
    parse(text, Classic).unwrap_or_else(|refusal| panic!("{text}: {refusal}"))
}

fn de_bruijn(text: &str) -> Term {
    parse(text, DeBruijn).unwrap_or_else(|refusal| panic!("{text}: {refusal}"))
}

fn limit(steps: usize) -> Limit {
    Limit::new(steps).unwrap()
}
