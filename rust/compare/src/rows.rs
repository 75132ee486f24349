//! The rows that are timed: jobs with their names, in groups, and the trees that they are made of.
use crate::jobs::Job;
use crate::term::*;
use crate::{reduce_rows, step_rows, text_rows};

pub struct Row {
    pub group: &'static str,
    pub name: String,
    pub job: Job,
}

impl Row {
    pub fn new(group: &'static str, name: impl Into<String>, job: Job) -> Row {
        Row {
            group,
            name: name.into(),
            job,
        }
    }
}

/// A full tree of applications over so many copies of a leaf.
pub fn tree(leaf: &Term, count: u64) -> Term {
    if count == 1 {
        leaf.clone()
    } else {
        app(tree(leaf, count / 2), tree(leaf, count - count / 2))
    }
}

/// A row of so many copies of a variable, under one binder or two.
pub fn copies(count: u64, index: u64) -> Term {
    let row = (0..count).fold(var(9), |t, _| app(t, var(index)));
    binders(index, row)
}

/// With a comma before every three figures.
pub fn with_commas(n: u64) -> String {
    if n < 1000 {
        n.to_string()
    } else {
        format!("{},{:03}", with_commas(n / 1000), n % 1000)
    }
}

pub fn rows() -> Vec<Row> {
    let mut rows = reduce_rows::rows();
    rows.extend(step_rows::rows());
    rows.extend(text_rows::rows());
    rows
}
