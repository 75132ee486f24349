//! What is timed: a job that both sides do, from the same bytes or the same text.
use crate::call::{Call, Lengths, CLASSIC};
use crate::original::{decode, encode, order};
use crate::reduction::{Order, ORDERS};
use lambda_calculus::term::{Notation, Term};
use std::hint::black_box;

pub enum Job {
    Reduce {
        order: Order,
        limit: u64,
        term: Vec<u8>,
    },
    Apply {
        abstraction: Vec<u8>,
        argument: Vec<u8>,
    },
    Eta {
        term: Vec<u8>,
    },
    Parse {
        notation: u64,
        text: String,
    },
    /// With so many bytes of output.
    Print {
        notation: u64,
        term: Vec<u8>,
        out: usize,
    },
}

pub fn notation_name(notation: u64) -> &'static str {
    if notation == CLASSIC {
        "classic"
    } else {
        "De Bruijn"
    }
}

fn notation_of(notation: u64) -> Notation {
    if notation == CLASSIC {
        Notation::Classic
    } else {
        Notation::DeBruijn
    }
}

impl Job {
    /// The order or the notation.
    pub fn way(&self) -> String {
        match self {
            Job::Reduce { order, .. } => format!("{order:?}"),
            Job::Parse { notation, .. } | Job::Print { notation, .. } => {
                notation_name(*notation).to_string()
            }
            Job::Apply { .. } | Job::Eta { .. } => String::new(),
        }
    }

    pub fn call(&self, cap: u64) -> Call<'_> {
        match self {
            Job::Reduce { order, limit, term } => Call::Reduce {
                order: *order as u64,
                limit: *limit,
                cap,
                term,
            },
            Job::Apply {
                abstraction,
                argument,
            } => Call::Apply {
                cap,
                abstraction,
                argument,
            },
            Job::Eta { term } => Call::Eta {
                limit: 0,
                cap,
                term,
            },
            Job::Parse { notation, text } => Call::Parse {
                notation: *notation,
                cap,
                text: text.as_bytes(),
            },
            Job::Print { notation, term, .. } => Call::Print {
                notation: *notation,
                term,
            },
        }
    }

    /// What is lent to the archive: just enough, but for printing.
    pub fn lengths(&self, cap: u64) -> Lengths {
        match self {
            Job::Print { out, .. } => Lengths { out: *out, room: 0 },
            _ => Lengths {
                out: 9 * cap as usize,
                room: 8 * cap as usize,
            },
        }
    }

    /// What the original does once; its terms and texts are dropped, and its bytes go to a vector that is used again.
    pub fn original(&self) -> Box<dyn FnMut() + '_> {
        match self {
            Job::Reduce { order, limit, term } => reduced(*order, *limit as usize, term),
            Job::Apply {
                abstraction,
                argument,
            } => applied(abstraction, argument),
            Job::Eta { term } => coded(term, |t| t.eta(0)),
            Job::Parse { notation, text } => parsed(notation_of(*notation), text),
            Job::Print { notation, term, .. } => printed(notation_of(*notation), term),
        }
    }
}

/// Bytes to a term, what is to be done with it, and bytes again.
fn coded<'a>(s: &'a [u8], work: impl Fn(&mut Term) -> usize + 'a) -> Box<dyn FnMut() + 'a> {
    let mut out = vec![];
    Box::new(move || {
        let mut t = decode(black_box(s), &mut 0);
        black_box(work(&mut t));
        out.clear();
        encode(&t, &mut out);
        black_box(&out);
    })
}

fn reduced(by: Order, limit: usize, s: &[u8]) -> Box<dyn FnMut() + '_> {
    let by = order(ORDERS[by as usize]);
    coded(s, move |t| t.reduce(by, limit))
}

fn applied<'a>(s: &'a [u8], argument: &'a [u8]) -> Box<dyn FnMut() + 'a> {
    coded(s, move |t| {
        let argument = decode(black_box(argument), &mut 0);
        t.apply(&argument).is_ok() as usize
    })
}

fn parsed(notation: Notation, text: &str) -> Box<dyn FnMut() + '_> {
    Box::new(move || {
        black_box(lambda_calculus::parse(black_box(text), notation)).ok();
    })
}

fn printed(notation: Notation, s: &[u8]) -> Box<dyn FnMut()> {
    let t = decode(s, &mut 0);
    Box::new(move || {
        let t = black_box(&t);
        black_box(match notation {
            Notation::Classic => format!("{t}"),
            Notation::DeBruijn => format!("{t:?}"),
        });
    })
}
