//! One call of an entry point: its numbers and its inputs, and the line that repeats it.
use crate::term::{hex, unhex};

#[derive(Clone, Copy, PartialEq, Eq, Debug)]
pub enum Query {
    Nodes,
    Height,
    MaxDepth,
    MaxFreeIndex,
    HasFreeVariables,
    IsSupercombinator,
}

pub const QUERIES: [Query; 6] = [
    Query::Nodes,
    Query::Height,
    Query::MaxDepth,
    Query::MaxFreeIndex,
    Query::HasFreeVariables,
    Query::IsSupercombinator,
];

/// The entry points, the queries of one term first.
pub const ENTRIES: [&str; 12] = [
    "nodes",
    "height",
    "max_depth",
    "max_free_index",
    "has_free_variables",
    "is_supercombinator",
    "equality",
    "print",
    "parse",
    "apply",
    "eta",
    "reduce",
];

pub const DE_BRUIJN: u64 = 0;
pub const CLASSIC: u64 = 1;

#[derive(Clone, Copy, Debug)]
pub enum Call<'a> {
    Query(Query, &'a [u8]),
    Equality(&'a [u8], &'a [u8]),
    Print {
        notation: u64,
        term: &'a [u8],
    },
    Parse {
        notation: u64,
        cap: u64,
        text: &'a [u8],
    },
    Apply {
        cap: u64,
        abstraction: &'a [u8],
        argument: &'a [u8],
    },
    Eta {
        limit: u64,
        cap: u64,
        term: &'a [u8],
    },
    Reduce {
        order: u64,
        limit: u64,
        cap: u64,
        term: &'a [u8],
    },
}

/// How many bytes of output and how many numbers of room are lent, where a call takes them.
#[derive(Clone, Copy, Default, Debug)]
pub struct Lengths {
    pub out: usize,
    pub room: usize,
}

impl<'a> Call<'a> {
    /// Its place in `ENTRIES`.
    pub fn entry(&self) -> usize {
        match self {
            Call::Query(query, _) => *query as usize,
            Call::Equality(..) => 6,
            Call::Print { .. } => 7,
            Call::Parse { .. } => 8,
            Call::Apply { .. } => 9,
            Call::Eta { .. } => 10,
            Call::Reduce { .. } => 11,
        }
    }

    /// Queries and printing state none.
    pub fn cap(&self) -> Option<u64> {
        match self {
            Call::Query(..) | Call::Equality(..) | Call::Print { .. } => None,
            Call::Parse { cap, .. } | Call::Apply { cap, .. } => Some(*cap),
            Call::Eta { cap, .. } | Call::Reduce { cap, .. } => Some(*cap),
        }
    }

    pub fn inputs(&self) -> Vec<&'a [u8]> {
        match *self {
            Call::Query(_, term) | Call::Print { term, .. } => vec![term],
            Call::Eta { term, .. } | Call::Reduce { term, .. } => vec![term],
            Call::Parse { text, .. } => vec![text],
            Call::Equality(first, second) => vec![first, second],
            Call::Apply {
                abstraction,
                argument,
                ..
            } => vec![abstraction, argument],
        }
    }

    /// The same call with other inputs.
    pub fn on<'b>(&self, first: &'b [u8], second: &'b [u8]) -> Call<'b> {
        match *self {
            Call::Query(query, _) => Call::Query(query, first),
            Call::Equality(..) => Call::Equality(first, second),
            Call::Print { notation, .. } => Call::Print {
                notation,
                term: first,
            },
            Call::Parse { notation, cap, .. } => Call::Parse {
                notation,
                cap,
                text: first,
            },
            Call::Apply { cap, .. } => Call::Apply {
                cap,
                abstraction: first,
                argument: second,
            },
            Call::Eta { limit, cap, .. } => Call::Eta {
                limit,
                cap,
                term: first,
            },
            Call::Reduce {
                order, limit, cap, ..
            } => Call::Reduce {
                order,
                limit,
                cap,
                term: first,
            },
        }
    }

    fn numbers(&self) -> Vec<u64> {
        match *self {
            Call::Query(..) | Call::Equality(..) => vec![],
            Call::Print { notation, .. } => vec![notation],
            Call::Parse { notation, cap, .. } => vec![notation, cap],
            Call::Apply { cap, .. } => vec![cap],
            Call::Eta { limit, cap, .. } => vec![limit, cap],
            Call::Reduce {
                order, limit, cap, ..
            } => vec![order, limit, cap],
        }
    }

    /// The line that `ask` takes: the entry point, its numbers, its inputs in hex after an `x`, and what is lent.
    pub fn line(&self, lent: Lengths) -> String {
        let mut words = vec![ENTRIES[self.entry()].to_string()];
        words.extend(self.numbers().iter().map(u64::to_string));
        words.extend(self.inputs().iter().map(|s| format!("x{}", hex(s))));
        words.extend([lent.out.to_string(), lent.room.to_string()]);
        words.join(" ")
    }
}

/// A call with inputs of its own, as a line has it.
pub struct Written {
    entry: usize,
    numbers: Vec<u64>,
    inputs: Vec<Vec<u8>>,
}

impl Written {
    /// What `line` has written.
    pub fn read(words: &[String]) -> Option<(Written, Lengths)> {
        let (name, words) = words.split_first()?;
        let mut written = Written {
            entry: ENTRIES.iter().position(|entry| entry == name)?,
            numbers: vec![],
            inputs: vec![],
        };
        for word in words {
            match word.strip_prefix('x') {
                Some(digits) => written.inputs.push(unhex(digits)),
                None => written.numbers.push(word.parse().ok()?),
            }
        }
        let room = written.numbers.pop()? as usize;
        let out = written.numbers.pop()? as usize;
        Some((written, Lengths { out, room }))
    }

    pub fn call(&self) -> Option<Call<'_>> {
        let inputs: Vec<&[u8]> = self.inputs.iter().map(Vec::as_slice).collect();
        Some(match (self.entry, &self.numbers[..], &inputs[..]) {
            (entry @ 0..=5, [], &[term]) => Call::Query(QUERIES[entry], term),
            (6, [], &[first, second]) => Call::Equality(first, second),
            (7, &[notation], &[term]) => Call::Print { notation, term },
            (8, &[notation, cap], &[text]) => Call::Parse {
                notation,
                cap,
                text,
            },
            (9, &[cap], &[abstraction, argument]) => Call::Apply {
                cap,
                abstraction,
                argument,
            },
            (10, &[limit, cap], &[term]) => Call::Eta { limit, cap, term },
            (11, &[order, limit, cap], &[term]) => Call::Reduce {
                order,
                limit,
                cap,
                term,
            },
            _ => return None,
        })
    }
}
