//! How time grows with the input: the archive's nanoseconds a node, or a byte of text, at three sizes.
use crate::call::{Call, Lengths};
use crate::linear_rows::{rows, Grown, Input};
use crate::rows::with_commas;
use crate::tables::{figures, table};
use crate::timing::{Alone, Buffers, LONG_ALONE};
use std::collections::BTreeSet;

/// Printing has room for 20 bytes a node.
fn lengths(call: &Call, size: u64) -> Lengths {
    match call.cap() {
        Some(cap) => Lengths {
            out: 9 * cap as usize,
            room: 8 * cap as usize,
        },
        None => Lengths {
            out: 20 * size as usize,
            room: 0,
        },
    }
}

const ROUNDS: usize = 5;

/// Of inputs that take long.
const LONG_ROUNDS: usize = 2;

/// Least nanoseconds a node or byte. A round has all three sizes, so that a slow time of the machine meets all of them.
fn times(inputs: &[Input; 3], buffers: &mut Buffers) -> [f64; 3] {
    let none = Alone {
        archive: f64::MAX,
        clearing: f64::MAX,
    };
    let mut least = [none; 3];
    for round in 0..ROUNDS {
        for (input, least) in inputs.iter().zip(&mut least) {
            if round < LONG_ROUNDS || least.archive < LONG_ALONE {
                let call = input.call();
                let lent = lengths(&call, input.size);
                *least = least.least(buffers.time_alone(call, lent));
            }
        }
    }
    let each = |i: usize| (least[i].archive - least[i].clearing) / inputs[i].size as f64;
    [0, 1, 2].map(|i| 1000.0 * each(i))
}

/// Those that come at some size.
fn refusals(inputs: &[Input; 3], buffers: &mut Buffers) -> String {
    let refusal = |input: &Input| {
        let call = input.call();
        buffers.refusal(&call, lengths(&call, input.size))
    };
    let all: BTreeSet<u64> = inputs.iter().map(refusal).filter(|r| *r != 0).collect();
    let all: Vec<String> = all.iter().map(u64::to_string).collect();
    all.join(", ")
}

const HEADS: &str = "| called | input | sizes | ns each, small | middle | large | large / small \
    | refused by |";

fn line(grown: &Grown, buffers: &mut Buffers) -> String {
    let sizes = grown.inputs.each_ref().map(|input| with_commas(input.size));
    let refusals = refusals(&grown.inputs, buffers);
    let [small, middle, large] = times(&grown.inputs, buffers);
    let cells = [
        grown.entry.clone(),
        grown.name.clone(),
        format!("{} {}", sizes.join(", "), grown.unit),
        figures(small),
        figures(middle),
        figures(large),
        format!("{:.2}", large / small),
        refusals,
    ];
    format!("| {} |", cells.join(" | "))
}

const TITLE: &str = "How time grows with the input, without clearing: 1.0 is linear.";

/// Of the rows that have one of the words.
pub fn measure(buffers: &mut Buffers, wanted: impl Fn(&str) -> bool) -> Option<String> {
    let mut rows = rows();
    rows.retain(|row| wanted(&format!("linear {} {}", row.entry, row.name)));
    if rows.is_empty() {
        return None;
    }
    let lines: Vec<String> = rows.iter().map(|row| line(row, buffers)).collect();
    Some(format!("{TITLE}\n\n{}", table(HEADS, &lines)))
}
