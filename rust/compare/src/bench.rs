//! The mode `time`: all rows measured and told, and the tables and the picture put into docs.
use crate::growth;
use crate::in_repository;
use crate::jobs::notation_name;
use crate::linear;
use crate::picture;
use crate::reduction::ORDERS;
use crate::rows::rows;
use crate::tables::*;
use crate::text_rows::{self, NOTATIONS};
use crate::timing::{Buffers, MOST_NODES};
use std::{env, fs};

const PAGE: &str = "docs/BENCHMARKS.md";
const ROWS: &str = "docs/ROWS.md";
const PICTURE: &str = "docs/ratios.svg";

/// The cap of a row is so many times the least one, unless TIMES in the environment says otherwise.
const TIMES_LEAST: u64 = 4;

const FROM_HERE: &str = "<!-- rows from here -->\n";
const TO_HERE: &str = "<!-- rows to here -->\n";

/// What was measured, told row by row, and which rows are refused under any cap.
fn measure(buffers: &mut Buffers, wanted: impl Fn(&str) -> bool) -> (Vec<Measured>, Vec<String>) {
    let number =
        |name, otherwise| env::var(name).map_or(otherwise, |n| n.parse().expect("a number"));
    let (first_cap, times_least) = (number("CAP", 1), number("TIMES", TIMES_LEAST));
    let (mut measured, mut refused) = (vec![], vec![]);
    for row in rows() {
        let way = row.job.way();
        if !wanted(&format!("{} {} {way}", row.group, row.name)) {
            continue;
        }
        match buffers.least_cap(&row.job, first_cap) {
            Ok(least) => {
                let cap = (times_least * least).min(MOST_NODES as u64);
                let times = buffers.time(&row.job, cap);
                measured.push(Measured::new(row, cap, times));
                println!("{}", measured.last().unwrap().line());
            }
            Err(refusal) => refused.push(format!("{}, {way}, by {refusal}", row.name)),
        }
    }
    (measured, refused)
}

fn refused_line(refused: &[String]) -> String {
    match refused {
        [] => "No row is refused.".to_string(),
        _ => format!("Refused under any cap: {}.", refused.join("; ")),
    }
}

fn orders() -> Vec<String> {
    ORDERS.iter().map(|order| format!("{order:?}")).collect()
}

/// The ratios of all rows, in tables that are short enough to be kept.
fn ratios(measured: &[Measured]) -> String {
    let term = |r: &Measured| format!("{} | {}", r.group, r.name);
    let order_heads = format!("| group | row | {} |", orders().join(" | "));
    let texts: Vec<String> = text_rows::GROUPS
        .iter()
        .flat_map(|group| NOTATIONS.map(|n| format!("{group}: {}", notation_name(n))))
        .collect();
    let text_heads = format!("| row | {} |", texts.join(" | "));
    let tables = [
        side_by_side(measured, [term, |r| r.way.clone()], &orders(), &order_heads),
        side_by_side(
            measured,
            [term, |r| r.way.clone()],
            &[String::new()],
            "| group | row | ratio |",
        ),
        side_by_side(
            measured,
            [|r| r.name.clone(), |r| format!("{}: {}", r.group, r.way)],
            &texts,
            &text_heads,
        ),
    ];
    tables.into_iter().flatten().collect::<Vec<_>>().join("\n")
}

/// The page of all rows, with their times.
fn rows_page(measured: &[Measured]) -> String {
    let lines: Vec<String> = measured.iter().map(Measured::line).collect();
    let said =
        "All rows of the benchmark as it was last run: [BENCHMARKS](BENCHMARKS.md) says how.";
    format!(
        "# Rows\n\n{said}\n\n{}\n{}\n",
        headed(ROW_HEADS),
        lines.join("\n")
    )
}

/// Puts the text between the two marks of the page, if it has them.
fn put_into_page(text: &str) {
    let path = in_repository(PAGE);
    let page = fs::read_to_string(&path).unwrap_or_default();
    let Some((before, rest)) = page.split_once(FROM_HERE) else {
        return eprintln!("{PAGE} has no marks: it is left as it is");
    };
    let Some((_, after)) = rest.split_once(TO_HERE) else {
        return eprintln!("{PAGE} has no end mark: it is left as it is");
    };
    let page = format!("{before}{FROM_HERE}\n{text}\n{TO_HERE}{after}");
    fs::write(path, page).expect("the page can be written");
}

pub fn run(words: &[String]) -> bool {
    let wanted =
        |name: &str| words.is_empty() || words.iter().any(|word| name.contains(word.as_str()));
    let mut buffers = Buffers::new();
    println!("{}", headed(ROW_HEADS));
    let (measured, refused) = measure(&mut buffers, wanted);
    let grown = growth::measure(&mut buffers, wanted);
    let linear = linear::measure(&mut buffers, wanted);
    let mut parts = vec![refused_line(&refused) + "\n"];
    if !measured.is_empty() {
        parts.push(groups(&measured, &orders()));
    }
    parts.extend(grown);
    parts.extend(linear);
    parts.push(slower(&measured) + "\n");
    print!("\n{}", parts.join("\n"));
    if words.is_empty() {
        parts.insert(0, ratios(&measured));
        put_into_page(&parts.join("\n"));
        fs::write(in_repository(ROWS), rows_page(&measured)).expect("the rows can be written");
        let drawn = picture::draw(&measured);
        fs::write(in_repository(PICTURE), drawn).expect("the picture can be written");
    }
    true
}
