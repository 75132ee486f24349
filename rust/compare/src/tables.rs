//! The tables of a benchmark, in Markdown: rows with their times, ratios by order or notation, groups.
use crate::rows::{with_commas, Row};
use crate::timing::Times;

/// What was measured of one row.
pub struct Measured {
    pub group: &'static str,
    pub name: String,
    pub way: String,
    pub cap: Option<u64>,
    pub times: Times,
}

impl Measured {
    pub fn new(row: Row, cap: u64, times: Times) -> Measured {
        let way = row.job.way();
        Measured {
            group: row.group,
            name: row.name,
            way,
            cap: row.job.call(cap).cap(),
            times,
        }
    }

    pub fn line(&self) -> String {
        let t = &self.times;
        let cells = [
            self.group.to_string(),
            self.name.clone(),
            self.way.clone(),
            self.cap.map_or(String::new(), with_commas),
            figures(t.original),
            figures(t.archive),
            self.cap.map_or(String::new(), |_| figures(t.clearing)),
            figures(t.with_clearing()),
            figures(t.without_clearing()),
        ];
        format!("| {} |", cells.join(" | "))
    }
}

pub const ROW_HEADS: &str = "| group | row | order or notation | cap | original µs | archive µs \
    | clearing µs | archive / original | without clearing |";

/// The heads of a table, and the line below them.
pub fn headed(heads: &str) -> String {
    format!(
        "{heads}\n|{}",
        "---|".repeat(heads.matches('|').count() - 1)
    )
}

pub fn table(heads: &str, lines: &[String]) -> String {
    format!("{}\n{}\n", headed(heads), lines.join("\n"))
}

/// Three figures, or as many as stand before the point.
pub fn figures(x: f64) -> String {
    match x {
        x if x >= 1000.0 => with_commas(x.round() as u64),
        x if x >= 100.0 => format!("{x:.0}"),
        x if x >= 10.0 => format!("{x:.1}"),
        x if x >= 1.0 => format!("{x:.2}"),
        x => format!("{x:.3}"),
    }
}

/// Geometric mean, least and greatest.
pub fn spread(values: &[f64]) -> [f64; 3] {
    let logs: f64 = values.iter().map(|x| x.ln()).sum();
    let least = values.iter().copied().fold(f64::MAX, f64::min);
    let greatest = values.iter().copied().fold(0.0, f64::max);
    [(logs / values.len() as f64).exp(), least, greatest]
}

/// Rows that follow each other and are the same in something.
pub fn runs<K: PartialEq>(rows: &[Measured], key: impl Fn(&Measured) -> K) -> Vec<&[Measured]> {
    rows.chunk_by(|a, b| key(a) == key(b)).collect()
}

const GROUP_HEADS: &str = "| group | rows | without clearing | least and greatest \
    | with clearing | least and greatest |";

fn group_line<'a>(name: &str, rows: impl Iterator<Item = &'a Measured> + Clone) -> String {
    let of = |f: fn(&Times) -> f64| {
        let ratios: Vec<f64> = rows.clone().map(|r| f(&r.times)).collect();
        spread(&ratios).map(|x| format!("{x:.2}"))
    };
    let [mean, least, greatest] = of(Times::without_clearing);
    let [whole, lowest, highest] = of(Times::with_clearing);
    let count = rows.clone().count();
    format!(
        "| {name} | {count} | {mean} | {least} to {greatest} | {whole} | {lowest} to {highest} |"
    )
}

/// Each group, then all rows of reduce, which are those with an order.
pub fn groups(rows: &[Measured], orders: &[String]) -> String {
    let mut lines: Vec<String> = runs(rows, |r| r.group)
        .into_iter()
        .map(|group| group_line(group[0].group, group.iter()))
        .collect();
    let reduced = rows.iter().filter(|r| orders.contains(&r.way));
    if reduced.clone().next().is_some() {
        lines.push(group_line("all rows of reduce", reduced));
    }
    lines.push(group_line("all rows", rows.iter()));
    table(GROUP_HEADS, &lines)
}

/// The ratio without clearing; one above 1 stands out.
fn ratio_cell(row: &Measured) -> String {
    let ratio = row.times.without_clearing();
    if ratio > 1.0 {
        format!("**{ratio:.2}**")
    } else {
        format!("{ratio:.2}")
    }
}

type Word = fn(&Measured) -> String;

/// The ratios of rows with the same line side by side, in these columns; none where no row has one of them.
pub fn side_by_side(
    rows: &[Measured],
    lines: [Word; 2],
    columns: &[String],
    heads: &str,
) -> Option<String> {
    let [line_of, column_of] = lines;
    let shown: Vec<&Measured> = rows
        .iter()
        .filter(|r| columns.contains(&column_of(r)))
        .collect();
    let mut lines: Vec<String> = vec![];
    for row in &shown {
        let line = line_of(row);
        if !lines.contains(&line) {
            lines.push(line);
        }
    }
    let cell = |line: &String, column: &String| {
        let row = shown
            .iter()
            .find(|r| line_of(r) == *line && column_of(r) == *column);
        row.map_or(String::new(), |row| ratio_cell(row))
    };
    for line in &mut lines {
        let cells: Vec<String> = columns.iter().map(|column| cell(line, column)).collect();
        *line = format!("| {line} | {} |", cells.join(" | "));
    }
    (!lines.is_empty()).then(|| table(heads, &lines))
}

/// How many rows are slower than the original.
pub fn slower(rows: &[Measured]) -> String {
    let above = |r: &&Measured| r.times.without_clearing() > 1.0;
    let count = rows.iter().filter(above).count();
    format!(
        "{count} of {} rows are above 1.0 without clearing.",
        rows.len()
    )
}
