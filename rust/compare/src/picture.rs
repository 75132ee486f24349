//! The picture of a benchmark: a line for each group, and its rows on a logarithmic axis of the ratio.
use crate::tables::{runs, spread, Measured};
use crate::timing::Times;

const WIDTH: f64 = 900.0;
const LEFT: f64 = 236.0;
const RIGHT: f64 = 780.0;
const EDGE: f64 = 24.0;
const TOP: f64 = 126.0;
const LINE: f64 = 32.0;
const BELOW: f64 = 66.0;

/// Where the numbers of the means end.
const MEANS: [f64; 2] = [RIGHT + 46.0, WIDTH - EDGE];

const DARK: &str = "#1f2933";
const GREY: &str = "#66717e";
const PALE: &str = "#d9dee4";
const BLUE: &str = "#2b6cb0";
const ORANGE: &str = "#c05621";
const FASTER: &str = "#f1f9f4";
const SLOWER: &str = "#fdf3ee";

const TICKS: [f64; 13] = [
    0.005, 0.01, 0.02, 0.05, 0.1, 0.2, 0.5, 1.0, 2.0, 5.0, 10.0, 20.0, 50.0,
];

/// From the least ratio to the greatest, and at least from 0.1 to 2.
struct Axis {
    least: f64,
    greatest: f64,
}

impl Axis {
    fn of(rows: &[Measured]) -> Axis {
        let mut axis = Axis {
            least: 0.1,
            greatest: 2.0,
        };
        for row in rows {
            let (low, high) = (row.times.without_clearing(), row.times.with_clearing());
            axis.least = axis.least.min(low / 1.2).max(TICKS[0]);
            axis.greatest = axis.greatest.max(high * 1.2).min(TICKS[12]);
        }
        axis
    }

    fn x(&self, ratio: f64) -> f64 {
        let within = ratio.clamp(self.least, self.greatest);
        let part = (within / self.least).ln() / (self.greatest / self.least).ln();
        LEFT + part * (RIGHT - LEFT)
    }
}

const TO_THE_LEFT: &str = "text-anchor=\"end\"";
const AROUND: &str = "text-anchor=\"middle\"";

fn text(x: f64, y: f64, style: &str, words: &str) -> String {
    format!("<text x=\"{x:.1}\" y=\"{y:.1}\" {style}>{words}</text>\n")
}

fn grey(style: &str) -> String {
    format!("{style} fill=\"{GREY}\"")
}

fn bold(size: u64, style: &str) -> String {
    format!("{style} font-size=\"{size}\" font-weight=\"bold\"")
}

fn stroke(way: String, colour: &str, width: f64) -> String {
    format!("<path d=\"{way}\" stroke=\"{colour}\" stroke-width=\"{width}\"/>\n")
}

fn dot(x: f64, y: f64) -> String {
    format!("<circle cx=\"{x:.1}\" cy=\"{y:.1}\" r=\"4\" fill=\"{BLUE}\" fill-opacity=\"0.6\"/>\n")
}

fn hollow(x: f64, y: f64) -> String {
    format!("<circle cx=\"{x:.1}\" cy=\"{y:.1}\" r=\"3\" fill=\"none\" stroke=\"{GREY}\"/>\n")
}

fn diamond(x: f64, y: f64) -> String {
    let way = format!("M{x:.1} {y:.1}m0 -8l6 8l-6 8l-6 -8z");
    format!("<path d=\"{way}\" fill=\"{ORANGE}\" stroke=\"#fff\" stroke-width=\"1.2\"/>\n")
}

fn tinted(from: f64, to: f64, end: f64, colour: &str) -> String {
    let (width, height) = (to - from, end - TOP);
    format!(
        "<rect x=\"{from:.1}\" y=\"{TOP}\" width=\"{width:.1}\" height=\"{height}\" fill=\"{colour}\"/>\n"
    )
}

/// The lines of the axis, with their ratios below.
fn grid(axis: &Axis, end: f64) -> String {
    let one = axis.x(1.0);
    let mut out = tinted(LEFT, one, end, FASTER) + &tinted(one, RIGHT, end, SLOWER);
    for tick in TICKS {
        if (axis.least..=axis.greatest).contains(&tick) {
            let x = axis.x(tick);
            out += &stroke(format!("M{x:.1} {TOP}V{:.1}", end + 5.0), PALE, 1.0);
            out += &text(x, end + 20.0, &grey(AROUND), &tick.to_string());
        }
    }
    let way = format!("M{one:.1} {:.1}V{:.1}", TOP - 8.0, end + 5.0);
    out += &stroke(way, DARK, 2.5);
    let label = "as fast as the original";
    out += &text(one, TOP - 14.0, &bold(12, AROUND), label);
    out += &text(one - 24.0, end + 42.0, &grey(TO_THE_LEFT), "← faster");
    out += &text(one + 24.0, end + 42.0, &grey(""), "slower →");
    out
}

/// A group's name, its rows, and the geometric means.
fn group(axis: &Axis, top: f64, rows: &[Measured]) -> String {
    let of = |f: fn(&Times) -> f64| rows.iter().map(|r| f(&r.times)).collect::<Vec<f64>>();
    let (without, with) = (of(Times::without_clearing), of(Times::with_clearing));
    let ([mean, least, greatest], [whole, ..]) = (spread(&without), spread(&with));
    let (upper, lower, middle) = (top + 12.0, top + 24.0, top + 20.0);
    let mut out = stroke(format!("M{EDGE} {top}H{}", WIDTH - EDGE), PALE, 1.0);
    let name = format!("{} ({})", rows[0].group, rows.len());
    out += &text(LEFT - 12.0, middle, TO_THE_LEFT, &name);
    let way = format!("M{:.1} {upper}H{:.1}", axis.x(least), axis.x(greatest));
    out += &stroke(way, "#a9c4de", 2.0);
    out.extend(with.iter().map(|ratio| hollow(axis.x(*ratio), lower)));
    out.extend(without.iter().map(|ratio| dot(axis.x(*ratio), upper)));
    out += &diamond(axis.x(mean), upper);
    let style = bold(13, TO_THE_LEFT);
    out += &text(MEANS[0], middle, &style, &format!("{mean:.2}"));
    out += &text(MEANS[1], middle, &grey(TO_THE_LEFT), &format!("{whole:.2}"));
    out
}

fn legend() -> String {
    let title = "Copperjangle's time to the original's";
    let what = "A dot is a row: one job, of both, timed in turn. The axis is logarithmic.";
    let mut out = text(EDGE, 38.0, &bold(19, ""), title);
    out += &text(EDGE, 60.0, &grey(""), what);
    out += &(dot(29.0, 79.0) + &text(40.0, 83.0, "", "without clearing the room"));
    out += &(hollow(230.0, 79.0) + &text(241.0, 83.0, "", "with it"));
    let mean = "geometric mean of a group, without it";
    out += &(diamond(320.0, 79.0) + &text(333.0, 83.0, "", mean));
    out += &text(MEANS[1], TOP - 30.0, TO_THE_LEFT, "geometric means");
    out += &text(MEANS[0], TOP - 14.0, TO_THE_LEFT, "without");
    out += &text(MEANS[1], TOP - 14.0, &grey(TO_THE_LEFT), "with");
    out
}

pub fn draw(rows: &[Measured]) -> String {
    let axis = Axis::of(rows);
    let groups = runs(rows, |r| r.group);
    let end = TOP + groups.len() as f64 * LINE;
    let height = end + BELOW;
    let mut out = format!(
        "<svg xmlns=\"http://www.w3.org/2000/svg\" viewBox=\"0 0 {WIDTH} {height}\"\n     \
        width=\"{WIDTH}\" height=\"{height}\">\n\
        <title>Copperjangle's time to the original's, by groups of rows</title>\n\
        <rect width=\"{WIDTH}\" height=\"{height}\" fill=\"#fff\"/>\n\
        <g font-family=\"Helvetica, Arial, sans-serif\" font-size=\"12\" fill=\"{DARK}\">\n"
    );
    out += &(legend() + &grid(&axis, end));
    for (i, rows) in groups.into_iter().enumerate() {
        out += &group(&axis, TOP + i as f64 * LINE, rows);
    }
    out + "</g>\n</svg>\n"
}
