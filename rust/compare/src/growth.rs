//! How many steps a second a run makes, as a term, its height or the cap grows.
use crate::jobs::Job;
use crate::random::omega;
use crate::reduction::Order::{self, APP, HAP, NOR};
use crate::rows::{tree, with_commas};
use crate::tables::{figures, table};
use crate::term::*;
use crate::timing::Buffers;

struct Grown {
    name: String,
    cap: u64,
    steps: u64,
    term: Term,
}

impl Grown {
    /// Under the least cap that is a power of two.
    fn new(name: String, steps: u64, term: Term) -> Grown {
        let cap = nodes(&term).next_power_of_two();
        Grown {
            name,
            cap,
            steps,
            term,
        }
    }
}

const STEPS: u64 = 200_000;

/// More steps, because the idle nodes are loaded and saved once.
const IDLE_STEPS: u64 = 1_000_000;

const ORDERS: [Order; 3] = [NOR, APP, HAP];

/// Omega beside so many variables, and the applications between them.
pub fn beside(leaves: u64) -> Term {
    app(omega(), tree(&var(2), leaves))
}

fn against_idle_nodes() -> Vec<Grown> {
    let mut grown = vec![Grown::new("no idle nodes".into(), IDLE_STEPS, omega())];
    for leaves in [448, 3584, 28_672] {
        let name = format!("{} idle nodes", with_commas(2 * leaves - 1));
        grown.push(Grown::new(name, IDLE_STEPS, beside(leaves)));
    }
    grown
}

fn against_height() -> Vec<Grown> {
    let arguments = |count| (0..count).fold(omega(), |t, _| app(t, var(3)));
    let mut grown = vec![];
    for count in [0, 100, 200, 400, 500] {
        let name = format!("{count} arguments");
        grown.push(Grown::new(name, STEPS, arguments(count)));
    }
    for count in [0, 100, 200, 400, 500] {
        let name = format!("{count} binders");
        grown.push(Grown::new(name, STEPS, binders(count, omega())));
    }
    grown
}

fn against_cap() -> Vec<Grown> {
    let under = |cap| Grown {
        cap,
        ..Grown::new(
            format!("895 idle nodes, cap {}", with_commas(cap)),
            STEPS,
            beside(448),
        )
    };
    [1024, 8192, 65_536].map(under).into()
}

const HEADS: &str =
    "| omega with | cap | NOR archive | original | APP archive | original | HAP archive \
    | original |";

fn line(grown: &Grown, buffers: &mut Buffers) -> String {
    let mut cells = vec![grown.name.clone(), with_commas(grown.cap)];
    for order in ORDERS {
        let job = Job::Reduce {
            order,
            limit: grown.steps,
            term: bytes(&grown.term),
        };
        let times = buffers.time(&job, grown.cap);
        let rate = |time: f64| figures(grown.steps as f64 / time);
        cells.extend([rate(times.archive), rate(times.original)]);
    }
    format!("| {} |", cells.join(" | "))
}

/// Of the rows that have one of the words, in millions of steps a second, the clearing of the room with it.
pub fn measure(buffers: &mut Buffers, wanted: impl Fn(&str) -> bool) -> Option<String> {
    let mut grown = against_idle_nodes();
    grown.extend(against_height());
    grown.extend(against_cap());
    grown.retain(|g| wanted(&format!("growth {}", g.name)));
    if grown.is_empty() {
        return None;
    }
    let lines: Vec<String> = grown.iter().map(|g| line(g, buffers)).collect();
    Some(table(HEADS, &lines))
}
