//! The inputs of which it is measured how time grows with them, each at three sizes.
use crate::call::{Call, Query, CLASSIC, DE_BRUIJN};
use crate::jobs::notation_name;
use crate::rows::tree;
use crate::step_rows::{nest_from_outside, twig, NEST};
use crate::term::*;
use crate::text_rows::{text_of, NOTATIONS};
use crate::timing::MOST_NODES;

/// A call without its inputs, the inputs, and by how many nodes or bytes its time is divided.
pub struct Input {
    call: Call<'static>,
    first: Vec<u8>,
    second: Vec<u8>,
    pub size: u64,
}

impl Input {
    pub fn call(&self) -> Call<'_> {
        self.call.on(&self.first, &self.second)
    }
}

pub struct Grown {
    pub entry: String,
    pub name: String,
    pub unit: &'static str,
    pub inputs: [Input; 3],
}

impl Grown {
    fn new(entry: &str, name: &str, unit: &'static str, inputs: [Input; 3]) -> Grown {
        Grown {
            entry: entry.to_string(),
            name: name.to_string(),
            unit,
            inputs,
        }
    }
}

/// A tree has 15 nodes for each of so many leaves, but one.
const LEAVES: [u64; 3] = [64, 512, 4096];

type Shape = (&'static str, fn(u64) -> Term);

/// Closed, and of the same parts at every size.
const SHAPES: [Shape; 2] = [
    ("abstractions under applications", |leaves| {
        tree(&binders(238, var(119)), leaves / 16)
    }),
    ("applications of variables", |leaves| {
        abs(tree(&var(1), leaves * 15 / 2))
    }),
];

/// A call on one term, or a term twice.
fn on(call: Call<'static>, t: &Term) -> Input {
    Input {
        call,
        first: bytes(t),
        second: bytes(t),
        size: nodes(t),
    }
}

fn queries((name, shape): Shape) -> Vec<Grown> {
    let all = |call| LEAVES.map(|leaves| on(call, &shape(leaves)));
    vec![
        Grown::new("nodes", name, "nodes", all(Call::Query(Query::Nodes, &[]))),
        Grown::new("equality", name, "nodes", all(Call::Equality(&[], &[]))),
    ]
}

fn prints((name, shape): Shape) -> Vec<Grown> {
    let row = |notation| {
        let call = Call::Print {
            notation,
            term: &[],
        };
        let inputs = LEAVES.map(|leaves| on(call, &shape(leaves)));
        let entry = format!("print, {}", notation_name(notation));
        Grown::new(&entry, name, "nodes", inputs)
    };
    NOTATIONS.map(row).into()
}

/// Under the least cap that is a power of two.
fn least_cap(nodes: u64) -> u64 {
    nodes.next_power_of_two()
}

fn parse(notation: u64, name: &str, unit: &'static str, inputs: [(Vec<u8>, u64, u64); 3]) -> Grown {
    let entry = format!("parse, {}", notation_name(notation));
    let input = |(text, cap, size)| Input {
        call: Call::Parse {
            notation,
            cap,
            text: &[],
        },
        first: text,
        second: vec![],
        size,
    };
    Grown::new(&entry, name, unit, inputs.map(input))
}

fn ordinary_texts((name, shape): Shape) -> Vec<Grown> {
    let row = |notation| {
        let inputs = LEAVES.map(|leaves| {
            let t = shape(leaves);
            let text = text_of(notation, &t).into_bytes();
            (text, least_cap(nodes(&t)), nodes(&t))
        });
        parse(notation, name, "nodes", inputs)
    };
    NOTATIONS.map(row).into()
}

const LENGTHS: [usize; 3] = [65_536, 524_288, 2_097_152];

/// 512 binders, of which the outermost differs from all others in its last letter only, and its variable.
fn outermost(letters: usize) -> (String, String) {
    let word = |last: &str| "a".repeat(letters - 1) + last;
    let (outer, inner) = (format!("\\{}.", word("a")), format!("\\{}.", word("b")));
    (outer + &inner.repeat(511), word("a") + " ")
}

/// A head, a part that is repeated, and spaces where no whole part is left. A byte is one after the head.
fn hostile(notation: u64, name: &str, head: &str, part: &str) -> Grown {
    let inputs = LENGTHS.map(|length| {
        let rest = length - head.len();
        let mut text = [head, &part.repeat(rest / part.len())]
            .concat()
            .into_bytes();
        text.resize(length, b' ');
        (text, MOST_NODES as u64, rest as u64)
    });
    parse(notation, name, "bytes", inputs)
}

fn hostile_texts() -> Vec<Grown> {
    let group = "(".repeat(512) + "1" + &")".repeat(512);
    let [one, sixteen] = [1, 16].map(outermost);
    let name = |letters| {
        format!("512 binders, then the outermost variable to the end, names of {letters}")
    };
    let texts = [
        (DE_BRUIJN, "all `(`", "", "("),
        (DE_BRUIJN, "all `1`", "", "1"),
        (DE_BRUIJN, r"all `\`", "", r"\"),
        (DE_BRUIJN, "`1`, then `)` to the end", "1", ")"),
        (DE_BRUIJN, "groups 512 deep, repeated", "", &group),
        (DE_BRUIJN, "spaces", "", " "),
        (CLASSIC, "one name that nothing binds", "", "x"),
        (CLASSIC, r"`\a.(a)(a)..`", r"\a.", "(a)"),
        (CLASSIC, &name("1 letter"), &one.0, &one.1),
        (CLASSIC, &name("16 letters"), &sixteen.0, &sixteen.1),
    ];
    texts
        .map(|(notation, name, head, part)| hostile(notation, name, head, part))
        .into()
}

fn eta(name: &str, term: impl Fn(u64) -> Term) -> Grown {
    let inputs = LEAVES.map(|leaves| {
        let t = term(leaves);
        let call = Call::Eta {
            limit: 0,
            cap: least_cap(nodes(&t)),
            term: &[],
        };
        on(call, &t)
    });
    Grown::new("eta", name, "nodes", inputs)
}

fn etas() -> Vec<Grown> {
    let place = abs(app(var(5), var(1)));
    let three = apply(place.clone(), vec![place.clone(), place]);
    let nest = |leaves| nest_from_outside(tree(&twig(NEST), leaves));
    vec![
        eta("no place", |leaves| tree(&twig(0), leaves)),
        eta("places side by side", |leaves| tree(&three, leaves)),
        eta("240 nested places", nest),
    ]
}

/// An abstraction and an argument, whose result has so many nodes.
fn applied(name: &str, terms: impl Fn(u64) -> (Term, Term, u64)) -> Grown {
    let inputs = LEAVES.map(|leaves| {
        let (abstraction, argument, size) = terms(leaves);
        let call = Call::Apply {
            cap: least_cap(size),
            abstraction: &[],
            argument: &[],
        };
        Input {
            call,
            first: bytes(&abstraction),
            second: bytes(&argument),
            size,
        }
    });
    Grown::new("apply", name, "nodes", inputs)
}

fn applications() -> Vec<Grown> {
    let copies = 64;
    vec![
        applied("put in once", |leaves| {
            (abs(var(1)), tree(&twig(0), leaves), 15 * leaves - 1)
        }),
        applied("dropped, all free indices fall", |leaves| {
            (abs(tree(&twig(1), leaves)), var(1), 15 * leaves - 1)
        }),
        applied("64 copies, raised", |leaves| {
            let body = binders(2, tree(&var(2), copies));
            (body, tree(&twig(0), leaves / copies), 15 * leaves)
        }),
    ]
}

pub fn rows() -> Vec<Grown> {
    let mut rows: Vec<Grown> = SHAPES.into_iter().flat_map(queries).collect();
    rows.extend(SHAPES.into_iter().flat_map(prints));
    rows.extend(ordinary_texts(SHAPES[0]));
    rows.extend(hostile_texts());
    rows.extend(etas());
    rows.extend(applications());
    rows
}
