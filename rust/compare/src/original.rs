//! The original crate as it is: what it answers to a call that it can answer.
use crate::answer::{Answer, Outcome};
use crate::call::{Call, Query, CLASSIC};
use crate::reduction::Order as Named;
use lambda_calculus::parser::ParseError;
use lambda_calculus::reduction::Order;
use lambda_calculus::term::{Notation, Term};

pub fn order(order: Named) -> Order {
    match order {
        Named::NOR => Order::NOR,
        Named::CBN => Order::CBN,
        Named::HSP => Order::HSP,
        Named::HNO => Order::HNO,
        Named::APP => Order::APP,
        Named::CBV => Order::CBV,
        Named::HAP => Order::HAP,
    }
}

pub fn decode(s: &[u8], at: &mut usize) -> Term {
    let kind = s[*at];
    *at += 1;
    match kind {
        1 => {
            let index = u64::from_le_bytes(s[*at..*at + 8].try_into().unwrap());
            *at += 8;
            Term::Var(index as usize)
        }
        2 => Term::Abs(Box::new(decode(s, at))),
        _ => {
            let left = decode(s, at);
            let right = decode(s, at);
            Term::App(Box::new((left, right)))
        }
    }
}

pub fn encode(t: &Term, out: &mut Vec<u8>) {
    match t {
        Term::Var(i) => {
            out.push(1);
            out.extend_from_slice(&(*i as u64).to_le_bytes());
        }
        Term::Abs(b) => {
            out.push(2);
            encode(b, out);
        }
        Term::App(parts) => {
            out.push(3);
            encode(&parts.0, out);
            encode(&parts.1, out);
        }
    }
}

fn bytes(t: &Term) -> Vec<u8> {
    let mut out = vec![];
    encode(t, &mut out);
    out
}

/// The coded term of a text, or the refusal that its error is.
pub fn parse(text: &str, notation: Notation) -> Result<Vec<u8>, Answer> {
    match lambda_calculus::parse(text, notation) {
        Ok(t) => Ok(bytes(&t)),
        Err(ParseError::InvalidCharacter((place, c))) => Err(Answer::invalid(place, c)),
        Err(ParseError::UndefinedFreeVariable) => Err(Answer::refused(6)),
        Err(ParseError::EmptyExpression) => Err(Answer::refused(8)),
        Err(ParseError::InvalidExpression) => unreachable!("the original never gives it"),
    }
}

pub fn de_bruijn(s: &[u8]) -> String {
    format!("{:?}", decode(s, &mut 0))
}

pub fn classic(s: &[u8]) -> String {
    format!("{}", decode(s, &mut 0))
}

/// Whether a step is left is told by one more run, which may make one step more.
fn run(limit: u64, s: &[u8], steps_of: impl Fn(&mut Term, usize) -> usize) -> Outcome {
    let mut t = decode(s, &mut 0);
    let steps = steps_of(&mut t, limit as usize) as u64;
    let more = || steps_of(&mut decode(s, &mut 0), limit as usize + 1) as u64;
    let finished = limit == 0 || steps < limit || more() == steps;
    Outcome::run(finished, steps, bytes(&t))
}

pub fn reduce(o: Named, limit: u64, s: &[u8]) -> Outcome {
    run(limit, s, |t, limit| t.reduce(order(o), limit))
}

/// It has no function for these two: they are counted on its term.
fn measured(t: &Term) -> (u64, u64) {
    match t {
        Term::Var(_) => (1, 1),
        Term::Abs(b) => {
            let (nodes, height) = measured(b);
            (nodes + 1, height + 1)
        }
        Term::App(parts) => {
            let ((m, h), (n, k)) = (measured(&parts.0), measured(&parts.1));
            (m + n + 1, h.max(k) + 1)
        }
    }
}

fn asked(query: Query, t: &Term) -> u64 {
    match query {
        Query::Nodes => measured(t).0,
        Query::Height => measured(t).1,
        Query::MaxDepth => t.max_depth() as u64,
        Query::MaxFreeIndex => t.max_free_index() as u64,
        Query::HasFreeVariables => t.has_free_variables() as u64,
        Query::IsSupercombinator => t.is_supercombinator() as u64,
    }
}

fn apply(abstraction: &[u8], argument: &[u8]) -> Outcome {
    let mut t = decode(abstraction, &mut 0);
    match t.apply(&decode(argument, &mut 0)) {
        Ok(()) => Outcome::stored(bytes(&t)),
        Err(_) => Answer::refused(11).into(),
    }
}

fn equal(first: &[u8], second: &[u8]) -> Outcome {
    let (t, u) = (decode(first, &mut 0), decode(second, &mut 0));
    let same = t == u;
    assert_eq!(same, t.is_isomorphic_to(&u), "its two equalities differ");
    Outcome::number(same as u64)
}

/// Its outcome, of inputs that are within the bounds: it has no bounds of its own.
pub fn outcome(call: &Call) -> Outcome {
    match *call {
        Call::Query(query, s) => Outcome::number(asked(query, &decode(s, &mut 0))),
        Call::Equality(s, u) => equal(s, u),
        Call::Print { notation, term } => {
            let written = if notation == CLASSIC {
                classic
            } else {
                de_bruijn
            };
            Outcome::stored(written(term).into_bytes())
        }
        Call::Parse { notation, text, .. } => {
            let text = std::str::from_utf8(text).expect("4 came before");
            let notation = if notation == CLASSIC {
                Notation::Classic
            } else {
                Notation::DeBruijn
            };
            parse(text, notation).map(Outcome::stored).into()
        }
        Call::Apply {
            abstraction,
            argument,
            ..
        } => apply(abstraction, argument),
        Call::Eta { limit, term, .. } => run(limit, term, |t, limit| t.eta(limit)),
        Call::Reduce {
            order, limit, term, ..
        } => reduce(crate::reduction::ORDERS[order as usize], limit, term),
    }
}

/// Whether it agrees, wherever it has a say: it refuses by 5, 6, 8 and 11 only, and knows how long a text is.
pub fn agrees(call: &Call, wanted: &Outcome) -> bool {
    match wanted.answer.refusal {
        0 | 5 | 6 | 8 | 11 => outcome(call) == *wanted,
        13 => outcome(call).answer.value == wanted.answer.value,
        _ => true,
    }
}
