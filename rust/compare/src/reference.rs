//! What each entry point must answer and leave in the output, by the rules alone.
use crate::answer::{Answer, Outcome};
use crate::call::{Call, Lengths, Query, CLASSIC};
use crate::eta::eta;
use crate::reading::read;
use crate::reduction::{judge, put, reduce, ORDERS};
use crate::term::*;

const MOST_NODES: u64 = 65_536;
const MOST_STEPS: u64 = 1_000_000;

/// 7, then 9 of a term that has no index above the greatest; of a next term 12 before them.
fn within(cap: u64, t: Term) -> Result<Term, Answer> {
    match judge(&t, cap) {
        Some(refusal) => Err(Answer::refused(refusal)),
        None => Ok(t),
    }
}

/// A coded input: 10, 7, 9.
fn checked(cap: u64, s: &[u8]) -> Result<Term, Answer> {
    match scan(s) {
        Err(offset) => Err(Answer::refused_at(10, offset)),
        Ok(()) => within(cap, decode(s, &mut 0)),
    }
}

/// 1, then 2.
fn granted(in_bounds: bool, cap: u64, lent: Lengths) -> Result<(), Answer> {
    if !in_bounds || !(1..=MOST_NODES).contains(&cap) {
        Err(Answer::refused(1))
    } else if (lent.out as u64) < 9 * cap || (lent.room as u64) < 8 * cap {
        Err(Answer::refused(2))
    } else {
        Ok(())
    }
}

fn asked(query: Query, t: &Term) -> u64 {
    match query {
        Query::Nodes => nodes(t),
        Query::Height => height(t),
        Query::MaxDepth => max_depth(t) as u64,
        Query::MaxFreeIndex => max_free_index(t, 0) as u64,
        Query::HasFreeVariables => !closed(t, 0) as u64,
        Query::IsSupercombinator => closed(t, 0) as u64,
    }
}

fn equal(first: &[u8], second: &[u8]) -> Result<Outcome, Answer> {
    let t = checked(MOST_NODES, first)?;
    let u = checked(MOST_NODES, second)?;
    Ok(Outcome::number((t == u) as u64))
}

/// The text of any coded term.
pub fn written(notation: u64, s: &[u8]) -> Result<String, Answer> {
    if notation > CLASSIC {
        return Err(Answer::refused(1));
    }
    let t = checked(MOST_NODES, s)?;
    Ok(if notation == CLASSIC {
        classic(&t)
    } else {
        de_bruijn(&t)
    })
}

fn printed(notation: u64, s: &[u8], room: usize) -> Result<Outcome, Answer> {
    let text = written(notation, s)?.into_bytes();
    if text.len() > room {
        return Err(Answer {
            value: text.len() as u64,
            ..Answer::refused(13)
        });
    }
    Ok(Outcome::stored(text))
}

fn applied(cap: u64, abstraction: &[u8], argument: &[u8]) -> Result<Outcome, Answer> {
    let t = checked(cap, abstraction)?;
    let argument = checked(cap, argument)?;
    let Abs(body) = t else {
        return Err(Answer::refused(11));
    };
    let next = within(cap, put(&body, 1, &argument))?;
    Ok(Outcome::stored(bytes(&next)))
}

fn outcome_or_refusal(call: &Call, lent: Lengths) -> Result<Outcome, Answer> {
    match *call {
        Call::Query(query, s) => Ok(Outcome::number(asked(query, &checked(MOST_NODES, s)?))),
        Call::Equality(s, u) => equal(s, u),
        Call::Print { notation, term } => printed(notation, term, lent.out),
        Call::Parse {
            notation,
            cap,
            text,
        } => {
            granted(notation <= CLASSIC, cap, lent)?;
            let t = within(cap, read(notation, text)?)?;
            Ok(Outcome::stored(bytes(&t)))
        }
        Call::Apply {
            cap,
            abstraction,
            argument,
        } => {
            granted(true, cap, lent)?;
            applied(cap, abstraction, argument)
        }
        Call::Eta { limit, cap, term } => {
            granted(true, cap, lent)?;
            Ok(eta(limit, checked(cap, term)?))
        }
        Call::Reduce {
            order,
            limit,
            cap,
            term,
        } => {
            let order = ORDERS.get(order as usize);
            let in_bounds = order.is_some() && (1..=MOST_STEPS).contains(&limit);
            granted(in_bounds, cap, lent)?;
            Ok(reduce(*order.unwrap(), limit, cap, checked(cap, term)?))
        }
    }
}

pub fn outcome(call: &Call, lent: Lengths) -> Outcome {
    outcome_or_refusal(call, lent).into()
}
