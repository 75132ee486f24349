//! The examples of the original's pages, expanded.
use crate::original;
use crate::random::numeral;
use crate::reduction::Order;
use crate::term::*;
use lambda_calculus::term::Notation;
use std::collections::HashMap;

const EXAMPLES: &str = include_str!("examples.txt");

pub enum Example {
    From(&'static str),
    Of(String),
}

fn expand(text: &str, known: &HashMap<&str, String>) -> String {
    let mut pieces = text.split(['{', '}']);
    let mut all = pieces.next().unwrap().to_string();
    while let (Some(name), Some(rest)) = (pieces.next(), pieces.next()) {
        let term = match name.parse() {
            Ok(n) => de_bruijn(&numeral(n)),
            Err(_) => known[name].clone(),
        };
        all += &format!("({term}){rest}");
    }
    all.replace('\\', "λ")
}

/// A coded term by its text.
pub fn coded(text: &str) -> Vec<u8> {
    original::parse(text, Notation::DeBruijn).expect(text)
}

/// The pages say what an example comes to: so the definitions above it are theirs.
fn check(text: &str, result: &str) {
    let reached = original::reduce(Order::NOR, 0, &coded(text)).first;
    assert_eq!(reached, coded(result), "{text} does not come to {result}");
}

/// Each example's text as the original writes it, without parentheses that say nothing.
pub fn all() -> Vec<Example> {
    let mut known = HashMap::new();
    let mut out = vec![];
    for line in EXAMPLES.lines().filter(|line| !line.starts_with('#')) {
        if let Some(definition) = line.strip_prefix("let ") {
            let (name, text) = definition.split_once(' ').unwrap();
            known.insert(name, expand(text, &known));
        } else if let Some(place) = line.strip_prefix("in ") {
            out.push(Example::From(place));
        } else {
            let (text, result) = line.split_once(" = ").unwrap_or((line, ""));
            let text = expand(text, &known);
            if !result.is_empty() {
                check(&text, &expand(result, &known));
            }
            out.push(Example::Of(original::de_bruijn(&coded(&text))));
        }
    }
    out
}
