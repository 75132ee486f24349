//! All short texts over small alphabets, in both notations.
use crate::call::{Call, CLASSIC, DE_BRUIJN};
use crate::judge::Judge;
use crate::term::{decode, nodes};

const DE_BRUIJN_ALPHABET: &str = r"\λ()12a[] g";
const CLASSIC_ALPHABET: &str = r"\.ab1() λ";

/// With room for any term of such a text, then, where there is a term, with a cap just enough and one too small.
fn ask(judge: &mut Judge, notation: u64, text: &str) {
    let call = |cap| Call::Parse {
        notation,
        cap,
        text: text.as_bytes(),
    };
    let outcome = judge.ask(&call(2 * text.len() as u64 + 1));
    if outcome.answer.refusal == 0 {
        let count = nodes(&decode(&outcome.first, &mut 0));
        judge.ask(&call(count));
        judge.ask(&call(count - 1));
    }
}

/// Each text with so many characters of an alphabet behind those that are there.
pub fn each_text(alphabet: &str, more: u64, text: &mut String, ask: &mut impl FnMut(&str)) {
    if more == 0 {
        return ask(text);
    }
    for c in alphabet.chars() {
        text.push(c);
        each_text(alphabet, more - 1, text, ask);
        text.pop();
    }
}

/// All texts of up to so many characters, the shortest first.
pub fn run(judge: &mut Judge, longest: u64) {
    for length in 0..=longest {
        for (notation, alphabet) in [(DE_BRUIJN, DE_BRUIJN_ALPHABET), (CLASSIC, CLASSIC_ALPHABET)] {
            each_text(alphabet, length, &mut String::new(), &mut |text| {
                if !judge.is_late() {
                    ask(judge, notation, text);
                }
            });
        }
    }
}
