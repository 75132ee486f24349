//! Reading text by the rules, slow and direct: characters, words, the walk, the grammar, one after another.
use crate::answer::Answer;
use crate::call::CLASSIC;
use crate::term::*;

const MOST_TEXT: usize = 2_097_152;
const MOST_OPEN: usize = 512;

type Name<'a> = &'a [char];

/// A word of a text; the binders of De Bruijn's notation have no name.
enum Word<'a> {
    Binder(Name<'a>),
    Opening,
    Closing,
    Index(u64),
    Name(Name<'a>),
}

/// The characters of a text: 3, then 4.
fn characters(text: &[u8]) -> Result<Vec<char>, Answer> {
    if text.len() > MOST_TEXT {
        return Err(Answer::refused(3));
    }
    let (mut out, mut at) = (vec![], 0);
    while at < text.len() {
        match &text[at..] {
            [b @ (9 | 10 | 13 | 32..=126), ..] => out.push(*b as char),
            [0xCE, 0xBB, ..] => {
                out.push('λ');
                at += 1;
            }
            _ => return Err(Answer::refused_at(4, at as u64)),
        }
        at += 1;
    }
    Ok(out)
}

fn is_space(c: char) -> bool {
    matches!(c, '\t' | '\n' | '\r' | ' ')
}

/// A letter of a name; the sign counts as one.
fn is_letter(c: char) -> bool {
    c.is_ascii_alphabetic() || c == 'λ'
}

/// The index between brackets of which the first is at a place, and the place behind them.
fn bracketed(cs: &[char], open: usize) -> Result<(u64, usize), Answer> {
    let mut index = 0;
    for (place, &c) in cs.iter().enumerate().skip(open + 1) {
        if c == ']' && place > open + 1 {
            return Ok((index, place + 1));
        }
        let wide = c.to_digit(16).map(|d| index as u128 * 16 + d as u128);
        match wide.map(u64::try_from) {
            Some(Ok(next)) => index = next,
            _ => return Err(Answer::invalid(place, c)),
        }
    }
    Err(Answer::invalid(open, '['))
}

fn de_bruijn_words(cs: &[char]) -> Result<Vec<Word<'_>>, Answer> {
    let (mut words, mut at) = (vec![], 0);
    while at < cs.len() {
        let c = cs[at];
        match c {
            '\\' | 'λ' => words.push(Word::Binder(&[])),
            '(' => words.push(Word::Opening),
            ')' => words.push(Word::Closing),
            '[' => {
                let (index, after) = bracketed(cs, at)?;
                words.push(Word::Index(index));
                at = after;
                continue;
            }
            _ if c.is_ascii_hexdigit() => words.push(Word::Index(c.to_digit(16).unwrap() as u64)),
            _ if is_space(c) => {}
            _ => return Err(Answer::invalid(at, c)),
        }
        at += 1;
    }
    Ok(words)
}

/// The place of the `.` that ends a binder's name, or of the end: a letter, then letters or digits, or nothing.
fn binder_end(cs: &[char], from: usize) -> Result<usize, Answer> {
    for (place, &c) in cs.iter().enumerate().skip(from) {
        if c == '.' {
            return Ok(place);
        }
        let fits = is_letter(c) || place > from && c.is_ascii_digit();
        if !fits {
            return Err(Answer::invalid(place, c));
        }
    }
    Ok(cs.len())
}

fn classic_words(cs: &[char]) -> Result<Vec<Word<'_>>, Answer> {
    let (mut words, mut at) = (vec![], 0);
    while at < cs.len() {
        let c = cs[at];
        match c {
            '\\' | 'λ' => {
                let end = binder_end(cs, at + 1)?;
                words.push(Word::Binder(&cs[at + 1..end]));
                at = end;
            }
            '(' => words.push(Word::Opening),
            ')' => words.push(Word::Closing),
            _ if c.is_ascii_alphabetic() => {
                let ends = |c: &char| is_space(*c) || *c == '(' || *c == ')';
                let length = cs[at..].iter().position(ends).unwrap_or(cs.len() - at);
                words.push(Word::Name(&cs[at..at + length]));
                at += length - 1;
            }
            _ if is_space(c) => {}
            _ => return Err(Answer::invalid(at, c)),
        }
        at += 1;
    }
    Ok(words)
}

enum Token {
    Lambda,
    Left,
    Right,
    Index(u64),
}

/// What is open at a word: a parenthesis, or a binder by its name.
enum Open<'a> {
    Group,
    Bound(Name<'a>),
}

/// Open binders are counted from the innermost, which is 1, out to the first of that name.
fn resolved(name: Name, open: &[Open]) -> Result<u64, Answer> {
    let mut index = 0;
    for one in open.iter().rev() {
        if let Open::Bound(other) = one {
            index += 1;
            if *other == name {
                return Ok(index);
            }
        }
    }
    Err(Answer::refused(6))
}

/// Closes the innermost parenthesis and the binders in it, or tells that there is none.
fn close(open: &mut Vec<Open>) -> bool {
    while let Some(one) = open.pop() {
        if matches!(one, Open::Group) {
            return true;
        }
    }
    false
}

/// The tokens up to the end of the text, or 6 or 7 at the first word where one of them holds.
fn walk(words: Vec<Word>) -> Result<Vec<Token>, Answer> {
    let (mut tokens, mut open) = (vec![], vec![]);
    for word in words {
        tokens.push(match word {
            Word::Binder(name) => {
                open.push(Open::Bound(name));
                Token::Lambda
            }
            Word::Opening => {
                open.push(Open::Group);
                Token::Left
            }
            Word::Closing if close(&mut open) => Token::Right,
            Word::Closing => return Ok(tokens),
            Word::Index(index) => Token::Index(index),
            Word::Name(name) => Token::Index(resolved(name, &open)?),
        });
        if open.len() > MOST_OPEN {
            return Err(Answer::refused(7));
        }
    }
    Ok(tokens)
}

/// A sequence, up to the `)` that ends it, to the end, or to the end of an abstraction's body: 8.
fn sequence(tokens: &[Token], at: &mut usize) -> Result<Term, Answer> {
    let mut so_far = None;
    let joined = |so_far: Option<Term>, item: Term| match so_far {
        Some(items) => app(items, item),
        None => item,
    };
    while let Some(token) = tokens.get(*at) {
        if let Token::Right = token {
            break;
        }
        *at += 1;
        let item = match token {
            Token::Lambda => return Ok(joined(so_far, abs(sequence(tokens, at)?))),
            Token::Left => group(tokens, at)?,
            Token::Index(index) => var(*index),
            Token::Right => unreachable!(),
        };
        so_far = Some(joined(so_far, item));
    }
    so_far.ok_or(Answer::refused(8))
}

/// A group whose `(` has been read; its `)` may be missing at the end.
fn group(tokens: &[Token], at: &mut usize) -> Result<Term, Answer> {
    let inner = sequence(tokens, at)?;
    if *at < tokens.len() {
        *at += 1;
    }
    Ok(inner)
}

/// The term of a text: 3, 4, 5, then 6 or 7, then 8. Height and nodes are judged afterwards.
pub fn read(notation: u64, text: &[u8]) -> Result<Term, Answer> {
    let cs = characters(text)?;
    let words = if notation == CLASSIC {
        classic_words(&cs)?
    } else {
        de_bruijn_words(&cs)?
    };
    sequence(&walk(words)?, &mut 0)
}
