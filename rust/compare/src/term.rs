//! Terms for the reference: boxed trees whose indices are wide enough never to overflow.
pub use Term::*;

#[derive(Clone, PartialEq, Eq, Debug)]
pub enum Term {
    Var(u128),
    Abs(Box<Term>),
    App(Box<Term>, Box<Term>),
}

pub fn var(index: u64) -> Term {
    Var(index as u128)
}

pub fn abs(body: Term) -> Term {
    Abs(Box::new(body))
}

pub fn app(left: Term, right: Term) -> Term {
    App(Box::new(left), Box::new(right))
}

pub fn apply(left: Term, rights: Vec<Term>) -> Term {
    rights.into_iter().fold(left, app)
}

pub fn binders(count: u64, body: Term) -> Term {
    (0..count).fold(body, |t, _| abs(t))
}

pub fn nodes(t: &Term) -> u64 {
    match t {
        Var(_) => 1,
        Abs(b) => 1 + nodes(b),
        App(l, r) => 1 + nodes(l) + nodes(r),
    }
}

pub fn height(t: &Term) -> u64 {
    match t {
        Var(_) => 1,
        Abs(b) => 1 + height(b),
        App(l, r) => 1 + height(l).max(height(r)),
    }
}

pub fn greatest_index(t: &Term) -> u128 {
    match t {
        Var(i) => *i,
        Abs(b) => greatest_index(b),
        App(l, r) => greatest_index(l).max(greatest_index(r)),
    }
}

/// No index is 0 or free.
pub fn closed(t: &Term, depth: u128) -> bool {
    match t {
        Var(i) => 1 <= *i && *i <= depth,
        Abs(b) => closed(b, depth + 1),
        App(l, r) => closed(l, depth) && closed(r, depth),
    }
}

/// The greatest of index minus depth, floored at 0.
pub fn max_free_index(t: &Term, depth: u128) -> u128 {
    match t {
        Var(i) => i.saturating_sub(depth),
        Abs(b) => max_free_index(b, depth + 1),
        App(l, r) => max_free_index(l, depth).max(max_free_index(r, depth)),
    }
}

pub fn encode(t: &Term, out: &mut Vec<u8>) {
    match t {
        Var(i) => {
            out.push(1);
            out.extend_from_slice(&(*i as u64).to_le_bytes());
        }
        Abs(b) => {
            out.push(2);
            encode(b, out);
        }
        App(l, r) => {
            out.push(3);
            encode(l, out);
            encode(r, out);
        }
    }
}

pub fn bytes(t: &Term) -> Vec<u8> {
    let mut out = vec![];
    encode(t, &mut out);
    out
}

/// Whether bytes are one whole term, or refusal 10's offset. It counts the terms still owed.
pub fn scan(s: &[u8]) -> Result<(), u64> {
    let (mut at, mut owed) = (0, 1);
    while owed > 0 {
        match s.get(at) {
            Some(1) if s.len() - at >= 9 => {
                at += 9;
                owed -= 1;
            }
            Some(2) => at += 1,
            Some(3) => {
                at += 1;
                owed += 1;
            }
            _ => return Err(at as u64),
        }
    }
    if at == s.len() {
        Ok(())
    } else {
        Err(at as u64)
    }
}

/// The term at a place of bytes that passed `scan`; the place moves behind it.
pub fn decode(s: &[u8], at: &mut usize) -> Term {
    let kind = s[*at];
    *at += 1;
    match kind {
        1 => {
            let index = u64::from_le_bytes(s[*at..*at + 8].try_into().unwrap());
            *at += 8;
            var(index)
        }
        2 => abs(decode(s, at)),
        _ => {
            let left = decode(s, at);
            app(left, decode(s, at))
        }
    }
}

/// Writes a part, in parentheses or not.
fn grouped(out: &mut String, yes: bool, part: impl FnOnce(&mut String)) {
    if yes {
        out.push('(');
    }
    part(out);
    if yes {
        out.push(')');
    }
}

fn write_de_bruijn(t: &Term, out: &mut String) {
    match t {
        Var(i) if 1 <= *i && *i <= 15 => *out += &format!("{i:X}"),
        Var(i) => *out += &format!("[{i:X}]"),
        Abs(b) => {
            out.push('λ');
            write_de_bruijn(b, out);
        }
        App(l, r) => {
            grouped(out, matches!(**l, Abs(_)), |out| write_de_bruijn(l, out));
            grouped(out, !matches!(**r, Var(_)), |out| write_de_bruijn(r, out));
        }
    }
}

pub fn de_bruijn(t: &Term) -> String {
    let mut out = String::new();
    write_de_bruijn(t, &mut out);
    out
}

/// Name 0 is a, 25 z, 26 aa.
fn name(number: u128) -> String {
    let last = char::from(b'a' + (number % 26) as u8).to_string();
    if number < 26 {
        last
    } else {
        name(number / 26 - 1) + &last
    }
}

pub fn max_depth(t: &Term) -> u128 {
    match t {
        Var(_) => 0,
        Abs(b) => 1 + max_depth(b),
        App(l, r) => max_depth(l).max(max_depth(r)),
    }
}

/// At a depth, in a term with so many abstractions on a path at most.
fn write_classic(t: &Term, depth: u128, most: u128, out: &mut String) {
    match t {
        Var(0) => *out += "undefined",
        Var(i) if *i <= depth => *out += &name(depth - i),
        Var(i) => *out += &name((most + i - depth).min(u64::MAX as u128) - 1),
        Abs(b) => {
            *out += &format!("λ{}.", name(depth));
            write_classic(b, depth + 1, most, out);
        }
        App(l, r) => {
            let part = |t: &Term, out: &mut String| write_classic(t, depth, most, out);
            grouped(out, matches!(**l, Abs(_)), |out| part(l, out));
            out.push(' ');
            grouped(out, !matches!(**r, Var(_)), |out| part(r, out));
        }
    }
}

pub fn classic(t: &Term) -> String {
    let mut out = String::new();
    write_classic(t, 0, max_depth(t), &mut out);
    out
}

pub fn hex(s: &[u8]) -> String {
    s.iter().map(|b| format!("{b:02x}")).collect()
}

pub fn unhex(text: &str) -> Vec<u8> {
    let digit = |i: usize| (text.as_bytes()[i] as char).to_digit(16).unwrap() as u8;
    (0..text.len() / 2)
        .map(|i| digit(2 * i) * 16 + digit(2 * i + 1))
        .collect()
}
