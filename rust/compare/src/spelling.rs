//! How a question of crates/replay is spelled: terms by marks, odd bytes by digits, pieces that repeat by a count.

/// Pieces are counted where that saves as many bytes, so that short lines stay as they are.
const SAVED: usize = 40;

/// The longest piece that is looked for.
const MOST_PIECE: usize = 1000;

/// A coded term root first, a mark a node, but for indices above 15; bytes that are no nodes as they are.
pub fn spelled(s: &[u8]) -> Vec<u8> {
    marked(s).map_or_else(|| [b"=", s].concat(), String::into_bytes)
}

fn marked(s: &[u8]) -> Option<String> {
    let (mut out, mut at) = (String::new(), 0);
    while at < s.len() {
        match s[at] {
            1 => {
                let index = u64::from_le_bytes(s.get(at + 1..at + 9)?.try_into().unwrap());
                out += &match index {
                    0..=15 => format!("{index:x}"),
                    _ => format!("[{index:x}]"),
                };
                at += 8;
            }
            2 => out.push('\\'),
            3 => out.push('@'),
            _ => return None,
        }
        at += 1;
    }
    (!out.is_empty()).then_some(out)
}

/// The bytes of a term that is spelled.
pub fn coded(word: &[u8]) -> Vec<u8> {
    if let Some(bytes) = word.strip_prefix(b"=") {
        return bytes.to_vec();
    }
    let word = String::from_utf8(word.to_vec()).expect("marks");
    let mut out = vec![];
    let mut marks = word.chars();
    while let Some(mark) = marks.next() {
        match mark {
            '\\' => out.push(2),
            '@' => out.push(3),
            '[' => variable(
                &mut out,
                &marks.by_ref().take_while(|c| *c != ']').collect::<String>(),
            ),
            digit => variable(&mut out, &digit.to_string()),
        }
    }
    out
}

fn variable(out: &mut Vec<u8>, digits: &str) {
    out.push(1);
    out.extend(
        u64::from_str_radix(digits, 16)
            .expect("an index")
            .to_le_bytes(),
    );
}

/// The best piece that a text begins with more than once: its length, and how often.
fn piece(text: &[u8]) -> Option<(usize, usize)> {
    let saved = |(length, count): &(usize, usize)| length * (count - 1);
    (1..=MOST_PIECE.min(text.len() / 2))
        .map(|length| {
            let first = &text[..length];
            (
                length,
                text.chunks_exact(length)
                    .take_while(|chunk| *chunk == first)
                    .count(),
            )
        })
        .filter(|found| saved(found) >= SAVED)
        .max_by_key(|found| saved(found))
}

/// A line without the marks that are kept for bytes and pieces, without line feeds, and as UTF-8.
pub fn folded(line: &[u8]) -> String {
    let (mut out, mut at) = (String::new(), 0);
    while at < line.len() {
        let (length, count) = piece(&line[at..]).unwrap_or((0, 0));
        if count > 0 {
            out += &format!("{{{}}}{count};", escaped(&line[at..at + length]));
            at += length * count;
        } else {
            let length = if line[at..].starts_with("λ".as_bytes()) {
                2
            } else {
                1
            };
            out += &escaped(&line[at..at + length]);
            at += length;
        }
    }
    assert_eq!(unfolded(&out), line, "{out}");
    out
}

fn escaped(bytes: &[u8]) -> String {
    let (mut out, mut at) = (String::new(), 0);
    while at < bytes.len() {
        match bytes[at] {
            b'%' | b'{' | b'}' | b'<' | b'>' => out += &format!("%{:02x}", bytes[at]),
            plain @ 32..=126 => out.push(plain as char),
            _ if bytes[at..].starts_with("λ".as_bytes()) => {
                out.push('λ');
                at += 1;
            }
            odd => out += &format!("%{odd:02x}"),
        }
        at += 1;
    }
    out
}

/// The line that is meant; in cases that are written by hand a piece may have pieces between `<` and `>`.
pub fn unfolded(line: &str) -> Vec<u8> {
    let (mut out, mut outer, mut inner) = (vec![], 0, 0);
    let mut rest = line.as_bytes();
    while let Some((mark, behind)) = rest.split_first() {
        rest = behind;
        match mark {
            b'%' => {
                let digits = std::str::from_utf8(&rest[..2]).unwrap();
                out.push(u8::from_str_radix(digits, 16).expect(line));
                rest = &rest[2..];
            }
            b'{' => outer = out.len(),
            b'<' => inner = out.len(),
            b'}' | b'>' => {
                let end = rest.iter().position(|b| *b == b';').expect(line);
                let count: usize = std::str::from_utf8(&rest[..end])
                    .unwrap()
                    .parse()
                    .expect(line);
                let from = if *mark == b'}' { outer } else { inner };
                let piece = out[from..].to_vec();
                (1..count).for_each(|_| out.extend(&piece));
                rest = &rest[end + 1..];
            }
            plain => out.push(*plain),
        }
    }
    out
}
