//! Every refusal that this crate can meet, with its number, its values and its words.
use crate::{de_bruijn, limit};
use copperjangle::*;

/// What the refusal says begins like this.
fn says(refusal: Refusal, number: u8, start: &str) {
    assert_eq!(refusal.number(), number);
    let message = refusal.to_string();
    assert!(message.starts_with(start), "{message}");
}

fn unread(text: &str, notation: Notation) -> Refusal {
    parse(text, notation).unwrap_err()
}

#[test]
fn no_1_limits_caps_and_orders() {
    let start = "there is no such limit, cap or order; a limit is 1 to 1,000,000";
    says(Limit::try_from(0).unwrap_err(), 1, start);
    says(Limit::try_from(1_000_001).unwrap_err(), 1, start);
    says(Cap::try_from(0).unwrap_err(), 1, start);
    says(Cap::try_from(65_537).unwrap_err(), 1, start);
    says("NORMAL".parse::<Order>().unwrap_err(), 1, start);
}

#[test]
fn no_3_long_texts() {
    let spaces = " ".repeat(2_097_153);
    for notation in [DeBruijn, Classic] {
        let start = "the text is longer than 2,097,152 bytes; hand in a shorter one";
        says(unread(&spaces, notation), 3, start);
        assert_eq!(unread(&spaces[1..], notation), Refusal::EmptyExpression);
    }
}

#[test]
fn no_4_characters_outside() {
    let refusal = unread("λλ.а", Classic);
    let start = "the text has a character that is not read, U+0430: `а` at character 3, counted from 0; use";
    says(refusal, 4, start);
    assert_eq!((refusal.offset(), refusal.place()), (Some(5), Some(3)));

    // Judged before the others, over the whole text.
    let tab = Refusal::OutsideDomain {
        offset: 1,
        place: 1,
        character: '\u{b}',
    };
    assert_eq!(unread("g\u{b}", DeBruijn), tab);
    assert!(tab.to_string().contains(r"`\u{b}`"));
}

#[test]
fn no_5_characters_out_of_place() {
    for (text, notation, place, character) in [
        ("12g", DeBruijn, 2, 'g'),
        ("[1", DeBruijn, 0, '['),
        ("[10000000000000000]", DeBruijn, 17, '0'),
        ("λa.a) 1", Classic, 6, '1'),
        ("λa b.a", Classic, 2, ' '),
        ("λx.\"x", Classic, 3, '"'),
    ] {
        let refusal = unread(text, notation);
        assert_eq!(refusal, Refusal::InvalidCharacter { place, character });
        let start = "the text has a character that cannot stand there: ";
        says(
            refusal,
            5,
            &format!("{start}`{character}` at character {place},"),
        );
    }
}

#[test]
fn no_6_names_without_binder() {
    for text in ["x", "λx.y", "(λx.x) x", "λx.X", "() x"] {
        let start = "the text has a name that no binder binds; bind it";
        says(unread(text, Classic), 6, start);
    }
}

#[test]
fn no_7_high_terms() {
    let start = "the term is nested more than 512 deep; use fewer parentheses";
    says(unread(&"(".repeat(513), Classic), 7, start);
    says(unread(&(r"\".repeat(512) + "1"), DeBruijn), 7, start);
    says(try_abs(abs!(511, Var(1))).unwrap_err(), 7, start);
    says(try_app(abs!(511, Var(1)), Var(1)).unwrap_err(), 7, start);
    let outermost = abs!(511, Var(511));
    says(outermost.apply(&de_bruijn("111")).unwrap_err(), 7, start);

    let grows = de_bruijn(r"(\111)(\111)");
    let refusal = grows.reduce(NOR, Limit::MAX).unwrap_err();
    assert_eq!(refusal, Refusal::TooHigh { steps: Some(507) });
    says(
        refusal,
        7,
        "after 507 steps the next term is nested more than 512 deep; take another order",
    );
    assert!(refusal
        .to_string()
        .ends_with(", or the limit 507 to see the term reached"));
    assert!(grows.reduce(NOR, limit(507)).is_ok());
}

#[test]
fn no_8_empty_parts() {
    for text in ["", " \t\r\n", "()", "λx.", "(", ")", "λx.()"] {
        let start = "the text has no term at its start, after a binder or";
        says(unread(text, Classic), 8, start);
    }
}

#[test]
fn no_9_large_terms() {
    let start = "the term has more nodes than the cap; make it smaller";
    let text = format!("({})", "1".repeat(128)).repeat(257);
    says(unread(&text, DeBruijn), 9, start);
    let large = (0..15).fold(Var(1), |term, _| app(term.clone(), term));
    says(try_app(large.clone(), Var(1)).unwrap_err(), 9, start);
    says(
        abs(app(Var(1), Var(1))).apply(&large).unwrap_err(),
        9,
        start,
    );
    assert_eq!(try_abs(large).unwrap().nodes(), 65_536);
}

#[test]
fn no_9_terms_above_the_cap_of_a_workspace() {
    let mut small = Workspace::new(Cap::new(8).unwrap());
    let start = "the term has more nodes than the cap; make it smaller";
    says(small.parse("11111", DeBruijn).unwrap_err(), 9, start);
    let omega = de_bruijn(r"(\11)(\11)");
    says(small.apply(&omega, &Var(1)).unwrap_err(), 9, start);
    says(small.reduce(&omega, NOR, limit(1)).unwrap_err(), 9, start);
    says(small.eta(&omega, 0).unwrap_err(), 9, start);

    // It has 12 nodes, and would have 17.
    let mut twelve = Workspace::new(Cap::new(12).unwrap());
    let refusal = twelve.reduce(&de_bruijn(r"(\111)(111)"), NOR, limit(1));
    let first = "at the first step the term has more nodes than the cap; take another order";
    says(refusal.unwrap_err(), 9, first);

    // It has 15 nodes, then 12, and would have 17.
    let term = de_bruijn(r"(\1)((\111)(111))");
    let mut fifteen = Workspace::new(Cap::new(15).unwrap());
    let refusal = fifteen.reduce(&term, NOR, limit(2)).unwrap_err();
    assert_eq!(refusal, Refusal::TooManyNodes { steps: Some(1) });
    says(
        refusal,
        9,
        "after 1 step the next term has more nodes than the cap; take another",
    );
    assert!(refusal
        .to_string()
        .ends_with(" or a greater cap, or the limit 1 to see the term reached"));
}

#[test]
fn no_10_bytes_that_are_no_term() {
    for (bytes, offset) in [
        (vec![], 0),
        (vec![0], 0),
        (vec![2, 4], 1),
        (vec![3, 1, 1, 0], 1),
        (vec![1, 1, 0, 0, 0, 0, 0, 0, 0, 2], 9),
        (vec![2; 600], 600),
    ] {
        let refusal = Term::from_bytes(bytes).unwrap_err();
        assert_eq!(refusal.offset(), Some(offset));
        let start = "the bytes are not one whole term: they go wrong at offset ";
        says(refusal, 10, &format!("{start}{offset};"));
    }
}

#[test]
fn no_11_what_is_no_abstraction() {
    for text in ["1", "12", r"(\1)1"] {
        let refusal = de_bruijn(text).apply(&Var(1)).unwrap_err();
        says(
            refusal,
            11,
            "the term that is applied is not an abstraction; apply one",
        );
    }
}

#[test]
fn no_12_great_indices() {
    let start = "has an index above 2^64 - 1; use smaller indices";
    let applied = de_bruijn(r"\\2").apply(&Var(usize::MAX)).unwrap_err();
    says(applied, 12, &format!("the term {start}"));
    let term = app(abs(Var(1)), app(de_bruijn(r"\\2"), Var(usize::MAX)));
    let refusal = term.reduce(NOR, Limit::MAX).unwrap_err();
    assert_eq!(refusal.steps(), Some(1));
    says(refusal, 12, &format!("after 1 step the next term {start}"));
}
