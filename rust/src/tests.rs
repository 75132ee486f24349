//! Tests of what no caller of this crate can see: the entry points as they are, and how their answers are told.
use crate::ffi::{self, Answer, Lent};
use crate::{Limit, Notation, Order, Refusal};

/// 1, coded.
const ONE: [u8; 9] = [1, 1, 0, 0, 0, 0, 0, 0, 0];

fn refused(refusal: u64) -> Answer {
    Answer {
        refusal,
        ..Answer::default()
    }
}

#[test]
fn an_answer_holds_what_it_says() {
    let given = Answer {
        value: 1,
        ..Answer::default()
    };
    assert_eq!(ffi::nodes(&ONE), given);
    assert_eq!(ffi::equality(&ONE, &ONE), given);
    let broken = Answer {
        place: 9,
        ..refused(10)
    };
    assert_eq!(ffi::height(&[&ONE[..], &[0]].concat()), broken);
}

#[test]
fn text_output_too_short_is_13() {
    let mut out = [7; 2];
    let short = Answer {
        value: 3,
        ..refused(13)
    };
    let bytes = [&[2][..], &ONE].concat();
    assert_eq!(ffi::print(Notation::DeBruijn, &bytes, &mut out), short);
    assert_eq!(out, [7; 2]);
    assert_eq!(ffi::print(Notation::DeBruijn, &bytes, &mut [0; 3]).value, 3);
}

#[test]
fn too_little_room_is_2_and_changes_nothing() {
    for (outs, rooms) in [(17, 16), (18, 15)] {
        let (mut out, mut room) = (vec![7; outs], vec![7; rooms]);
        let lent = Lent {
            cap: 2,
            out: &mut out,
            room: &mut room,
        };
        assert_eq!(ffi::parse(Notation::DeBruijn, b"1", lent), refused(2));
        assert_eq!((out, room), (vec![7; outs], vec![7; rooms]));
    }
}

#[test]
fn what_is_lent_beyond_the_cap_is_left_alone() {
    let (mut out, mut room) = ([7; 20], [7; 20]);
    let lent = Lent {
        cap: 2,
        out: &mut out,
        room: &mut room,
    };
    let answer = ffi::reduce(Order::NOR, Limit::MAX, &ONE, lent);
    assert_eq!((answer.refusal, answer.finished, answer.value), (0, 1, 9));
    assert_eq!(out[..9], ONE);
    assert_eq!(out[9..], [7; 11]);
    assert_eq!((&room[..16], &room[16..]), (&[0; 16][..], &[7; 4][..]));
}

#[test]
fn each_number_is_told_as_its_refusal() {
    for number in 1..=13 {
        let refusal = Refusal::told(&refused(number), "x", None);
        assert_eq!(u64::from(refusal.number()), number);
    }
}

#[test]
fn a_refusal_holds_what_its_answer_says() {
    let answer = |refusal| Answer {
        place: 1,
        code: 93,
        value: 8,
        ..refused(refusal)
    };
    let told = |refusal| Refusal::told(&answer(refusal), "a§", Some(5));
    let (place, character) = (1, ']');
    assert_eq!(told(5), Refusal::InvalidCharacter { place, character });
    let (offset, character) = (1, '§');
    let outside = Refusal::OutsideDomain {
        offset,
        place,
        character,
    };
    assert_eq!(told(4), outside);
    assert_eq!(told(10), Refusal::NotATerm { offset });
    assert_eq!(told(13), Refusal::OutputTooShort { needed: 8 });
    for refusal in [7, 9, 12].map(told) {
        assert_eq!(refusal.steps(), Some(5));
    }
}
