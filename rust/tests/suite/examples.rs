//! The examples P1 to P16 of docs/RULES.md, and doc examples of the original crate.
use crate::{classic, de_bruijn, limit};
use copperjangle::Outcome::{Finished, Unfinished};
use copperjangle::*;

fn reduced(text: &str, order: Order, steps: usize) -> Outcome {
    de_bruijn(text).reduce(order, limit(steps)).unwrap()
}

fn finished(text: &str, steps: usize) -> Outcome {
    let term = de_bruijn(text);
    Finished { term, steps }
}

fn unfinished(text: &str, steps: usize) -> Outcome {
    let term = de_bruijn(text);
    Unfinished { term, steps }
}

#[test]
fn p1_to_p7_and_p16_are_read() {
    assert_eq!(de_bruijn("10"), app(Var(1), Var(0)));
    assert_eq!(de_bruijn("[10]"), Var(16));
    let invalid = |place, character| Err(Refusal::InvalidCharacter { place, character });
    assert_eq!(parse("[]", DeBruijn), invalid(1, ']'));
    assert_eq!(parse("λλ[", DeBruijn), invalid(2, '['));
    assert_eq!(de_bruijn("1)2"), Var(1));
    assert_eq!(de_bruijn("(1"), Var(1));
    assert_eq!(classic(r"\a.\b.a b"), de_bruijn(r"\\21"));
    assert_eq!(parse("", DeBruijn), Err(Refusal::EmptyExpression));
}

#[test]
fn p8_is_applied() {
    let applied = de_bruijn(r"\\42(\13)").apply(&de_bruijn(r"\51"));
    assert_eq!(applied, Ok(de_bruijn(r"\3(\61)(\1(\71))")));
}

#[test]
fn p9_to_p13_are_reduced() {
    let omega = r"(\11)(\11)";
    assert_eq!(reduced(omega, NOR, 3), unfinished(omega, 3));
    let drops = r"(\2)((\11)(\11))";
    assert_eq!(reduced(drops, NOR, 5), finished("1", 1));
    assert_eq!(reduced(drops, APP, 5), unfinished(drops, 5));
    assert_eq!(reduced(r"(\11)(\1)", NOR, 2), finished(r"\1", 2));
    let raised = de_bruijn(r"(\\2)[FFFFFFFFFFFFFFFF]").reduce(NOR, limit(1));
    assert_eq!(raised, Err(Refusal::IndexTooGreat { steps: Some(0) }));
    let under = r"\(\1)1";
    assert_eq!(reduced(under, CBN, 9), finished(under, 0));
    assert_eq!(reduced(under, NOR, 9), finished(r"\1", 1));
}

#[test]
fn p14_and_p15_are_reduced_by_eta() {
    assert_eq!(de_bruijn(r"\21").eta(0), finished("1", 1));
    assert_eq!(de_bruijn(r"\[0]1").eta(0), finished(r"\[0]1", 0));
    let nest = de_bruijn(r"\\3(\41)21");
    assert_eq!(nest.eta(2), unfinished(r"\221", 2));
    assert_eq!(nest.eta(0), finished("11", 3));
}

#[test]
fn texts_of_the_original_pages_are_read() {
    let y = de_bruijn("λ(λ2(11))(λ2(11))");
    assert_eq!(classic("λf.(λx.f (x x)) (λx.f (x x))"), y);
    assert_eq!(classic("λf.(λx.f(x x))(λx.f(x x))"), y);
    let s = de_bruijn("λλλ31(21)");
    assert_eq!(de_bruijn(r"\\\3 1 (2 1)"), s);
    assert_eq!(classic("λa.λb.λc.a c (b c)"), s);
    assert_eq!(s, abs!(3, app!(Var(3), Var(1), app(Var(2), Var(1)))));
}

#[test]
fn terms_are_taken_apart() {
    let term = app(abs(Var(2)), app(Var(3), Var(usize::MAX)));
    assert_eq!(term.lhs().and_then(|lhs| lhs.unabs()), Ok(Var(2)));
    assert_eq!(term.rhs().and_then(|rhs| rhs.lhs()), Ok(Var(3)));
    assert_eq!(
        term.rhs().and_then(|rhs| rhs.rhs()?.unvar()),
        Ok(usize::MAX)
    );
    assert_eq!(term.unvar(), Err(TermError::NotVar));
    assert_eq!(term.unabs(), Err(TermError::NotAbs));
    assert_eq!(Var(1).unapp(), Err(TermError::NotApp));
    assert_eq!(Var(1).shape(), Shape::Var(1));
}

#[test]
fn equality_compares_indices() {
    let terms = ["1", "2", "11", "12", r"\1", r"\2", r"\11", r"(\1)1"].map(de_bruijn);
    for (i, left) in terms.iter().enumerate() {
        for (j, right) in terms.iter().enumerate() {
            assert_eq!(left == right, i == j);
            assert_eq!(left.is_isomorphic_to(right), i == j);
        }
    }
}
