//! The bounds from inside: what is just within them is done.
use crate::{de_bruijn, limit};
use copperjangle::*;
use std::thread;

#[test]
fn limits_and_caps_reach_from_1_to_their_greatest() {
    assert_eq!(Limit::new(1).map(Limit::get), Some(1));
    assert_eq!(Limit::new(1_000_000), Some(Limit::MAX));
    assert_eq!(Limit::new(usize::MAX), None);
    assert_eq!(Cap::new(1).map(Cap::get), Some(1));
    assert_eq!(Cap::new(65_536), Some(Cap::MAX));
    assert_eq!(Cap::new(usize::MAX), None);
}

#[test]
fn a_million_steps_are_taken() {
    let omega = de_bruijn(r"(\11)(\11)");
    let steps = 1_000_000;
    let term = omega.clone();
    let outcome = omega.reduce(HAP, Limit::MAX);
    assert_eq!(outcome, Ok(Outcome::Unfinished { term, steps }));
}

#[test]
fn the_highest_terms_are_terms() {
    let binders = de_bruijn(&(r"\".repeat(511) + "1"));
    assert_eq!((binders.height(), binders.max_depth()), (512, 511));
    let classic = binders.to_string();
    assert_eq!(parse(&classic, Classic), Ok(binders));
    let nested = "(1".repeat(511) + "1";
    assert_eq!(de_bruijn(&nested).height(), 512);
    assert_eq!(de_bruijn(&("(".repeat(512) + "1")), Var(1));
}

#[test]
fn the_largest_terms_are_read_and_written() {
    // 256 groups of 128 variables, joined one after another.
    let text = format!("({})", "1".repeat(128)).repeat(256);
    let term = de_bruijn(&text);
    assert_eq!((term.nodes(), term.height()), (65_535, 383));
    assert_eq!(de_bruijn(&format!("{term:?}")), term);
    let largest = abs(term);
    assert_eq!(largest.nodes(), 65_536);
    assert_eq!(Term::from_bytes(largest.as_bytes()), Ok(largest.clone()));
    assert_eq!(largest.eta(0).term(), &largest);
    assert_eq!(largest.reduce(NOR, Limit::MAX).unwrap().term(), &largest);
    let longest = text.clone() + &" ".repeat(2_097_152 - text.len());
    assert_eq!(de_bruijn(&longest).nodes(), 65_535);
}

#[test]
fn indices_reach_to_the_greatest_number() {
    let text = "[FFFFFFFFFFFFFFFF]";
    assert_eq!(de_bruijn(text), Var(usize::MAX));
    assert_eq!(format!("{:?}", Var(usize::MAX)), text);
    assert_eq!(Var(usize::MAX).max_free_index(), usize::MAX);
    assert_eq!(Var(usize::MAX).to_string(), "gkgwbylwrxtlpo");
}

/// The cap of a workspace is the cap of what is done in it, to the node.
#[test]
fn a_cap_lets_through_what_just_fits() {
    let mut seven = Workspace::new(Cap::new(7).unwrap());
    let term = seven.parse("1111", DeBruijn).unwrap();
    assert_eq!(term.nodes(), 7);
    assert_eq!(
        seven.reduce(&term, NOR, limit(1)).unwrap().into_term(),
        term
    );
    assert_eq!(seven.eta(&term, 0).unwrap().into_term(), term);
    assert_eq!(seven.apply(&abs(Var(1)), &term), Ok(term));
    assert_eq!(format!("{seven:?}"), "Workspace { cap: Cap(7), .. }");
}

/// A reduction is begun anew where it outgrows the room that it is lent at first.
#[test]
fn reductions_grow_up_to_the_cap() {
    let twice = de_bruijn(r"\11");
    let doubled = |times| (0..times).fold(Var(1), |term, _| app(twice.clone(), term));
    for times in [9, 10, 15] {
        let outcome = doubled(times).reduce(APP, Limit::MAX).unwrap();
        assert!(outcome.is_finished());
        assert_eq!(outcome.steps(), times);
        assert_eq!(outcome.term().nodes(), (2 << times) - 1);
    }
    // The last doubling but one already fills the cap, and the last stands around it.
    let refused = |steps| Err(Refusal::TooManyNodes { steps: Some(steps) });
    assert_eq!(doubled(16).reduce(APP, Limit::MAX), refused(14));
    let mut small = Workspace::new(Cap::new(1024).unwrap());
    assert_eq!(small.reduce(&doubled(10), APP, Limit::MAX), refused(8));
}

/// What one workspace answers another answers, too, and a workspace keeps nothing from call to call.
#[test]
fn workspaces_answer_alike() {
    let mut workspaces = [9, 64, 1024, 65_536].map(|cap| Workspace::new(Cap::new(cap).unwrap()));
    for text in [r"(\11)(\11)", r"(\2)1", r"\21", "1", r"(\1)(\1)"] {
        for workspace in &mut workspaces {
            let term = workspace.parse(text, DeBruijn).unwrap();
            assert_eq!(term, de_bruijn(text));
            for order in Order::ALL {
                let outcome = workspace.reduce(&term, order, limit(3));
                assert_eq!(outcome, term.reduce(order, limit(3)));
            }
            assert_eq!(workspace.eta(&term, 0), Ok(term.eta(0)));
        }
    }
}

/// The deepest terms, in threads with little stack.
#[test]
fn deep_terms_need_little_stack() {
    let omega = r"(\11)(\11)";
    let left = omega.to_string() + &"1".repeat(508);
    let right = "1(".repeat(508) + omega;
    let binders = r"\".repeat(508) + omega;
    let redexes = r"(\1)(".repeat(508) + omega;
    // The outermost of 510 binders is applied: the next term would be 1,020 high.
    let grows = format!(r"({}[1FE])({}1", r"\".repeat(510), "1(".repeat(510));
    for text in [left, right, binders, redexes, grows] {
        let work = move || {
            let term = de_bruijn(&text);
            assert_eq!(term.height(), 512);
            for order in Order::ALL {
                match term.reduce(order, limit(1000)) {
                    Ok(outcome) => assert!(!outcome.term().text(DeBruijn).is_empty()),
                    Err(refusal) => assert_eq!(refusal, Refusal::TooHigh { steps: Some(0) }),
                }
            }
            term.eta(0).is_finished()
        };
        let thread = thread::Builder::new().stack_size(512 * 1024);
        assert!(thread.spawn(work).unwrap().join().unwrap());
    }
}

#[test]
fn terms_and_workspaces_go_to_other_threads() {
    let term = de_bruijn(r"(\1)1");
    let mut workspace = Workspace::default();
    let work = move || workspace.reduce(&term, NOR, limit(1)).unwrap().steps();
    assert_eq!(thread::spawn(work).join().unwrap(), 1);
}
