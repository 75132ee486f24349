//! Random terms to be reduced, with limits and caps around the bounds.
use crate::random::*;
use crate::term::*;

pub struct Posed {
    pub limit: u64,
    pub cap: u64,
    pub term: Term,
}

/// A cap near the number of nodes, so that runs are refused and the room is filled again and again.
fn tight_cap(r: &mut Random, nodes: u64) -> u64 {
    let cap = match r.below(8) {
        0 => nodes,
        1 => nodes + 1 + r.below(4),
        2 => nodes + r.below(nodes + 1),
        3 => 2 * nodes,
        4 => 4 * nodes + 3,
        5 => nodes - 1,
        6 => nodes + r.below(40),
        _ => 1000,
    };
    cap.clamp(1, 3000)
}

/// Small terms of any shape.
pub fn any(r: &mut Random) -> Posed {
    let free = r.pick(&FREE);
    let t = match r.below(4) {
        0 => known(r),
        1 => turning(r),
        _ => {
            let nodes = 1 + r.below(60);
            term(r, nodes, 0, free)
        }
    };
    let count = r.below(5);
    let t = among(r, t, count, free);
    let limit = r.pick(&[1, 2, 3, 5, 10, 30, 100, 300]);
    let cap = tight_cap(r, nodes(&t));
    Posed {
        limit,
        cap,
        term: t,
    }
}

/// Many steps in little room.
pub fn long(r: &mut Random) -> Posed {
    let t = turning(r);
    let count = r.below(6);
    let t = among(r, t, count, Free::Small);
    let limit = r.pick(&[500, 1000, 3000]);
    let cap = nodes(&t) + r.pick(&[0, 1, 5, 20, 40]);
    Posed {
        limit,
        cap,
        term: t,
    }
}

/// Heights around 512, by the input and by its steps.
pub fn high(r: &mut Random) -> Posed {
    let free = r.pick(&FREE);
    let end = match r.below(3) {
        0 => omega(),
        1 => known(r),
        _ => small(r, 0, free),
    };
    let turns = if r.chance(50) {
        490 + r.below(25)
    } else {
        100 + r.below(400)
    };
    let t = deep(r, turns, end, free);
    let cap = tight_cap(r, nodes(&t));
    let limit = r.pick(&[1, 2, 5, 20, 60]);
    Posed {
        limit,
        cap,
        term: t,
    }
}

/// A step that puts one high term into another, or the steps of a large product.
pub fn growing(r: &mut Random) -> Posed {
    let free = r.pick(&FREE);
    let t = if r.chance(80) {
        let (body, argument) = (100 + r.below(350), 100 + r.below(250));
        let body = row(r, body, 1, free);
        app(abs(body), row(r, argument, 0, free))
    } else {
        let (m, n) = (10 + r.below(20), 10 + r.below(30));
        apply(multiply(), vec![numeral(m), numeral(n)])
    };
    let count = r.below(4);
    let t = among(r, t, count, free);
    let cap = nodes(&t) + r.pick(&[0, 10, 1000]);
    let limit = r.pick(&[1, 5, 50, 500]);
    Posed {
        limit,
        cap,
        term: t,
    }
}

/// A step to a height of 511 to 513: a redex at a depth, whose argument is put at the foot of its body.
pub fn edge(r: &mut Random) -> Posed {
    let depth = r.below(250);
    let body = 1 + r.below(250);
    let argument = 510 - depth - body + r.below(3);
    let redex = app(
        abs(tower(r, body, var(1), false)),
        tower(r, argument, var(1), true),
    );
    let t = tower(r, depth, redex, true);
    Posed {
        limit: 1 + r.below(3),
        cap: nodes(&t),
        term: t,
    }
}
