//! Random terms of several shapes, and known terms set among them.
use crate::reduction::raise;
use crate::term::*;

pub struct Random(pub u64);

impl Random {
    /// SplitMix64.
    fn next(&mut self) -> u64 {
        self.0 = self.0.wrapping_add(0x9E37_79B9_7F4A_7C15);
        let mut z = self.0;
        z = (z ^ (z >> 30)).wrapping_mul(0xBF58_476D_1CE4_E5B9);
        z = (z ^ (z >> 27)).wrapping_mul(0x94D0_49BB_1331_11EB);
        z ^ (z >> 31)
    }

    pub fn below(&mut self, n: u64) -> u64 {
        self.next() % n
    }

    pub fn chance(&mut self, percent: u64) -> bool {
        self.below(100) < percent
    }

    pub fn pick<X: Copy>(&mut self, of: &[X]) -> X {
        of[self.below(of.len() as u64) as usize]
    }
}

/// Which indices a term has where they are not bound.
#[derive(Clone, Copy)]
pub enum Free {
    None,
    Small,
    Greatest,
    Around1023,
}

pub const FREE: [Free; 4] = [Free::None, Free::Small, Free::Greatest, Free::Around1023];

fn index(r: &mut Random, depth: u64, free: Free) -> u64 {
    let bound = match free {
        Free::None => 100,
        Free::Small => 70,
        _ => 60,
    };
    if depth > 0 && r.chance(bound) {
        let near = if r.chance(50) { depth.min(3) } else { depth };
        return 1 + r.below(near);
    }
    match free {
        Free::None => 0,
        Free::Small if r.chance(10) => 0,
        Free::Small => depth + 1 + r.below(4),
        Free::Greatest => u64::MAX - r.below(if depth % 2 == 0 { 4 } else { 600 }),
        Free::Around1023 => 1018 + r.below(10) + if r.chance(50) { depth } else { 0 },
    }
}

/// So many nodes; every third or so is an abstraction, and half of the applications are redexes.
pub fn term(r: &mut Random, nodes: u64, depth: u64, free: Free) -> Term {
    if nodes <= 1 {
        return var(index(r, depth, free));
    }
    if nodes == 2 || r.chance(25) {
        return abs(term(r, nodes - 1, depth + 1, free));
    }
    let left = match r.below(4) {
        0 => nodes - 2,
        1 => 1,
        _ => 1 + r.below(nodes - 2),
    };
    let function = if left >= 2 && r.chance(50) {
        abs(term(r, left - 1, depth + 1, free))
    } else {
        term(r, left, depth, free)
    };
    app(function, term(r, nodes - 1 - left, depth, free))
}

pub fn small(r: &mut Random, depth: u64, free: Free) -> Term {
    let nodes = 1 + r.below(6);
    term(r, nodes, depth, free)
}

pub fn numeral(n: u64) -> Term {
    binders(2, (0..n).fold(var(1), |t, _| app(var(2), t)))
}

pub fn identity() -> Term {
    abs(var(1))
}

fn doubled(half: Term) -> Term {
    app(half.clone(), half)
}

pub fn omega() -> Term {
    doubled(abs(app(var(1), var(1))))
}

pub fn y() -> Term {
    abs(doubled(abs(app(var(2), app(var(1), var(1))))))
}

pub fn theta() -> Term {
    let again = apply(var(2), vec![var(2), var(1)]);
    doubled(binders(2, app(var(1), again)))
}

pub fn k() -> Term {
    binders(2, var(2))
}

pub fn s() -> Term {
    binders(3, apply(var(3), vec![var(1), app(var(2), var(1))]))
}

pub fn add() -> Term {
    let rest = apply(var(3), vec![var(2), var(1)]);
    binders(4, apply(var(4), vec![var(2), rest]))
}

pub fn multiply() -> Term {
    binders(3, app(var(3), app(var(2), var(1))))
}

pub fn power() -> Term {
    binders(2, app(var(1), var(2)))
}

pub fn predecessor() -> Term {
    let step = binders(2, app(var(1), app(var(2), var(4))));
    binders(3, apply(var(3), vec![step, abs(var(2)), identity()]))
}

/// By a fixpoint: 1 of zero, otherwise the number times the factorial of its predecessor.
pub fn factorial(n: u64) -> Term {
    let is_zero = abs(apply(var(1), vec![binders(3, var(1)), k()]));
    let less = app(var(2), app(predecessor(), var(1)));
    let product = apply(multiply(), vec![var(1), less]);
    let step = binders(2, apply(is_zero, vec![var(1), numeral(1), product]));
    apply(theta(), vec![step, numeral(n)])
}

/// Terms that go on for ever, some of them growing.
pub fn turning(r: &mut Random) -> Term {
    let free = Free::Small;
    match r.below(8) {
        0 => omega(),
        1 => doubled(abs(apply(var(1), vec![var(1), var(1)]))),
        2 => app(y(), small(r, 0, free)),
        3 => app(y(), identity()),
        4 => app(theta(), small(r, 0, free)),
        5 => app(theta(), identity()),
        6 => doubled(abs(apply(var(1), vec![var(1), small(r, 1, free)]))),
        _ => doubled(abs(app(abs(app(var(2), var(2))), small(r, 1, free)))),
    }
}

/// Numerals and combinators put together.
pub fn known(r: &mut Random) -> Term {
    let (m, n) = (numeral(r.below(5)), numeral(r.below(5)));
    match r.below(9) {
        0 => apply(multiply(), vec![m, n]),
        1 => apply(add(), vec![m, n]),
        2 => apply(power(), vec![m, n]),
        3 => app(predecessor(), numeral(r.below(12))),
        4 => apply(s(), vec![k(), k(), m]),
        5 => apply(m, vec![n, numeral(2)]),
        6 => app(k(), known(r)),
        7 => app(known(r), known(r)),
        _ => abs(known(r)),
    }
}

/// A term with so many others around it.
pub fn among(r: &mut Random, t: Term, count: u64, free: Free) -> Term {
    (0..count).fold(t, |t, _| match r.below(5) {
        0 => abs(t),
        1 => app(t, small(r, 0, free)),
        2 => app(small(r, 0, free), t),
        3 => app(abs(small(r, 1, free)), t),
        _ => app(abs(t), small(r, 0, free)),
    })
}

/// A way of so many turns, to other parts that are small, with a term at its end: as high as a term may be, or higher.
pub fn deep(r: &mut Random, turns: u64, end: Term, free: Free) -> Term {
    let kind = r.below(6);
    (0..turns).fold(end, |t, _| {
        let turn = if kind < 4 { kind } else { r.below(4) };
        match turn {
            0 => abs(t),
            1 => app(t, small(r, 0, free)),
            2 => app(small(r, 0, free), t),
            _ => app(abs(t), small(r, 0, free)),
        }
    })
}

/// Applications in each other, so many, to the left or to the right, with variable 1 at the end.
pub fn row(r: &mut Random, count: u64, depth: u64, free: Free) -> Term {
    let right = r.chance(50);
    (0..count).fold(var(1), |t, _| match right {
        true => app(var(depth + 1), t),
        false => app(t, small(r, depth, free)),
    })
}

/// So many turns around a term, each of which makes it higher by one: abstractions among them or not.
pub fn tower(r: &mut Random, turns: u64, end: Term, binding: bool) -> Term {
    let kinds = if binding { 3 } else { 2 };
    let kind = r.below(5);
    (0..turns).fold(end, |t, _| {
        let turn = if kind < kinds { kind } else { r.below(kinds) };
        match turn {
            0 => app(t, var(2)),
            1 => app(var(2), t),
            _ => abs(t),
        }
    })
}

/// So many abstractions around a term, most of them places of eta, one in another.
fn nest(r: &mut Random, t: Term, count: u64) -> Term {
    (0..count).fold(t, |t, _| match r.below(8) {
        0 => abs(app(t, var(1))),
        1 => app(var(2), t),
        _ => abs(app(raise(&t, 1, 0), var(1))),
    })
}

/// A term with many places of eta, some of which index 0 or the binder blocks, some of which others uncover.
pub fn with_places(r: &mut Random, nodes: u64, depth: u64, free: Free) -> Term {
    let count = r.below(3);
    let part = match nodes {
        0..=3 => term(r, nodes, depth, free),
        _ if r.chance(40) => abs(with_places(r, nodes - 1, depth + 1, free)),
        _ => {
            let left = with_places(r, nodes / 2, depth, free);
            app(left, with_places(r, nodes / 2, depth, free))
        }
    };
    nest(r, part, count)
}
