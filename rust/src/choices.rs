//! What a caller chooses: one of two notations, one of seven orders.

use crate::Refusal;
use std::fmt;
use std::str::FromStr;

/// The notation of a text.
///
/// ```
/// use copperjangle::*;
///
/// let s = parse("λa.λb.λc.a c (b c)", Classic)?;
/// assert_eq!(s, parse(r"\\\ 3 1 (2 1)", DeBruijn)?);
/// assert_eq!(s.text(DeBruijn), "λλλ31(21)");
/// # Ok::<(), Refusal>(())
/// ```
#[derive(Clone, Copy, PartialEq, Eq, Hash, Debug)]
pub enum Notation {
    /// Indices without names: one hexadecimal digit each, or more than one in brackets.
    DeBruijn = 0,
    /// Named variables, each under the binder of its name.
    Classic = 1,
}

/// The order in which redexes are contracted, after Sestoft.
///
/// ```
/// use copperjangle::*;
///
/// // NOR drops the argument that never ends; APP works on it for ever.
/// let term = parse(r"(\2) ((\11)(\11))", DeBruijn)?;
/// assert!(term.reduce(NOR, Limit::new(5).unwrap())?.is_finished());
/// assert!(!term.reduce(APP, Limit::new(5).unwrap())?.is_finished());
/// # Ok::<(), Refusal>(())
/// ```
#[derive(Clone, Copy, PartialEq, Eq, Hash, Debug)]
pub enum Order {
    /// Normal: leftmost outermost, to the normal form.
    NOR = 0,
    /// Call by name: leftmost outermost, never inside an abstraction, to weak head normal form.
    CBN = 1,
    /// Head spine: inside abstractions in head position only, to head normal form.
    HSP = 2,
    /// Hybrid normal: head spine first, then the rest, to the normal form.
    HNO = 3,
    /// Applicative: leftmost innermost, to the normal form.
    APP = 4,
    /// Call by value: leftmost innermost, never inside an abstraction, to weak normal form.
    CBV = 5,
    /// Hybrid applicative: call by value on the left, to the normal form.
    HAP = 6,
}

impl Order {
    /// All seven.
    ///
    /// ```
    /// use copperjangle::*;
    ///
    /// let omega = parse("(λx.x x) (λx.x x)", Classic)?;
    /// for order in Order::ALL {
    ///     assert!(!omega.reduce(order, Limit::new(10).unwrap())?.is_finished());
    /// }
    /// # Ok::<(), Refusal>(())
    /// ```
    pub const ALL: [Order; 7] = [
        Order::NOR,
        Order::CBN,
        Order::HSP,
        Order::HNO,
        Order::APP,
        Order::CBV,
        Order::HAP,
    ];

    /// The order's name in words, which is what `lambda_calculus` displays.
    ///
    /// ```
    /// assert_eq!(copperjangle::CBV.name(), "call-by-value");
    /// ```
    pub const fn name(self) -> &'static str {
        match self {
            Order::NOR => "normal",
            Order::CBN => "call-by-name",
            Order::HSP => "head spine",
            Order::HNO => "hybrid normal",
            Order::APP => "applicative",
            Order::CBV => "call-by-value",
            Order::HAP => "hybrid applicative",
        }
    }
}

/// The three letters of the order.
///
/// ```
/// assert_eq!(format!("{:>5}", copperjangle::HNO), "  HNO");
/// ```
impl fmt::Display for Order {
    fn fmt(&self, f: &mut fmt::Formatter) -> fmt::Result {
        f.pad(&format!("{self:?}"))
    }
}

/// Reads the three letters of an order, all capitals.
///
/// ```
/// use copperjangle::*;
///
/// assert_eq!("HAP".parse(), Ok(HAP));
/// assert_eq!("hap".parse::<Order>(), Err(Refusal::OutsideBounds));
/// ```
impl FromStr for Order {
    type Err = Refusal;

    fn from_str(letters: &str) -> Result<Order, Refusal> {
        let named = |order: &Order| order.to_string() == letters;
        Order::ALL
            .into_iter()
            .find(named)
            .ok_or(Refusal::OutsideBounds)
    }
}
