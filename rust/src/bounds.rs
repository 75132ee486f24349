//! The two numbers that a caller states: how many steps, and how many nodes.

use crate::Refusal;
use std::fmt;

/// Defines a number from 1 to a greatest one. `$bound` says in words what it bounds.
macro_rules! bounded {
    ($(#[$about:meta])* $name:ident, $bound:literal, $greatest:literal, $above:literal) => {
        $(#[$about])*
        #[derive(Clone, Copy, PartialEq, Eq, PartialOrd, Ord, Hash, Debug)]
        pub struct $name(usize);

        impl $name {
            #[doc = concat!("The greatest ", $bound, ".")]
            ///
            /// ```
            #[doc = concat!("use copperjangle::", stringify!($name), ";")]
            ///
            #[doc = concat!("assert_eq!(", stringify!($name), "::MAX.get(), ", $greatest, ");")]
            /// ```
            pub const MAX: $name = $name($greatest);

            #[doc = concat!("A ", $bound, ", unless the number is 0 or above [`MAX`](Self::MAX).")]
            ///
            /// ```
            #[doc = concat!("use copperjangle::", stringify!($name), ";")]
            ///
            #[doc = concat!("assert!(", stringify!($name), "::new(1000).is_some());")]
            #[doc = concat!("assert!(", stringify!($name), "::new(0).is_none());")]
            #[doc = concat!("assert!(", stringify!($name), "::new(", $above, ").is_none());")]
            /// ```
            pub const fn new(number: usize) -> Option<$name> {
                match number {
                    1..=$greatest => Some($name(number)),
                    _ => None,
                }
            }

            /// The number.
            ///
            /// ```
            #[doc = concat!("use copperjangle::", stringify!($name), ";")]
            ///
            #[doc = concat!("assert_eq!(", stringify!($name), "::new(12).unwrap().get(), 12);")]
            /// ```
            pub const fn get(self) -> usize {
                self.0
            }
        }

        #[doc = concat!("As [`", stringify!($name), "::new`], with refusal 1 for a number outside.")]
        ///
        /// ```
        #[doc = concat!("use copperjangle::{Refusal, ", stringify!($name), "};")]
        ///
        #[doc = concat!("assert_eq!(", stringify!($name), "::try_from(0), Err(Refusal::OutsideBounds));")]
        /// ```
        impl TryFrom<usize> for $name {
            type Error = Refusal;

            fn try_from(number: usize) -> Result<$name, Refusal> {
                $name::new(number).ok_or(Refusal::OutsideBounds)
            }
        }

        /// The number.
        ///
        /// ```
        #[doc = concat!("assert_eq!(copperjangle::", stringify!($name), "::new(12).unwrap().to_string(), \"12\");")]
        /// ```
        impl fmt::Display for $name {
            fn fmt(&self, f: &mut fmt::Formatter) -> fmt::Result {
                self.0.fmt(f)
            }
        }
    };
}

bounded! {
    /// The most steps that a reduction may take: 1 to 1,000,000.
    ///
    /// There is no limit that means none, because a reduction need not end. The nearest to it is
    /// [`Limit::MAX`].
    ///
    /// ```
    /// use copperjangle::{parse, DeBruijn, Limit, Refusal, NOR};
    ///
    /// let omega = parse(r"(\11)(\11)", DeBruijn)?;
    /// let outcome = omega.reduce(NOR, Limit::new(3).unwrap())?;
    /// assert_eq!((outcome.steps(), outcome.is_finished()), (3, false));
    /// # Ok::<(), Refusal>(())
    /// ```
    Limit, "limit", 1_000_000, 1_000_001
}

bounded! {
    /// The most nodes that a term may have on the way: 1 to 65,536.
    ///
    /// Every variable, abstraction and application is one node. What is done without naming a cap
    /// is done under [`Cap::MAX`], so that nothing is refused but what breaks the bounds of every
    /// term. A smaller cap, which a [`Workspace`](crate::Workspace) takes, keeps terms and memory
    /// small.
    ///
    /// ```
    /// use copperjangle::{Cap, DeBruijn, Refusal, Workspace};
    ///
    /// let mut small = Workspace::new(Cap::new(2).unwrap());
    /// assert_eq!(small.parse("11", DeBruijn), Err(Refusal::TooManyNodes { steps: None }));
    /// ```
    Cap, "cap", 65_536, 65_537
}

/// [`Cap::MAX`].
///
/// ```
/// assert_eq!(copperjangle::Cap::default(), copperjangle::Cap::MAX);
/// ```
impl Default for Cap {
    fn default() -> Cap {
        Cap::MAX
    }
}
