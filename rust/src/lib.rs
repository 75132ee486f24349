//! Terms of the lambda calculus: read, printed, asked about, applied, and reduced in seven orders
//! under a limit, by functions that are proved to do what their definitions say.
//!
//! ```
//! use copperjangle::*;
//!
//! let limit = Limit::new(10).unwrap();
//! let term = parse("(λx.x x) (λy.y)", Classic)?;
//! match term.reduce(NOR, limit)? {
//!     Outcome::Finished { term, steps } => assert_eq!((term.to_string(), steps), ("λa.a".into(), 2)),
//!     Outcome::Unfinished { steps, .. } => unreachable!("out of {steps} steps"),
//! }
//! # Ok::<(), Refusal>(())
//! ```
//!
//! What is proved is the archive `libcopperjangle.a` beneath this crate; this crate is tested only.
//! It hands the archive nothing but slices and numbers, and makes of its answers types that fit
//! their use: a [`Term`] is always whole and within the bounds, a [`Limit`] is never 0, an
//! [`Outcome`] says whether a step is left, and a [`Refusal`] says why there is no outcome.
//!
//! # Bounds
//!
//! | What | Bound | Refusal |
//! |---|---|---|
//! | steps of a reduction | 1 to 1,000,000 ([`Limit`]) | 1 |
//! | text | 2,097,152 bytes | 3 |
//! | parentheses and binders open at once in a text; height of a term | 512 | 7 |
//! | nodes of a term | 65,536, or the cap of a [`Workspace`] | 9 |
//! | index of a variable | 2^64 − 1 | 5 in a text, 12 in a result |
//!
//! # Memory, stack and threads
//!
//! Each thread that calls [`parse`], [`Term::apply`], [`Term::reduce`] or [`Term::eta`] gets a
//! workspace of 4.8 MB of address space, which is kept until the thread ends; its memory is used as
//! far as terms need it. A [`Workspace`] of one's own may be smaller. No call recurses without
//! bound: the deepest terms need less than 512 KiB of stack.
//!
//! Who comes from the crate `lambda_calculus` finds its calls in [`coming_from_lambda_calculus`].

#![deny(missing_docs)]
#![deny(unsafe_code)]
#![deny(unsafe_op_in_unsafe_fn)]

mod bounds;
mod building;
mod choices;
#[allow(unsafe_code)]
mod ffi;
mod messages;
mod outcome;
mod reduction;
mod refusal;
mod shape;
mod term;
#[cfg(test)]
mod tests;
mod text;
mod workspace;

pub use bounds::{Cap, Limit};
pub use building::{abs, app, try_abs, try_app, Var};
pub use choices::Notation::{self, *};
pub use choices::Order::{self, *};
pub use outcome::Outcome;
pub use reduction::{beta, eta};
pub use refusal::Refusal;
pub use shape::{Shape, TermError};
pub use term::Term;
pub use text::parse;
pub use workspace::Workspace;

#[doc = include_str!("../COMING-FROM-LAMBDA-CALCULUS.md")]
pub mod coming_from_lambda_calculus {}

// The example of the README is run with the others.
#[cfg(doctest)]
#[doc = include_str!("../README.md")]
struct Readme;
