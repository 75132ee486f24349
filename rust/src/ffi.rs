//! The entry points of libcopperjangle.a, each behind a function that is safe for all arguments.
//!
//! All uses of `unsafe` in this crate are here, and all have one reason. An entry point takes any bytes and any
//! numbers: its contract asks nothing else of its caller. It reads and writes only within the slices that it is
//! handed as pointer and length, keeps no pointer after it has returned, and never unwinds. A Rust slice is such
//! a pointer and length, and two that are lent at once do not overlap where one of them is `&mut`.

use crate::{Limit, Notation, Order};

// Lengths, indices and steps are 64-bit numbers there and `usize` here.
const _: () = assert!(usize::BITS == 64);

/// What an entry point answers. Every field with nothing to say is 0.
#[repr(C)]
#[derive(Clone, Copy, Debug, Default, PartialEq, Eq)]
pub(crate) struct Answer {
    /// 0, or the number of the refusal.
    pub refusal: u64,
    /// Of `reduce` and `eta`: 1 if no step is left.
    pub finished: u64,
    /// The length of what stands first in the output, or what was asked for; after 13 the length needed.
    pub value: u64,
    /// Of `reduce` and `eta`: the steps completed.
    pub steps: u64,
    /// After 4 and 10 the offset in bytes, after 5 the place in characters.
    pub place: u64,
    /// After 5 the code point.
    pub code: u64,
}

/// What is lent to an entry point that makes a term.
pub(crate) struct Lent<'a> {
    /// The most nodes that a term may have.
    pub cap: usize,
    /// Where the term is written: 9 bytes for each node of the cap, or it is refused by 2.
    pub out: &'a mut [u8],
    /// Where the work is done: 8 numbers for each node of the cap, or it is refused by 2.
    pub room: &'a mut [u64],
}

#[rustfmt::skip]
extern "C" {
    fn copperjangle_nodes(term: *const u8, term_length: usize) -> Answer;
    fn copperjangle_height(term: *const u8, term_length: usize) -> Answer;
    fn copperjangle_max_depth(term: *const u8, term_length: usize) -> Answer;
    fn copperjangle_max_free_index(term: *const u8, term_length: usize) -> Answer;
    fn copperjangle_has_free_variables(term: *const u8, term_length: usize) -> Answer;
    fn copperjangle_is_supercombinator(term: *const u8, term_length: usize) -> Answer;
    fn copperjangle_equality(
        first: *const u8, first_length: usize, second: *const u8, second_length: usize,
    ) -> Answer;
    fn copperjangle_print(
        notation: u64, term: *const u8, term_length: usize, out: *mut u8, out_length: usize,
    ) -> Answer;
    fn copperjangle_parse(
        notation: u64, cap: u64, text: *const u8, text_length: usize,
        out: *mut u8, out_length: usize, room: *mut u64, room_length: usize,
    ) -> Answer;
    fn copperjangle_apply(
        cap: u64, abstraction: *const u8, abstraction_length: usize, argument: *const u8, argument_length: usize,
        out: *mut u8, out_length: usize, room: *mut u64, room_length: usize,
    ) -> Answer;
    fn copperjangle_eta(
        limit: u64, cap: u64, term: *const u8, term_length: usize,
        out: *mut u8, out_length: usize, room: *mut u64, room_length: usize,
    ) -> Answer;
    fn copperjangle_reduce(
        order: u64, limit: u64, cap: u64, term: *const u8, term_length: usize,
        out: *mut u8, out_length: usize, room: *mut u64, room_length: usize,
    ) -> Answer;
}

/// Defines the queries, which all take one term and nothing else.
macro_rules! queries {
    ($($name:ident by $entry:ident)*) => {$(
        pub(crate) fn $name(term: &[u8]) -> Answer {
            // SAFETY: the pointer and length are those of a slice lent to be read.
            unsafe { $entry(term.as_ptr(), term.len()) }
        }
    )*};
}

queries! {
    nodes by copperjangle_nodes
    height by copperjangle_height
    max_depth by copperjangle_max_depth
    max_free_index by copperjangle_max_free_index
    has_free_variables by copperjangle_has_free_variables
    is_supercombinator by copperjangle_is_supercombinator
}

pub(crate) fn equality(first: &[u8], second: &[u8]) -> Answer {
    // SAFETY: both pointers and lengths are those of slices lent to be read.
    unsafe { copperjangle_equality(first.as_ptr(), first.len(), second.as_ptr(), second.len()) }
}

pub(crate) fn print(notation: Notation, term: &[u8], out: &mut [u8]) -> Answer {
    // SAFETY: the term is a slice lent to be read, and the output one lent to be written.
    unsafe {
        copperjangle_print(
            notation as u64,
            term.as_ptr(),
            term.len(),
            out.as_mut_ptr(),
            out.len(),
        )
    }
}

pub(crate) fn parse(notation: Notation, text: &[u8], lent: Lent) -> Answer {
    let Lent { cap, out, room } = lent;
    // SAFETY: the text is a slice lent to be read; output and room are slices lent to be written.
    unsafe {
        copperjangle_parse(
            notation as u64,
            cap as u64,
            text.as_ptr(),
            text.len(),
            out.as_mut_ptr(),
            out.len(),
            room.as_mut_ptr(),
            room.len(),
        )
    }
}

pub(crate) fn apply(abstraction: &[u8], argument: &[u8], lent: Lent) -> Answer {
    let Lent { cap, out, room } = lent;
    // SAFETY: both terms are slices lent to be read; output and room are slices lent to be written.
    unsafe {
        copperjangle_apply(
            cap as u64,
            abstraction.as_ptr(),
            abstraction.len(),
            argument.as_ptr(),
            argument.len(),
            out.as_mut_ptr(),
            out.len(),
            room.as_mut_ptr(),
            room.len(),
        )
    }
}

pub(crate) fn eta(limit: usize, term: &[u8], lent: Lent) -> Answer {
    let Lent { cap, out, room } = lent;
    // SAFETY: the term is a slice lent to be read; output and room are slices lent to be written.
    unsafe {
        copperjangle_eta(
            limit as u64,
            cap as u64,
            term.as_ptr(),
            term.len(),
            out.as_mut_ptr(),
            out.len(),
            room.as_mut_ptr(),
            room.len(),
        )
    }
}

pub(crate) fn reduce(order: Order, limit: Limit, term: &[u8], lent: Lent) -> Answer {
    let Lent { cap, out, room } = lent;
    // SAFETY: the term is a slice lent to be read; output and room are slices lent to be written.
    unsafe {
        copperjangle_reduce(
            order as u64,
            limit.get() as u64,
            cap as u64,
            term.as_ptr(),
            term.len(),
            out.as_mut_ptr(),
            out.len(),
            room.as_mut_ptr(),
            room.len(),
        )
    }
}
