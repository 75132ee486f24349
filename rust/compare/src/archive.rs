//! The archive's entry points as C declares them, called with buffers of which every cell is known before and after.
use crate::answer::{Answer, Outcome};
use crate::call::{Call, Lengths, Query};
use crate::lent::Lent;
use crate::random::Random;

#[link(name = "copperjangle", kind = "static")]
extern "C" {
    fn copperjangle_nodes(term: *const u8, length: usize) -> Answer;
    fn copperjangle_height(term: *const u8, length: usize) -> Answer;
    fn copperjangle_max_depth(term: *const u8, length: usize) -> Answer;
    fn copperjangle_max_free_index(term: *const u8, length: usize) -> Answer;
    fn copperjangle_has_free_variables(term: *const u8, length: usize) -> Answer;
    fn copperjangle_is_supercombinator(term: *const u8, length: usize) -> Answer;
    fn copperjangle_equality(
        first: *const u8,
        first_length: usize,
        second: *const u8,
        second_length: usize,
    ) -> Answer;
    fn copperjangle_print(
        notation: u64,
        term: *const u8,
        term_length: usize,
        out: *mut u8,
        out_length: usize,
    ) -> Answer;
    fn copperjangle_parse(
        notation: u64,
        cap: u64,
        text: *const u8,
        text_length: usize,
        out: *mut u8,
        out_length: usize,
        room: *mut u64,
        room_length: usize,
    ) -> Answer;
    fn copperjangle_apply(
        cap: u64,
        abstraction: *const u8,
        abstraction_length: usize,
        argument: *const u8,
        argument_length: usize,
        out: *mut u8,
        out_length: usize,
        room: *mut u64,
        room_length: usize,
    ) -> Answer;
    fn copperjangle_eta(
        limit: u64,
        cap: u64,
        term: *const u8,
        term_length: usize,
        out: *mut u8,
        out_length: usize,
        room: *mut u64,
        room_length: usize,
    ) -> Answer;
    fn copperjangle_reduce(
        order: u64,
        limit: u64,
        cap: u64,
        term: *const u8,
        term_length: usize,
        out: *mut u8,
        out_length: usize,
        room: *mut u64,
        room_length: usize,
    ) -> Answer;
}

type Asked = unsafe extern "C" fn(*const u8, usize) -> Answer;

fn asked(query: Query) -> Asked {
    match query {
        Query::Nodes => copperjangle_nodes,
        Query::Height => copperjangle_height,
        Query::MaxDepth => copperjangle_max_depth,
        Query::MaxFreeIndex => copperjangle_max_free_index,
        Query::HasFreeVariables => copperjangle_has_free_variables,
        Query::IsSupercombinator => copperjangle_is_supercombinator,
    }
}

/// The entry point itself, on what is lent and as it is.
pub fn enter(call: &Call, out: &mut [u8], room: &mut [u64]) -> Answer {
    let (o, n) = (out.as_mut_ptr(), out.len());
    let (r, k) = (room.as_mut_ptr(), room.len());
    // SAFETY: each pointer goes with the length of its slice, and nothing else is at the slices of output and room
    unsafe {
        match *call {
            Call::Query(query, s) => asked(query)(s.as_ptr(), s.len()),
            Call::Equality(s, u) => copperjangle_equality(s.as_ptr(), s.len(), u.as_ptr(), u.len()),
            Call::Print { notation, term: s } => {
                copperjangle_print(notation, s.as_ptr(), s.len(), o, n)
            }
            Call::Parse {
                notation,
                cap,
                text: s,
            } => copperjangle_parse(notation, cap, s.as_ptr(), s.len(), o, n, r, k),
            Call::Apply {
                cap,
                abstraction: s,
                argument: u,
            } => copperjangle_apply(cap, s.as_ptr(), s.len(), u.as_ptr(), u.len(), o, n, r, k),
            Call::Eta {
                limit,
                cap,
                term: s,
            } => copperjangle_eta(limit, cap, s.as_ptr(), s.len(), o, n, r, k),
            Call::Reduce {
                order,
                limit,
                cap,
                term: s,
            } => copperjangle_reduce(order, limit, cap, s.as_ptr(), s.len(), o, n, r, k),
        }
    }
}

/// A prime number of cells, so that the pattern falls otherwise in each part of a buffer.
const PATTERN: usize = 4099;

const MOST_CLEARED: usize = 8 * 65_536;

/// All that is lent to a call.
pub struct Archive {
    first: Lent<u8>,
    second: Lent<u8>,
    out: Lent<u8>,
    room: Lent<u64>,
    zeros: Vec<u64>,
}

impl Archive {
    pub fn new() -> Archive {
        let mut r = Random(0);
        let numbers: Vec<u64> = (0..PATTERN).map(|_| 1 + r.below(u64::MAX)).collect();
        let bytes = |shift: u32| Lent::new(numbers.iter().map(|n| (n >> shift) as u8).collect());
        Archive {
            first: bytes(0),
            second: bytes(8),
            out: bytes(16),
            room: Lent::new(numbers),
            zeros: vec![0; MOST_CLEARED],
        }
    }

    pub fn call(&mut self, call: &Call, lent: Lengths) -> Answer {
        let inputs = call.inputs();
        let second = inputs.get(1).copied().unwrap_or(&[]);
        let copied = call.on(
            self.first.lend(inputs[0].len(), inputs[0]),
            self.second.lend(second.len(), second),
        );
        enter(
            &copied,
            self.out.lend(lent.out, &[]),
            self.room.lend(lent.room, &[]),
        )
    }

    /// Which buffer is not as the outcome of the last call says.
    pub fn wrong_buffer(&self, call: &Call, wanted: &Outcome) -> Option<&'static str> {
        let inputs = call.inputs();
        let cleared = match call.cap() {
            Some(cap) if !matches!(wanted.answer.refusal, 1 | 2) => 8 * cap as usize,
            _ => 0,
        };
        if !self.out.holds(&wanted.first) {
            Some("the output")
        } else if !self.room.holds(&self.zeros[..cleared]) {
            Some("the work room")
        } else if !self.first.holds(inputs[0]) {
            Some("the first input")
        } else if !self.second.holds(inputs.get(1).copied().unwrap_or(&[])) {
            Some("the second input")
        } else {
            None
        }
    }
}
