//! A buffer that is lent to a call: it lies between two guards, and what nobody wrote is a known pattern.

/// So many cells of the pattern stand before the buffer, and as many behind it.
const GUARD: usize = 19;

/// The pattern begins at another cell each time, so that what an earlier call left is never right by chance.
const TURNS: usize = 61;

pub struct Lent<T> {
    pattern: Vec<T>,
    cells: Vec<T>,
    turn: usize,
    length: usize,
}

impl<T: Copy + PartialEq> Lent<T> {
    /// The pattern is repeated where a buffer is longer.
    pub fn new(pattern: Vec<T>) -> Lent<T> {
        Lent {
            pattern,
            cells: vec![],
            turn: 0,
            length: 0,
        }
    }

    /// Lends so many cells; these stand first, and the others have the pattern.
    pub fn lend(&mut self, length: usize, first: &[T]) -> &mut [T] {
        self.turn = (self.turn + 1) % TURNS;
        self.length = length;
        while self.pattern.len() < self.turn + length + 2 * GUARD {
            self.pattern.extend_from_within(..);
        }
        let pattern = &self.pattern[self.turn..self.turn + length + 2 * GUARD];
        self.cells.clear();
        self.cells.extend_from_slice(pattern);
        self.cells[GUARD..GUARD + first.len()].copy_from_slice(first);
        &mut self.cells[GUARD..GUARD + length]
    }

    /// Whether these cells stand first, and all others, the guards among them, have the pattern still.
    pub fn holds(&self, first: &[T]) -> bool {
        let pattern = &self.pattern[self.turn..self.turn + self.length + 2 * GUARD];
        let end = GUARD + first.len();
        first.len() <= self.length
            && self.cells[..GUARD] == pattern[..GUARD]
            && self.cells[GUARD..end] == *first
            && self.cells[end..] == pattern[end..]
    }
}
