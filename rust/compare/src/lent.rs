//! A slice lent out of a larger allocation, with prior contents and guards on both sides.

use std::ops::Range;

use cases::random::mixed;

const MOST_BEFORE: u64 = 8;
const AFTER: usize = 32;

/// A number type that buffers hold.
pub trait Slot: Copy + PartialEq + std::fmt::Debug {
    fn cut_from(number: u64) -> Self;
}

impl Slot for u8 {
    fn cut_from(number: u64) -> Self {
        number as u8
    }
}

impl Slot for u16 {
    fn cut_from(number: u64) -> Self {
        number as u16
    }
}

impl Slot for u32 {
    fn cut_from(number: u64) -> Self {
        number as u32
    }
}

/// Whole and finite, so that equal slots are equal bit by bit.
impl Slot for f64 {
    fn cut_from(number: u64) -> Self {
        number as u32 as f64
    }
}

pub struct Lent<T> {
    cells: Vec<T>,
    range: Range<usize>,
    around: u64,
}

impl<T: Slot> Lent<T> {
    pub fn holding(contents: &[T], around: u64) -> Self {
        let before = 1 + (mixed(around ^ contents.len() as u64) % MOST_BEFORE) as usize;
        let range = before..before + contents.len();
        let mut cells: Vec<T> = (0..range.end + AFTER).map(|k| junk(around, k)).collect();
        cells[range.clone()].copy_from_slice(contents);
        Lent {
            cells,
            range,
            around,
        }
    }

    /// Slots whose prior contents are never 0 and the same for both sides.
    pub fn unwritten(length: usize, around: u64) -> Self {
        let prior: Vec<T> = (0..length).map(|k| junk(0, k)).collect();
        Lent::holding(&prior, around)
    }

    pub fn lend(&mut self) -> &mut [T] {
        &mut self.cells[self.range.clone()]
    }

    pub fn contents(&self) -> &[T] {
        &self.cells[self.range.clone()]
    }

    pub fn guards_hold(&self) -> bool {
        let before = 0..self.range.start;
        let after = self.range.end..self.cells.len();
        before
            .chain(after)
            .all(|k| self.cells[k] == junk(self.around, k))
    }

    /// The first slot that differs, with what stands there on each side.
    pub fn first_difference(&self, other: &Self) -> Option<String> {
        let pairs = self.contents().iter().zip(other.contents());
        let (place, (own, others)) = pairs.enumerate().find(|(_, (a, b))| a != b)?;
        Some(format!(
            "slot {place} is {own:?} after the library, {others:?} after the second"
        ))
    }
}

/// An odd number, so that it is not 0 in any width.
fn junk<T: Slot>(around: u64, place: usize) -> T {
    T::cut_from(mixed(around << 32 ^ place as u64) | 1)
}
