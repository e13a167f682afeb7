//! The merge by itself, in two forms: from carried component to carried component, and over all thirty-two.

use second::clock::MOST_PROCESSES;

/// What a merge changes, and the own number of the receive.
pub struct Merge<'a> {
    pub clock: &'a mut [u16; MOST_PROCESSES],
    pub last_update: &'a mut [u16; MOST_PROCESSES],
    pub own: u16,
}

impl Merge<'_> {
    /// The mask is walked from its lowest set bit to its highest, as `take` of the library walks it.
    #[inline]
    pub fn walk(&mut self, mask: u32, values: &[u16]) {
        let mut values = values.iter();
        let mut left = mask;
        while left != 0 {
            let k = left.trailing_zeros() as usize % MOST_PROCESSES;
            self.raise(k, values.next().copied().unwrap_or(0));
            left &= left - 1;
        }
    }

    #[inline]
    pub fn look_at_all(&mut self, mask: u32, values: &[u16]) {
        let mut values = values.iter();
        for k in 0..MOST_PROCESSES {
            if mask >> k & 1 == 1 {
                self.raise(k, values.next().copied().unwrap_or(0));
            }
        }
    }

    #[inline]
    fn raise(&mut self, k: usize, value: u16) {
        if value > self.clock[k] {
            self.clock[k] = value;
            self.last_update[k] = self.own;
        }
    }
}
