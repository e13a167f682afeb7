//! Short stamps, cut by comparing two whole clocks.

use crate::clock::Clock;

/// The bytes of a recorded mask and of a recorded value.
pub const MASK_SIZE: usize = 4;
pub const VALUE_SIZE: usize = 2;

#[derive(Clone, Debug, Default, PartialEq, Eq)]
pub struct Stamp {
    pub mask: u32,
    pub values: Vec<u16>,
}

impl Stamp {
    /// "the components that differ from i's clock at its previous accepted send to j".
    pub fn of_differences(now: &Clock, at_previous_send: &Clock) -> Self {
        let mut stamp = Stamp::default();
        for k in 0..now.len() {
            if now[k] != at_previous_send[k] {
                stamp.mask |= 1 << k;
                stamp.values.push(now[k]);
            }
        }
        stamp
    }

    /// "a 32-bit mask ... and the carried values, 16 bits each, k ascending".
    pub fn bytes(&self) -> Vec<u8> {
        let mut bytes = self.mask.to_le_bytes().to_vec();
        for value in &self.values {
            bytes.extend(value.to_le_bytes());
        }
        bytes
    }
}
