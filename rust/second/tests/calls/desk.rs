//! Work buffers with prior contents, for the tests of the calls.

use second::calls::Work;

pub const PRIOR: u8 = 0x5a;

#[derive(Clone, Debug, PartialEq, Eq)]
pub struct Desk {
    pub clocks: Vec<u16>,
    pub masks: Vec<u32>,
    pub values: Vec<u16>,
}

impl Desk {
    /// Room for m events of n processes, and `more` slots beyond in each buffer.
    pub fn with_room(n: usize, m: usize, more: usize) -> Self {
        Desk {
            clocks: vec![u16::from(PRIOR); n * m + more],
            masks: vec![u32::from(PRIOR); m + more],
            values: vec![u16::from(PRIOR); n * m + more],
        }
    }

    pub fn largest() -> Self {
        Desk::with_room(32, 512, 0)
    }

    pub fn lend(&mut self) -> Work<'_> {
        Work {
            clocks: &mut self.clocks,
            masks: &mut self.masks,
            values: &mut self.values,
            lamports: None,
        }
    }

    /// What a refusal after check 9 leaves: the named slots 0, the others as before.
    pub fn cleared(&self, n: usize, m: usize) -> Self {
        let mut cleared = self.clone();
        cleared.clocks[..n * m].fill(0);
        cleared.masks[..m].fill(0);
        cleared.values[..n * m].fill(0);
        cleared
    }
}
