//! How long the lent buffers are, seen from what a call needs.

use second::clock::MOST_PROCESSES;
use second::event::MOST_EVENTS;

use crate::random::Random;

/// The slots of the three work buffers.
#[derive(Clone, Copy, Debug, Default, PartialEq, Eq)]
pub struct WorkLengths {
    pub clocks: usize,
    pub masks: usize,
    pub values: usize,
}

impl WorkLengths {
    /// For m events of n processes; n and m may be more than any list can have.
    pub fn needed(n: usize, m: usize) -> Self {
        let n = n.min(MOST_PROCESSES);
        let m = m.min(MOST_EVENTS);
        WorkLengths {
            clocks: n * m,
            masks: m,
            values: n * m,
        }
    }

    /// Mostly enough; now and then one of them is too short.
    pub fn chosen(needed: Self, random: &mut Random) -> Self {
        let mut lengths = match random.below(10) {
            0..=3 => needed,
            4 => WorkLengths::needed(MOST_PROCESSES, MOST_EVENTS),
            _ => needed.each(|length| enough(length, random)),
        };
        if random.one_in(10) {
            match random.below(3) {
                0 => lengths.clocks = too_short(needed.clocks, random),
                1 => lengths.masks = too_short(needed.masks, random),
                _ => lengths.values = too_short(needed.values, random),
            }
        }
        lengths
    }

    fn each(self, mut choose: impl FnMut(usize) -> usize) -> Self {
        WorkLengths {
            clocks: choose(self.clocks),
            masks: choose(self.masks),
            values: choose(self.values),
        }
    }
}

/// The length of an output, of the answers or of the Lamport numbers: mostly enough, exactly or more.
pub fn chosen_length(needed: usize, random: &mut Random) -> usize {
    if random.one_in(10) {
        too_short(needed, random)
    } else {
        enough(needed, random)
    }
}

fn enough(needed: usize, random: &mut Random) -> usize {
    let more = random.below(40);
    needed + random.pick(&[0, 0, 1, 2, more])
}

fn too_short(needed: usize, random: &mut Random) -> usize {
    let some = random.below(needed + 1);
    random.pick(&[needed.saturating_sub(1), needed.saturating_sub(1), 0, some])
}
