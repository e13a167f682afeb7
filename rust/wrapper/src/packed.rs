//! The one place that takes the library's packed answer apart.

use crate::{Refusal, Verdict};

/// `number + 256 * x + 65536 * y + 4294967296 * z`; what x, y and z say depends on the call.
#[derive(Clone, Copy, Debug, PartialEq, Eq)]
pub struct Answer {
    pub number: u8,
    pub x: usize,
    pub y: usize,
    pub z: usize,
}

impl Answer {
    pub fn unpack(packed: u64) -> Self {
        let [number, x, y_low, y_high, z @ ..] = packed.to_le_bytes();
        Answer {
            number,
            x: usize::from(x),
            y: usize::from(u16::from_le_bytes([y_low, y_high])),
            z: u32::from_le_bytes(z) as usize,
        }
    }

    /// The answer, or the refusal where the number is not 0.
    pub fn accepted(packed: u64) -> Result<Self, Refusal> {
        let answer = Answer::unpack(packed);
        match answer.number {
            0 => Ok(answer),
            number => Err(Refusal {
                number,
                position: answer.y as u16,
            }),
        }
    }

    pub(crate) fn verdict(self) -> Verdict {
        match self.x {
            1 => Verdict::Before,
            2 => Verdict::After,
            3 => Verdict::Neither,
            4 => Verdict::Same,
            other => panic!("the library gave {other}, which is no verdict"),
        }
    }
}

#[cfg(test)]
mod tests {
    use super::*;

    #[test]
    fn an_accepted_answer_comes_apart() {
        let packed = 256 * 3 + 65_536 * 512 + 4_294_967_296 * 16_384;
        let answer = Answer::accepted(packed).unwrap();
        assert_eq!((answer.x, answer.y, answer.z), (3, 512, 16_384));
    }

    #[test]
    fn a_refusal_has_its_number_and_position() {
        let refusal = Answer::accepted(18 + 65_536 * 511).unwrap_err();
        assert_eq!((refusal.number, refusal.position), (18, 511));
    }
}
