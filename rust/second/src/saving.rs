//! What the short stamps saved, from whole numbers alone.

use crate::event::SEND;
use crate::judge::carried_values;
use crate::machine::Accepted;

/// "n times sends", and the values carried.
#[derive(Clone, Copy, Debug, PartialEq, Eq)]
pub struct Counts {
    pub whole: u64,
    pub carried: u64,
}

const SIGNIFICAND_BITS: u32 = 53;

impl Counts {
    pub fn of(n: usize, accepted: &[Accepted]) -> Self {
        let sends = accepted.iter().filter(|one| one.event.kind == SEND).count();
        Counts {
            whole: (n * sends) as u64,
            carried: carried_values(accepted).len() as u64,
        }
    }

    /// "100 times (n times sends minus values carried), divided by n times sends"; none where there are no messages at all.
    pub fn percent(&self) -> Option<f64> {
        (self.whole > 0).then(|| nearest(self.hundredfold(), self.whole))
    }

    /// "the whole hundredths of 100 times the exact fraction".
    pub fn hundredths(&self) -> Option<u64> {
        (self.whole > 0).then(|| 100 * self.hundredfold() / self.whole)
    }

    fn hundredfold(&self) -> u64 {
        100 * (self.whole - self.carried)
    }
}

/// The double nearest to p / q, a tie to the even one: the quotient is found bit by bit and rounded once. p / q is below 2 ^ 53.
pub fn nearest(p: u64, q: u64) -> f64 {
    if p == 0 {
        return 0.0;
    }
    let (p, q) = (u128::from(p), u128::from(q));
    let mut shift = 0;
    while (p << shift) / q < 1 << (SIGNIFICAND_BITS - 1) {
        shift += 1;
    }
    let whole = (p << shift) / q;
    let twice_the_rest = (p << shift) % q * 2;
    let is_up = twice_the_rest > q || (twice_the_rest == q && whole % 2 == 1);
    let significand = whole + u128::from(is_up);
    // Both are exact, and so is a division by a power of two.
    significand as f64 / (1u128 << shift) as f64
}

#[cfg(test)]
mod tests {
    use super::*;

    #[test]
    fn whole_and_halves_are_exact() {
        assert_eq!(nearest(50, 1), 50.0);
        assert_eq!(nearest(125, 2), 62.5);
        assert_eq!(nearest(0, 7), 0.0);
    }

    #[test]
    fn one_division_of_doubles_gives_the_same() {
        for q in 1..=1_024u64 {
            for p in (0..=100 * q).step_by(37) {
                assert_eq!(nearest(p, q), p as f64 / q as f64, "{p} / {q}");
            }
        }
    }

    #[test]
    fn a_tie_goes_to_the_even_one() {
        let odd = (1 << 53) + 1;
        assert_eq!(nearest(odd, 2), (1u64 << 52) as f64);
        assert_eq!(nearest(odd + 2, 2), ((1u64 << 52) + 2) as f64);
    }
}
