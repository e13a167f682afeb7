//! A pupil's list: lines of two positions and a verdict, each given 1 mark or 0.

use crate::clock::{Verdict, ALL_VERDICTS};
use crate::machine::Accepted;
use crate::{questions, Check, Refusal};

pub const LINE_SIZE: usize = 6;
pub const MOST_LINES: usize = 200;

/// "two positions and a verdict as three 16-bit numbers".
#[derive(Clone, Copy, Debug, PartialEq, Eq)]
pub struct Line {
    pub first: u16,
    pub second: u16,
    pub verdict: u16,
}

impl Line {
    fn from_bytes(bytes: &[u8]) -> Self {
        let number_at = |place| u16::from_le_bytes([bytes[place], bytes[place + 1]]);
        Line {
            first: number_at(0),
            second: number_at(2),
            verdict: number_at(4),
        }
    }

    fn bytes(&self) -> impl Iterator<Item = u8> {
        [self.first, self.second, self.verdict]
            .into_iter()
            .flat_map(u16::to_le_bytes)
    }

    /// "A line that names a missing event or no known verdict earns nothing."
    fn mark(&self, accepted: &[Accepted]) -> u8 {
        let (first, second) = (usize::from(self.first), usize::from(self.second));
        let right = questions::compare(accepted, first, second).ok();
        u8::from(right.is_some() && right == self.known_verdict())
    }

    fn known_verdict(&self) -> Option<Verdict> {
        ALL_VERDICTS
            .into_iter()
            .find(|verdict| *verdict as u16 == self.verdict)
    }
}

/// Check 30: "not whole lines or more than 200".
pub fn lines_of(list: &[u8]) -> Result<Vec<Line>, Refusal> {
    let is_of_whole_lines = list.len().is_multiple_of(LINE_SIZE);
    if !is_of_whole_lines || list.len() / LINE_SIZE > MOST_LINES {
        return Err(Check::PupilsLines.of_no_event());
    }
    Ok(list.chunks_exact(LINE_SIZE).map(Line::from_bytes).collect())
}

pub fn bytes_of(lines: &[Line]) -> Vec<u8> {
    lines.iter().flat_map(Line::bytes).collect()
}

pub fn marks_of(lines: &[Line], accepted: &[Accepted]) -> Vec<u8> {
    lines.iter().map(|line| line.mark(accepted)).collect()
}

/// How many lines are right.
pub fn total(marks: &[u8]) -> usize {
    marks.iter().filter(|mark| **mark == 1).count()
}
