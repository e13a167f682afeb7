//! The calls on lent buffers.

use crate::clock::{is_process_count, verdict, Verdict};
use crate::event::{MOST_LIST_BYTES, RECORD_SIZE};
use crate::judge::{carried_values, each_offer, only_accepted, whole_list};
use crate::machine::Accepted;
use crate::marking::{lines_of, marks_of, total};
use crate::saving::Counts;
use crate::sheet::{compose, judge_parts, stamp_bytes, Header};
use crate::{questions, Check, Refusal};

/// "21 for the chain now means fewer than n minus 1 slots; with one process no slot is needed."
pub fn room_for_chain(n: usize) -> usize {
    n - 1
}

/// The work buffers that every call but `order` is lent.
pub struct Work<'a> {
    pub clocks: &'a mut [u16],
    pub masks: &'a mut [u32],
    pub values: &'a mut [u16],
    /// Lent where Lamport numbers are asked for.
    pub lamports: Option<&'a mut [u16]>,
}

impl<'a> Work<'a> {
    fn asked_for(self, lamports: &'a mut [u16]) -> Self {
        Work {
            lamports: Some(lamports),
            ..self
        }
    }

    /// Check 9: "n times m clock slots, m masks, n times m values", and m slots for the Lamport numbers, "when asked for".
    fn check_room(&self, n: usize, m: usize) -> Result<(), Refusal> {
        let has_room =
            self.clocks.len() >= n * m && self.masks.len() >= m && self.values.len() >= n * m;
        let has_room_for_lamports = self.lamports.as_ref().is_none_or(|slots| slots.len() >= m);
        if has_room && has_room_for_lamports {
            Ok(())
        } else {
            Err(Check::WorkLength.of_no_event())
        }
    }

    /// The slots named in check 9, and no others.
    fn clear(&mut self, n: usize, m: usize) {
        self.clocks[..n * m].fill(0);
        self.masks[..m].fill(0);
        self.values[..n * m].fill(0);
        if let Some(lamports) = &mut self.lamports {
            lamports[..m].fill(0);
        }
    }

    /// "the clocks of accepted events stand one after another, n slots each, and their masks likewise".
    fn fill(&mut self, n: usize, accepted: &[Accepted]) {
        for (k, one) in accepted.iter().enumerate() {
            self.clocks[k * n..(k + 1) * n].copy_from_slice(&one.clock[..n]);
            self.masks[k] = one.stamp.mask;
        }
        let carried = carried_values(accepted);
        self.values[..carried.len()].copy_from_slice(&carried);
        if let Some(lamports) = &mut self.lamports {
            for (slot, one) in lamports.iter_mut().zip(accepted) {
                *slot = one.lamport;
            }
        }
    }
}

#[derive(Clone, Copy, Debug, PartialEq, Eq)]
pub struct Reading {
    pub processes: usize,
    pub events: usize,
    pub entries: usize,
}

#[derive(Clone, Copy, Debug, PartialEq, Eq)]
pub struct Classed {
    pub accepted: usize,
    pub entries: usize,
}

#[derive(Clone, Copy, Debug, PartialEq, Eq)]
pub struct Written {
    pub events: usize,
    pub bytes: usize,
}

#[derive(Clone, Copy, Debug, PartialEq, Eq)]
pub struct Marked {
    pub total: usize,
    pub lines: usize,
}

/// Checks 1 to 7, 9, events in order, then stamps.
pub fn read(sheet: &[u8], mut work: Work) -> Result<Reading, Refusal> {
    let (n, accepted) = judge_lent_sheet(sheet, &mut work)?;
    work.fill(n, &accepted);
    Ok(Reading {
        processes: n,
        events: accepted.len(),
        entries: carried_values(&accepted).len(),
    })
}

/// As `read`, with Lamport numbers asked for.
pub fn read_lamport<'a>(
    sheet: &[u8],
    work: Work<'a>,
    lamports: &'a mut [u16],
) -> Result<Reading, Refusal> {
    read(sheet, work.asked_for(lamports))
}

/// Checks 4, 8, 9; then an answer for each offer.
pub fn class(
    n: usize,
    list: &[u8],
    mut work: Work,
    answers: &mut [u8],
) -> Result<Classed, Refusal> {
    let m = count_lent_events(n, list)?;
    work.check_room(n, m)?;
    if answers.len() < m {
        return Err(Check::WorkLength.of_no_event());
    }
    let offers = each_offer(n, list);
    for (answer, offer) in answers.iter_mut().zip(&offers) {
        *answer = match offer {
            Ok(_) => 0,
            Err(check) => check.number(),
        };
    }
    let accepted = only_accepted(&offers);
    work.clear(n, m);
    work.fill(n, &accepted);
    Ok(Classed {
        accepted: accepted.len(),
        entries: carried_values(&accepted).len(),
    })
}

/// As `class`, with Lamport numbers asked for.
pub fn class_lamport<'a>(
    n: usize,
    list: &[u8],
    work: Work<'a>,
    answers: &mut [u8],
    lamports: &'a mut [u16],
) -> Result<Classed, Refusal> {
    class(n, list, work.asked_for(lamports), answers)
}

/// Checks 4, 8, 9, events in order, then 21.
pub fn write(n: usize, list: &[u8], mut work: Work, output: &mut [u8]) -> Result<Written, Refusal> {
    let accepted = judge_lent_list(n, list, &mut work)?;
    let sheet = compose(n, list, &stamp_bytes(&accepted));
    if output.len() < sheet.len() {
        return Err(Check::OutputLength.of_no_event());
    }
    output[..sheet.len()].copy_from_slice(&sheet);
    work.fill(n, &accepted);
    Ok(Written {
        events: accepted.len(),
        bytes: sheet.len(),
    })
}

/// Checks 4, 8, 9, events in order, then 20.
pub fn compare(
    n: usize,
    list: &[u8],
    mut work: Work,
    first: usize,
    second: usize,
) -> Result<Verdict, Refusal> {
    let accepted = judge_lent_list(n, list, &mut work)?;
    let verdict = questions::compare(&accepted, first, second)?;
    work.fill(n, &accepted);
    Ok(verdict)
}

/// Checks 4, 8, 9, events in order, then 20, 22, 21; gives the chain's length. "21 for the chain now means fewer than n minus 1 slots; with one process no
/// slot is needed" (request 6).
pub fn chain(
    n: usize,
    list: &[u8],
    mut work: Work,
    first: usize,
    second: usize,
    output: &mut [u16],
) -> Result<usize, Refusal> {
    let accepted = judge_lent_list(n, list, &mut work)?;
    let sends = questions::chain(&accepted, first, second)?;
    if output.len() < room_for_chain(n) {
        return Err(Check::OutputLength.of_no_event());
    }
    for (slot, send) in output.iter_mut().zip(&sends) {
        *slot = *send as u16;
    }
    work.fill(n, &accepted);
    Ok(sends.len())
}

/// Check 30 "before the sheet; then 1 to 19 as in reading; then 21, fewer mark slots than lines".
pub fn mark(
    sheet: &[u8],
    list: &[u8],
    mut work: Work,
    output: &mut [u8],
) -> Result<Marked, Refusal> {
    let lines = lines_of(list)?;
    let (n, accepted) = judge_lent_sheet(sheet, &mut work)?;
    if output.len() < lines.len() {
        return Err(Check::OutputLength.of_no_event());
    }
    let marks = marks_of(&lines, &accepted);
    output[..marks.len()].copy_from_slice(&marks);
    work.fill(n, &accepted);
    Ok(Marked {
        total: total(&marks),
        lines: lines.len(),
    })
}

/// As in reading, then 21 "where `percent` has no slot, whichever it would be"; no percentage where there are no messages.
pub fn savings(sheet: &[u8], mut work: Work, percent: &mut [f64]) -> Result<Option<f64>, Refusal> {
    let (n, accepted) = judge_lent_sheet(sheet, &mut work)?;
    let slot = percent
        .first_mut()
        .ok_or(Check::OutputLength.of_no_event())?;
    let saved = Counts::of(n, &accepted).percent();
    *slot = saved.unwrap_or(*slot);
    work.fill(n, &accepted);
    Ok(saved)
}

/// "Comparing two lent clocks: 4 only."
pub fn order(first: &[u16], second: &[u16]) -> Result<Verdict, Refusal> {
    if !is_process_count(first.len()) || first.len() != second.len() {
        return Err(Check::ProcessCount.of_no_event());
    }
    Ok(verdict(first, second))
}

/// Checks 4 and 8; gives the number of events in the list.
pub(crate) fn count_lent_events(n: usize, list: &[u8]) -> Result<usize, Refusal> {
    if !is_process_count(n) {
        return Err(Check::ProcessCount.of_no_event());
    }
    if !list.len().is_multiple_of(RECORD_SIZE) || list.len() > MOST_LIST_BYTES {
        return Err(Check::ListLength.of_no_event());
    }
    Ok(list.len() / RECORD_SIZE)
}

/// Checks 1 to 7, 9, events in order, then stamps; past check 9 the named slots are 0.
fn judge_lent_sheet(sheet: &[u8], work: &mut Work) -> Result<(usize, Vec<Accepted>), Refusal> {
    let header = Header::of(sheet).map_err(Check::of_no_event)?;
    let n = header.processes;
    let m = header.events.len() / RECORD_SIZE;
    work.check_room(n, m)?;
    work.clear(n, m);
    let accepted = judge_parts(sheet, &header)?;
    Ok((n, accepted))
}

/// Checks 4, 8, 9 and events in order; past check 9 the named slots are 0.
fn judge_lent_list(n: usize, list: &[u8], work: &mut Work) -> Result<Vec<Accepted>, Refusal> {
    let m = count_lent_events(n, list)?;
    work.check_room(n, m)?;
    work.clear(n, m);
    whole_list(n, list)
}
