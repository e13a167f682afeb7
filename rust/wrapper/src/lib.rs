//! A safe wrapper over the static library for course sheets.
//!
//! The functions here lend the library work buffers of their own and hand back Rust values; the
//! module [`raw`] has the C calls themselves, over slices the caller lends.
//!
//! ```
//! let sheet_a: &[u8; 116] = b"\
//! CKT\x03\x01\0\0\0\x18\0\0\0\x40\0\0\0\x58\0\0\0\x1c\0\0\0\
//! \x01\x00\x01\0\x01\0\0\0\
//! \x01\x02\x01\0\x02\0\0\0\
//! \x02\x01\x00\0\x01\0\0\0\
//! \x01\x01\x00\0\x03\0\0\0\
//! \x02\x01\x02\0\x02\0\0\0\
//! \x01\x01\x00\0\x04\0\0\0\
//! \x02\x00\x01\0\x03\0\0\0\
//! \x02\x00\x01\0\x04\0\0\0\
//! \x01\0\0\0\x01\0\
//! \x04\0\0\0\x01\0\
//! \x03\0\0\0\x01\0\x02\0\
//! \x06\0\0\0\x04\0\x01\0";
//!
//! let reading = oboefinch::read(sheet_a)?;
//! println!("event 7 has the clock {:?}", reading.clock(7));
//! assert_eq!(reading.clock(7), [3, 4, 1]);
//!
//! let (_, lamports) = oboefinch::read_lamport(sheet_a)?;
//! assert_eq!(lamports, [1, 1, 2, 3, 4, 5, 4, 6]);
//!
//! let pupil = b"\x01\0\x03\0\x03\0\x01\0\x07\0\x02\0";
//! let marked = oboefinch::mark(sheet_a, pupil)?;
//! assert_eq!((marked.marks, marked.total), (vec![1, 0], 1));
//!
//! assert_eq!(oboefinch::savings(sheet_a)?, Some(50.0));
//! # Ok::<(), oboefinch::Refusal>(())
//! ```

mod packed;
pub mod raw;
mod refusal;

pub use packed::Answer;
pub use refusal::Refusal;

/// The paper's sizes, which set how much a call can need.
pub const MOST_PROCESSES: usize = 32;
pub const MOST_EVENTS: usize = 512;
pub const MOST_SHEET_BYTES: usize = 40_960;
pub const RECORD_SIZE: usize = 8;
pub const MOST_LINES: usize = 200;

/// The clocks and stamps of the accepted events, in order.
#[derive(Clone, Debug, PartialEq, Eq)]
pub struct Reading {
    processes: usize,
    clocks: Vec<u16>,
    masks: Vec<u32>,
    values: Vec<u16>,
}

/// What became of each offer: its number in `answers` (0 for accepted), and the accepted ones.
#[derive(Clone, Debug, PartialEq, Eq)]
pub struct Class {
    pub answers: Vec<u8>,
    pub accepted: Reading,
}

/// A written sheet and the events it holds.
#[derive(Clone, Debug, PartialEq, Eq)]
pub struct Written {
    pub sheet: Vec<u8>,
    pub accepted: Reading,
}

/// 1 or 0 for each line of a pupil's list, and how many are 1.
#[derive(Clone, Debug, PartialEq, Eq)]
pub struct Marked {
    pub marks: Vec<u8>,
    pub total: usize,
}

/// How the first of two events, or clocks, stands to the second.
#[derive(Clone, Copy, Debug, PartialEq, Eq)]
pub enum Verdict {
    Before,
    After,
    Neither,
    /// Both clocks are equal: of two events of a list, both are one event.
    Same,
}

impl Reading {
    pub fn processes(&self) -> usize {
        self.processes
    }

    pub fn events(&self) -> usize {
        self.masks.len()
    }

    /// The carried values of all stamps.
    pub fn entries(&self) -> usize {
        self.values.len()
    }

    /// The clock of the accepted event at `position`, one component for each process.
    pub fn clock(&self, position: usize) -> &[u16] {
        &self.clocks[position * self.processes..][..self.processes]
    }

    /// The mask of the accepted event at `position`; 0 unless it is a send.
    pub fn mask(&self, position: usize) -> u32 {
        self.masks[position]
    }

    /// The values carried by the stamp of the accepted event at `position`.
    pub fn values(&self, position: usize) -> &[u16] {
        let earlier: u32 = self.masks[..position].iter().map(|m| m.count_ones()).sum();
        let own = self.masks[position].count_ones();
        &self.values[earlier as usize..][..own as usize]
    }
}

/// Reads a sheet and judges its events and stamps.
pub fn read(sheet: &[u8]) -> Result<Reading, Refusal> {
    let mut work = Work::largest();
    let packed = raw::read(sheet, &mut work.clocks, &mut work.masks, &mut work.values);
    let answer = Answer::accepted(packed)?;
    Ok(work.into_reading(answer.x, answer.y, answer.z))
}

/// Reads a sheet and gives the Lamport number of each event too.
pub fn read_lamport(sheet: &[u8]) -> Result<(Reading, Vec<u16>), Refusal> {
    let mut work = Work::largest();
    let mut lamports = vec![0; MOST_EVENTS];
    let packed = raw::read_lamport(
        sheet,
        &mut work.clocks,
        &mut work.masks,
        &mut work.values,
        &mut lamports,
    );
    let answer = Answer::accepted(packed)?;
    lamports.truncate(answer.y);
    Ok((work.into_reading(answer.x, answer.y, answer.z), lamports))
}

/// Offers each event of a list, and goes on after a refused one.
pub fn class(processes: usize, list: &[u8]) -> Result<Class, Refusal> {
    let mut work = Work::largest();
    let mut answers = vec![0; MOST_EVENTS];
    let packed = raw::class(
        processes,
        list,
        &mut work.clocks,
        &mut work.masks,
        &mut work.values,
        &mut answers,
    );
    let answer = Answer::accepted(packed)?;
    answers.truncate(list.len() / RECORD_SIZE);
    Ok(Class {
        answers,
        accepted: work.into_reading(processes, answer.y, answer.z),
    })
}

/// Offers each event of a list and gives the Lamport number of each accepted one too.
pub fn class_lamport(processes: usize, list: &[u8]) -> Result<(Class, Vec<u16>), Refusal> {
    let mut work = Work::largest();
    let mut answers = vec![0; MOST_EVENTS];
    let mut lamports = vec![0; MOST_EVENTS];
    let packed = raw::class_lamport(
        processes,
        list,
        &mut work.clocks,
        &mut work.masks,
        &mut work.values,
        &mut answers,
        &mut lamports,
    );
    let answer = Answer::accepted(packed)?;
    answers.truncate(list.len() / RECORD_SIZE);
    lamports.truncate(answer.y);
    let accepted = work.into_reading(processes, answer.y, answer.z);
    Ok((Class { answers, accepted }, lamports))
}

/// Writes the sheet of a list.
pub fn write(processes: usize, list: &[u8]) -> Result<Written, Refusal> {
    let mut work = Work::largest();
    let mut sheet = vec![0; MOST_SHEET_BYTES];
    let packed = raw::write(
        processes,
        list,
        &mut work.clocks,
        &mut work.masks,
        &mut work.values,
        &mut sheet,
    );
    let answer = Answer::accepted(packed)?;
    sheet.truncate(answer.z);
    let entries = work.masks.iter().map(|m| m.count_ones() as usize).sum();
    Ok(Written {
        sheet,
        accepted: work.into_reading(processes, answer.y, entries),
    })
}

/// Compares two events of a list by their positions.
pub fn compare(
    processes: usize,
    list: &[u8],
    first: usize,
    second: usize,
) -> Result<Verdict, Refusal> {
    let mut work = Work::largest();
    let packed = raw::compare(
        processes,
        list,
        &mut work.clocks,
        &mut work.masks,
        &mut work.values,
        (first, second),
    );
    Answer::accepted(packed).map(Answer::verdict)
}

/// The positions of the sends on the teaching chain from the first event to the second.
pub fn chain(
    processes: usize,
    list: &[u8],
    first: usize,
    second: usize,
) -> Result<Vec<u16>, Refusal> {
    let mut work = Work::largest();
    let mut sends = vec![0; MOST_PROCESSES - 1];
    let packed = raw::chain(
        processes,
        list,
        &mut work.clocks,
        &mut work.masks,
        &mut work.values,
        (first, second),
        &mut sends,
    );
    let answer = Answer::accepted(packed)?;
    sends.truncate(answer.z);
    Ok(sends)
}

/// Marks a pupil's list, whose lines are 6 bytes each, on a sheet.
pub fn mark(sheet: &[u8], lines: &[u8]) -> Result<Marked, Refusal> {
    let mut work = Work::largest();
    let mut marks = vec![0; MOST_LINES];
    let packed = raw::mark(
        sheet,
        lines,
        &mut work.clocks,
        &mut work.masks,
        &mut work.values,
        &mut marks,
    );
    let answer = Answer::accepted(packed)?;
    marks.truncate(answer.z);
    Ok(Marked {
        marks,
        total: answer.y,
    })
}

/// What the short stamps of a sheet saved, in percent; none where it has no messages.
pub fn savings(sheet: &[u8]) -> Result<Option<f64>, Refusal> {
    let mut work = Work::largest();
    let mut percent = [0.0];
    let packed = raw::savings(
        sheet,
        &mut work.clocks,
        &mut work.masks,
        &mut work.values,
        &mut percent,
    );
    let answer = Answer::accepted(packed)?;
    Ok((answer.x == 1).then_some(percent[0]))
}

/// Compares two clocks of the same length.
pub fn order(first: &[u16], second: &[u16]) -> Result<Verdict, Refusal> {
    Answer::accepted(raw::order(first, second)).map(Answer::verdict)
}

/// Work buffers that are long enough for every list.
struct Work {
    clocks: Vec<u16>,
    masks: Vec<u32>,
    values: Vec<u16>,
}

impl Work {
    fn largest() -> Self {
        Work {
            clocks: vec![0; MOST_PROCESSES * MOST_EVENTS],
            masks: vec![0; MOST_EVENTS],
            values: vec![0; MOST_PROCESSES * MOST_EVENTS],
        }
    }

    fn into_reading(mut self, processes: usize, events: usize, entries: usize) -> Reading {
        self.clocks.truncate(processes * events);
        self.masks.truncate(events);
        self.values.truncate(entries);
        Reading {
            processes,
            clocks: self.clocks,
            masks: self.masks,
            values: self.values,
        }
    }
}
