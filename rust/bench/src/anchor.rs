//! A tuned implementation to hold the library's times against: class mode and reading, in forms that differ
//! in how a send's mask is made and how a receive walks one.
//!
//! Used numbers are a bit set, queues are threaded through the accepted events, and stamps are cut
//! from the running record of Wang, Mayo, Gao and Slusser, with its last update and last sent.

use std::marker::PhantomData;

use second::calls::Work;
use second::clock::MOST_PROCESSES;
use second::event::{INTERNAL, MOST_EVENTS, MOST_LIST_BYTES, RECEIVE, RECORD_SIZE, SEND};
use second::packed::pack;
use second::sheet::{HEADER_SIZE, MOST_SHEET_BYTES};
use second::stamp::{MASK_SIZE, VALUE_SIZE};
use second::Check;

use crate::merge::Merge;

const NONE: u16 = u16::MAX;
const CHANNELS: usize = MOST_PROCESSES * MOST_PROCESSES;
const WORDS_OF_USED: usize = 65_536 / 64;

/// "its clock, for each k the own number at which component k last grew (last update), and for each j
/// the own number at which it last sent to j (last sent)".
#[derive(Clone, Copy)]
struct Record {
    clock: [u16; MOST_PROCESSES],
    last_update: [u16; MOST_PROCESSES],
    last_sent: [u16; MOST_PROCESSES],
}

const NEW_RECORD: Record = Record {
    clock: [0; MOST_PROCESSES],
    last_update: [0; MOST_PROCESSES],
    last_sent: [0; MOST_PROCESSES],
};

/// A form of the anchor.
pub trait Form {
    /// A send's mask is made several components at a time, not one after another.
    const WIDE: bool;
    /// A merge looks at all thirty-two components, not only at the carried ones.
    const LOOKS_AT_ALL: bool;
}

pub struct Plain;

impl Form for Plain {
    const WIDE: bool = false;
    const LOOKS_AT_ALL: bool = false;
}

pub struct Wide;

impl Form for Wide {
    const WIDE: bool = true;
    const LOOKS_AT_ALL: bool = false;
}

pub struct LooksAtAll;

impl Form for LooksAtAll {
    const WIDE: bool = true;
    const LOOKS_AT_ALL: bool = true;
}

struct Anchor<'a, F: Form> {
    form: PhantomData<F>,
    n: usize,
    work: Work<'a>,
    accepted: usize,
    entries: usize,
    records: [Record; MOST_PROCESSES],
    used: [u64; WORDS_OF_USED],
    first_waiting: [u16; CHANNELS],
    last_waiting: [u16; CHANNELS],
    next_waiting: [u16; MOST_EVENTS],
    number_of: [u16; MOST_EVENTS],
    values_begin: [u16; MOST_EVENTS],
}

pub fn class<F: Form>(n: usize, list: &[u8], work: Work, answers: &mut [u8]) -> u64 {
    if !(1..=MOST_PROCESSES).contains(&n) {
        return refused(Check::ProcessCount, 0);
    }
    if !list.len().is_multiple_of(RECORD_SIZE) || list.len() > MOST_LIST_BYTES {
        return refused(Check::ListLength, 0);
    }
    let m = list.len() / RECORD_SIZE;
    if !has_room(&work, n, m) || answers.len() < m {
        return refused(Check::WorkLength, 0);
    }
    let mut anchor = Anchor::<F>::new(n, m, work);
    for (record, answer) in list.chunks_exact(RECORD_SIZE).zip(answers) {
        *answer = match anchor.offer(record) {
            Ok(()) => 0,
            Err(check) => check.number(),
        };
    }
    anchor.clear_unused();
    pack(0, 0, anchor.accepted, anchor.entries)
}

pub fn read<F: Form>(sheet: &[u8], work: Work) -> u64 {
    let header = match header_of(sheet) {
        Ok(header) => header,
        Err(check) => return refused(check, 0),
    };
    let m = header.list.len() / RECORD_SIZE;
    if !has_room(&work, header.processes, m) {
        return refused(Check::WorkLength, 0);
    }
    let mut anchor = Anchor::<F>::new(header.processes, m, work);
    match anchor.judge(&header) {
        Ok(()) => {
            anchor.clear_unused();
            pack(0, anchor.n, anchor.accepted, anchor.entries)
        }
        Err((check, position)) => {
            anchor.accepted = 0;
            anchor.entries = 0;
            anchor.clear_unused();
            refused(check, position)
        }
    }
}

fn refused(check: Check, position: usize) -> u64 {
    pack(check.number(), 0, position, 0)
}

fn has_room(work: &Work, n: usize, m: usize) -> bool {
    work.clocks.len() >= n * m && work.masks.len() >= m && work.values.len() >= n * m
}

impl<'a, F: Form> Anchor<'a, F> {
    /// Keeps only the named slots of the work buffers.
    fn new(n: usize, m: usize, work: Work<'a>) -> Self {
        Anchor {
            form: PhantomData,
            n,
            work: Work {
                clocks: &mut work.clocks[..n * m],
                masks: &mut work.masks[..m],
                values: &mut work.values[..n * m],
                lamports: None,
            },
            accepted: 0,
            entries: 0,
            records: [NEW_RECORD; MOST_PROCESSES],
            used: [0; WORDS_OF_USED],
            first_waiting: [NONE; CHANNELS],
            last_waiting: [0; CHANNELS],
            next_waiting: [0; MOST_EVENTS],
            number_of: [0; MOST_EVENTS],
            values_begin: [0; MOST_EVENTS],
        }
    }

    fn judge(&mut self, header: &Header) -> Result<(), (Check, usize)> {
        for (position, record) in header.list.chunks_exact(RECORD_SIZE).enumerate() {
            self.offer(record).map_err(|check| (check, position))?;
        }
        self.check_stamps(header.stamps)
    }

    #[inline]
    fn offer(&mut self, record: &[u8]) -> Result<(), Check> {
        let number = u16::from_le_bytes([record[4], record[5]]);
        let process = usize::from(record[1]);
        let peer = usize::from(record[2]);
        check_form(record, number, self.n)?;
        match record[0] {
            SEND => self.send(process, peer, number)?,
            RECEIVE => self.receive(process, peer, number)?,
            _ => {
                self.work.masks[self.accepted] = 0;
                self.count(process);
            }
        }
        self.lay(process);
        self.accepted += 1;
        Ok(())
    }

    #[inline]
    fn count(&mut self, process: usize) -> u16 {
        let record = &mut self.records[process];
        let own = record.clock[process] + 1;
        record.clock[process] = own;
        record.last_update[process] = own;
        own
    }

    #[inline]
    fn lay(&mut self, process: usize) {
        let clock = &self.records[process].clock[..self.n];
        let begin = self.accepted * self.n;
        self.work.clocks[begin..begin + self.n].copy_from_slice(clock);
    }

    #[inline]
    fn send(&mut self, process: usize, addressee: usize, number: u16) -> Result<(), Check> {
        let word = &mut self.used[usize::from(number / 64)];
        let bit = 1 << (number % 64);
        if *word & bit != 0 {
            return Err(Check::NumberUsed);
        }
        *word |= bit;
        self.join_queue(process * MOST_PROCESSES + addressee, number);
        let record = &self.records[process];
        let sent = record.last_sent[addressee];
        let grown = if F::WIDE {
            greater_at_once(&record.last_update, sent)
        } else {
            greater_one_by_one(&record.last_update[..self.n], sent)
        };
        let own = self.count(process);
        let record = &mut self.records[process];
        record.last_sent[addressee] = own;
        let mut left = grown | 1 << process;
        self.work.masks[self.accepted] = left;
        while left != 0 {
            self.work.values[self.entries] = record.clock[left.trailing_zeros() as usize];
            self.entries += 1;
            left &= left - 1;
        }
        Ok(())
    }

    fn join_queue(&mut self, channel: usize, number: u16) {
        let place = self.accepted;
        self.number_of[place] = number;
        self.values_begin[place] = self.entries as u16;
        self.next_waiting[place] = NONE;
        if self.first_waiting[channel] == NONE {
            self.first_waiting[channel] = place as u16;
        } else {
            let last = usize::from(self.last_waiting[channel]);
            self.next_waiting[last] = place as u16;
        }
        self.last_waiting[channel] = place as u16;
    }

    #[inline]
    fn receive(&mut self, process: usize, sender: usize, number: u16) -> Result<(), Check> {
        let channel = sender * MOST_PROCESSES + process;
        let front = self.first_waiting[channel];
        if front == NONE || self.number_of[usize::from(front)] != number {
            return Err(self.why_not_received(front, number));
        }
        let front = usize::from(front);
        self.first_waiting[channel] = self.next_waiting[front];
        self.merge(process, front);
        self.work.masks[self.accepted] = 0;
        Ok(())
    }

    /// Only the carried components can be larger, as channels do not overtake.
    fn merge(&mut self, process: usize, send: usize) {
        let own = self.count(process);
        let record = &mut self.records[process];
        let begin = usize::from(self.values_begin[send]);
        let mut merge = Merge {
            clock: &mut record.clock,
            last_update: &mut record.last_update,
            own,
        };
        let mask = self.work.masks[send];
        let values = &self.work.values[begin..];
        if F::LOOKS_AT_ALL {
            merge.look_at_all(mask, values);
        } else {
            merge.walk(mask, values);
        }
    }

    fn why_not_received(&self, front: u16, number: u16) -> Check {
        if self.used[usize::from(number / 64)] & (1 << (number % 64)) == 0 {
            return Check::NotWaiting;
        }
        let mut waiting = front;
        while waiting != NONE {
            if self.number_of[usize::from(waiting)] == number {
                return Check::NotInFront;
            }
            waiting = self.next_waiting[usize::from(waiting)];
        }
        Check::NotWaiting
    }

    fn check_stamps(&self, recorded: &[u8]) -> Result<(), (Check, usize)> {
        let mut rest = recorded;
        let mut values = &self.work.values[..self.entries];
        for (position, mask) in self.work.masks[..self.accepted].iter().enumerate() {
            if *mask != 0 {
                let (own, later) = values.split_at(mask.count_ones() as usize);
                rest = after_stamp(rest, *mask, own).ok_or((Check::Stamp, position))?;
                values = later;
            }
        }
        if rest.is_empty() {
            Ok(())
        } else {
            Err((Check::LeftOver, 0))
        }
    }

    fn clear_unused(&mut self) {
        self.work.clocks[self.accepted * self.n..].fill(0);
        self.work.masks[self.accepted..].fill(0);
        self.work.values[self.entries..].fill(0);
    }
}

/// One bit for each number that is greater; the multiplication gathers eight flags into a byte.
#[inline]
fn greater_at_once(numbers: &[u16; MOST_PROCESSES], limit: u16) -> u32 {
    const GATHER: u64 = 0x0102_0408_1020_4080;
    let flags = numbers.map(|number| u8::from(number > limit));
    let (groups, _) = flags.as_chunks::<8>();
    let bytes = groups
        .iter()
        .map(|eight| (u64::from_le_bytes(*eight).wrapping_mul(GATHER) >> 56) as u32);
    bytes.rev().fold(0, |mask, byte| mask << 8 | byte)
}

/// The same, one number after another.
#[inline]
fn greater_one_by_one(numbers: &[u16], limit: u16) -> u32 {
    let mut mask = 0;
    for (k, number) in numbers.iter().enumerate() {
        if *number > limit {
            mask |= 1 << k;
        }
    }
    mask
}

fn after_stamp<'a>(rest: &'a [u8], mask: u32, values: &[u16]) -> Option<&'a [u8]> {
    let (recorded_mask, rest) = rest.split_first_chunk::<MASK_SIZE>()?;
    let (recorded, rest) = rest.split_at_checked(VALUE_SIZE * values.len())?;
    let same_values = recorded
        .chunks_exact(VALUE_SIZE)
        .zip(values)
        .all(|(bytes, value)| u16::from_le_bytes([bytes[0], bytes[1]]) == *value);
    (u32::from_le_bytes(*recorded_mask) == mask && same_values).then_some(rest)
}

#[inline]
fn check_form(record: &[u8], number: u16, n: usize) -> Result<(), Check> {
    let (kind, process, peer) = (record[0], record[1], record[2]);
    if kind > RECEIVE {
        return Err(Check::Kind);
    }
    if usize::from(process) >= n {
        return Err(Check::Process);
    }
    let is_internal = kind == INTERNAL;
    let peer_is_right = if is_internal {
        peer == 0
    } else {
        usize::from(peer) < n && peer != process
    };
    if !peer_is_right {
        return Err(Check::Peer);
    }
    if record[3] | record[6] | record[7] != 0 || (number == 0) != is_internal {
        return Err(Check::SpareOrMessage);
    }
    Ok(())
}

struct Header<'a> {
    processes: usize,
    list: &'a [u8],
    stamps: &'a [u8],
}

fn header_of(sheet: &[u8]) -> Result<Header<'_>, Check> {
    if !(HEADER_SIZE..=MOST_SHEET_BYTES).contains(&sheet.len()) {
        return Err(Check::SheetLength);
    }
    if &sheet[..3] != b"CKT" {
        return Err(Check::Letters);
    }
    if sheet[4..6] != [1, 0] {
        return Err(Check::Version);
    }
    let processes = usize::from(sheet[3]);
    if !(1..=MOST_PROCESSES).contains(&processes) {
        return Err(Check::ProcessCount);
    }
    if sheet[6..8] != [0, 0] {
        return Err(Check::HeaderSpare);
    }
    let (list_at, list) = part_at(sheet, 8).ok_or(Check::EventPart)?;
    if !list.len().is_multiple_of(RECORD_SIZE) || list.len() > MOST_LIST_BYTES {
        return Err(Check::EventPart);
    }
    let (stamps_at, stamps) = part_at(sheet, 16).ok_or(Check::StampPart)?;
    let apart = list_at + list.len() <= stamps_at || stamps_at + stamps.len() <= list_at;
    if !apart && !list.is_empty() && !stamps.is_empty() {
        return Err(Check::StampPart);
    }
    Ok(Header {
        processes,
        list,
        stamps,
    })
}

fn part_at(sheet: &[u8], place: usize) -> Option<(usize, &[u8])> {
    let word = |at: usize| [sheet[at], sheet[at + 1], sheet[at + 2], sheet[at + 3]];
    let offset = u32::from_le_bytes(word(place)) as usize;
    let size = u32::from_le_bytes(word(place + 4)) as usize;
    if offset < HEADER_SIZE {
        return None;
    }
    Some((offset, sheet.get(offset..)?.get(..size)?))
}

#[cfg(test)]
mod tests {
    use cases::random::seed_of_case;
    use cases::{case_of, Call};

    use crate::sides::{call, Buffers, Side, Task, TimedCall};

    const CASES: u64 = 20_000;
    const FORMS: [Side; 3] = [Side::Tuned, Side::Wide, Side::LooksAtAll];

    #[test]
    fn all_forms_agree_with_the_second_program() {
        for index in 0..CASES {
            let case = case_of(seed_of_case(11, index));
            let timed = match case.call {
                Call::Class => TimedCall::Class,
                Call::Read => TimedCall::Read,
                _ => continue,
            };
            let task = Task {
                call: timed,
                processes: case.processes,
                input: case.input,
            };
            let lent = Buffers::with_lengths(case.work, case.output);
            let answered = |side| {
                let mut buffers = lent.clone();
                (call(side, &task, &mut buffers), buffers)
            };
            let expected = answered(Side::Second);
            for form in FORMS {
                assert_eq!(answered(form), expected, "{form:?}");
            }
        }
    }
}
