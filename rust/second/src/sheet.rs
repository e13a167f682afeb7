//! The sheet: its header, its two parts, its recorded stamps, and the writer.

use std::ops::Range;

use crate::clock::is_process_count;
use crate::event::{MOST_LIST_BYTES, RECORD_SIZE, SEND};
use crate::judge::whole_list;
use crate::machine::Accepted;
use crate::{Check, Refusal};

pub const HEADER_SIZE: usize = 24;
pub const MOST_SHEET_BYTES: usize = 40_960;

const LETTERS: &[u8; 3] = b"CKT";
const VERSION: u16 = 1;

#[derive(Clone, Debug, PartialEq, Eq)]
pub struct Header {
    pub processes: usize,
    pub events: Range<usize>,
    pub stamps: Range<usize>,
}

impl Header {
    /// Checks 1 to 7, in their order.
    pub fn of(sheet: &[u8]) -> Result<Header, Check> {
        if sheet.len() < HEADER_SIZE || sheet.len() > MOST_SHEET_BYTES {
            return Err(Check::SheetLength);
        }
        if &sheet[0..3] != LETTERS {
            return Err(Check::Letters);
        }
        if u16::from_le_bytes([sheet[4], sheet[5]]) != VERSION {
            return Err(Check::Version);
        }
        let processes = usize::from(sheet[3]);
        if !is_process_count(processes) {
            return Err(Check::ProcessCount);
        }
        if sheet[6] != 0 || sheet[7] != 0 {
            return Err(Check::HeaderSpare);
        }
        let events = event_part(sheet).ok_or(Check::EventPart)?;
        let stamps = stamp_part(sheet, &events).ok_or(Check::StampPart)?;
        Ok(Header {
            processes,
            events,
            stamps,
        })
    }
}

fn event_part(sheet: &[u8]) -> Option<Range<usize>> {
    let part = part_named_at(sheet, 8)?;
    let is_a_list = part.len().is_multiple_of(RECORD_SIZE) && part.len() <= MOST_LIST_BYTES;
    is_a_list.then_some(part)
}

fn stamp_part(sheet: &[u8], events: &Range<usize>) -> Option<Range<usize>> {
    let part = part_named_at(sheet, 16)?;
    let shares_a_byte = events.clone().any(|byte| part.contains(&byte));
    (!shares_a_byte).then_some(part)
}

/// None where the offset is under 24 or past the length, or the "size greater than length minus offset".
fn part_named_at(sheet: &[u8], place: usize) -> Option<Range<usize>> {
    let offset = usize::try_from(u32_at(sheet, place)).ok()?;
    let size = usize::try_from(u32_at(sheet, place + 4)).ok()?;
    if offset < HEADER_SIZE || offset > sheet.len() || size > sheet.len() - offset {
        return None;
    }
    Some(offset..offset + size)
}

fn u32_at(sheet: &[u8], place: usize) -> u32 {
    u32::from_le_bytes([
        sheet[place],
        sheet[place + 1],
        sheet[place + 2],
        sheet[place + 3],
    ])
}

/// "events in order (10 to 16), then stamps".
pub fn judge_parts(sheet: &[u8], header: &Header) -> Result<Vec<Accepted>, Refusal> {
    let accepted = whole_list(header.processes, &sheet[header.events.clone()])?;
    check_stamps(&sheet[header.stamps.clone()], &accepted)?;
    Ok(accepted)
}

/// Checks 18 and 19.
fn check_stamps(recorded: &[u8], accepted: &[Accepted]) -> Result<(), Refusal> {
    let mut rest = recorded;
    for (position, one) in accepted.iter().enumerate() {
        if one.event.kind == SEND {
            rest = rest
                .strip_prefix(one.stamp.bytes().as_slice())
                .ok_or(Check::Stamp.at_event(position))?;
        }
    }
    if !rest.is_empty() {
        return Err(Check::LeftOver.of_no_event());
    }
    Ok(())
}

/// "The stamps of all sends follow each other in event order without gaps."
pub fn stamp_bytes(accepted: &[Accepted]) -> Vec<u8> {
    accepted
        .iter()
        .filter(|one| one.event.kind == SEND)
        .flat_map(|one| one.stamp.bytes())
        .collect()
}

/// "The writer puts events at 24, stamps straight after, and nothing else."
pub fn compose(n: usize, list: &[u8], stamps: &[u8]) -> Vec<u8> {
    let events_at = HEADER_SIZE..HEADER_SIZE + list.len();
    let stamps_at = events_at.end..events_at.end + stamps.len();
    let mut sheet = header_bytes(n as u8, &events_at, &stamps_at);
    sheet.extend(list);
    sheet.extend(stamps);
    sheet
}

pub fn header_bytes(processes: u8, events: &Range<usize>, stamps: &Range<usize>) -> Vec<u8> {
    let mut header = LETTERS.to_vec();
    header.push(processes);
    header.extend(VERSION.to_le_bytes());
    header.extend([0, 0]);
    for number in [events.start, events.len(), stamps.start, stamps.len()] {
        header.extend((number as u32).to_le_bytes());
    }
    header
}
