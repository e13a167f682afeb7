//! Damages to sheets, each aimed at one of the checks 1 to 7, 18 and 19.

use std::ops::Range;

use second::event::{MOST_LIST_BYTES, RECORD_SIZE};
use second::sheet::{HEADER_SIZE, MOST_SHEET_BYTES};
use second::stamp::{MASK_SIZE, VALUE_SIZE};
use second::Check;

use crate::random::Random;
use crate::sheets::Placed;

pub const HEADER_CHECKS: [Check; 7] = [
    Check::SheetLength,
    Check::Letters,
    Check::Version,
    Check::ProcessCount,
    Check::HeaderSpare,
    Check::EventPart,
    Check::StampPart,
];

const EVENTS_NAMED_AT: usize = 8;
const STAMPS_NAMED_AT: usize = 16;

pub fn spoil_header(aim: Check, sheet: &mut Placed, random: &mut Random) {
    let anything = random.nonzero_byte();
    let bytes = &mut sheet.bytes;
    match aim {
        Check::SheetLength => spoil_length(bytes, random),
        Check::Letters => bytes[random.below(3)] ^= random.pick(&[1, 0x20, anything]),
        Check::Version => bytes[random.within(4..=5)] ^= random.pick(&[1, 2, 3, anything]),
        Check::ProcessCount => bytes[3] = random.pick(&[0, 0, 33, 34, 64, 255]),
        Check::HeaderSpare => bytes[random.within(6..=7)] = random.pick(&[1, 128, anything]),
        Check::EventPart => spoil_event_part(sheet, random),
        _ => spoil_stamp_part(sheet, random),
    }
}

fn spoil_length(bytes: &mut Vec<u8>, random: &mut Random) {
    let short = random.below(HEADER_SIZE);
    let long = MOST_SHEET_BYTES + random.within(1..=300);
    let length = random.pick(&[
        0,
        HEADER_SIZE - 1,
        short,
        MOST_SHEET_BYTES + 1,
        long,
        65_536 + HEADER_SIZE,
    ]);
    bytes.resize(length, random.byte());
}

fn spoil_event_part(sheet: &mut Placed, random: &mut Random) {
    if random.one_in(4) {
        spoil_list_size(sheet, random);
    } else {
        spoil_place(sheet, sheet.events.clone(), EVENTS_NAMED_AT, random);
    }
}

/// Sizes that lie in the sheet but are no list's.
fn spoil_list_size(sheet: &mut Placed, random: &mut Random) {
    let no_multiple = sheet.events.len() + random.within(1..=RECORD_SIZE - 1);
    let over = MOST_LIST_BYTES + RECORD_SIZE * random.within(1..=2);
    let size = random.pick(&[no_multiple, over]);
    let offset = random.pick(&[HEADER_SIZE, sheet.events.start]);
    if sheet.bytes.len() < offset + size && offset + size <= MOST_SHEET_BYTES {
        sheet.bytes.resize(offset + size, random.byte());
    }
    name_part(sheet, EVENTS_NAMED_AT, offset as u32, size as u32);
}

fn spoil_stamp_part(sheet: &mut Placed, random: &mut Random) {
    let both_hold_bytes = !sheet.events.is_empty() && !sheet.stamps.is_empty();
    if both_hold_bytes && random.one_in(2) {
        share_bytes(sheet, random);
    } else {
        spoil_place(sheet, sheet.stamps.clone(), STAMPS_NAMED_AT, random);
    }
}

/// Shared by one at either end, or by more.
fn share_bytes(sheet: &mut Placed, random: &mut Random) {
    let size = sheet.stamps.len();
    let into_first = (sheet.events.start + 1).saturating_sub(size);
    let from_last = sheet.events.end - 1;
    let inside = random.within(sheet.events.start..=from_last);
    let offset = random.pick(&[into_first, from_last, inside]);
    let least_size = random.pick(&[1, size]);
    if sheet.bytes.len() < offset + least_size {
        sheet.bytes.resize(offset + least_size, random.byte());
    }
    name_part(sheet, STAMPS_NAMED_AT, offset as u32, least_size as u32);
}

/// Offsets and sizes that do not lie in the sheet; some of their 32-bit sums wrap and look right.
fn spoil_place(sheet: &mut Placed, part: Range<usize>, named_at: usize, random: &mut Random) {
    let length = sheet.bytes.len() as u32;
    let (offset, size) = (part.start as u32, part.len() as u32);
    let before_body = random.below(HEADER_SIZE) as u32;
    let lifted = random.within(1..=1 << 24) as u32 * 8;
    let one_late = length.wrapping_sub(size).wrapping_add(1);
    let (offset, size) = random.pick(&[
        (HEADER_SIZE as u32 - 1, size),
        (before_body, size),
        (0, size),
        (length + 1, 0),
        (length + 1, size),
        (one_late, size),
        (offset, length.wrapping_sub(offset).wrapping_add(8) & !7),
        (offset, length.wrapping_sub(offset).wrapping_add(1)),
        (u32::MAX, size),
        (u32::MAX, 1),
        (offset, u32::MAX - 7),
        (offset, offset.wrapping_neg()),
        (offset, offset.wrapping_neg().wrapping_add(size)),
        (offset.wrapping_sub(lifted), size.wrapping_add(lifted)),
        (offset ^ 1 << 31, size ^ 1 << 31),
        (offset | 1 << 31, size),
        (offset | 1 << 16, size),
        (offset, size | 1 << 16),
        (offset, size | 1 << 31),
    ]);
    name_part(sheet, named_at, offset, size);
}

fn name_part(sheet: &mut Placed, named_at: usize, offset: u32, size: u32) {
    sheet.bytes[named_at..named_at + 4].copy_from_slice(&offset.to_le_bytes());
    sheet.bytes[named_at + 4..named_at + 8].copy_from_slice(&size.to_le_bytes());
}

/// One byte less or more at the end of the sheet, whatever that means for it.
pub fn move_end(sheet: &mut Placed, random: &mut Random) {
    if random.one_in(3) {
        sheet.bytes.push(random.byte());
    } else if sheet.bytes.len() > HEADER_SIZE {
        let less = random.pick(&[1, 1, 2, 8]);
        let length = sheet.bytes.len().saturating_sub(less).max(HEADER_SIZE);
        sheet.bytes.truncate(length);
    }
}

/// A few bytes changed: in the header, in a part, or anywhere.
pub fn flip_bytes(sheet: &mut Placed, random: &mut Random) {
    let anywhere = 0..sheet.bytes.len();
    let ranges = [
        0..HEADER_SIZE,
        sheet.events.clone(),
        sheet.stamps.clone(),
        anywhere.clone(),
    ];
    let range = &ranges[random.below(ranges.len())];
    let range = if range.is_empty() { &anywhere } else { range };
    for _ in 0..random.within(1..=3) {
        let place = random.within(range.start..=range.end - 1);
        let anything = random.nonzero_byte();
        sheet.bytes[place] ^= random.pick(&[1, 2, 128, anything]);
    }
}

/// Check 18; where there is no stamp to spoil, bytes are left over instead.
pub fn spoil_stamps(stamps: &mut Vec<u8>, random: &mut Random) {
    let starts = stamp_starts(stamps);
    if starts.is_empty() {
        return leave_over(stamps, random);
    }
    let start = random.pick(&starts);
    match random.below(8) {
        0 => stamps[start + random.below(MASK_SIZE)] ^= 1 << random.below(8),
        1 => spoil_value(stamps, start, random),
        2 => spoil_last_value(stamps, random),
        3 => end_early(stamps, random),
        4 => drop(stamps.drain(stamp_range(stamps, start))),
        5 => drop_one_value(stamps, start),
        6 => add_one_value(stamps, start, random),
        _ => repeat_stamp(stamps, start),
    }
}

/// Check 19.
pub fn leave_over(stamps: &mut Vec<u8>, random: &mut Random) {
    let length = random.pick(&[1, 1, 2, 3, 4, 6, 8]);
    let filler = random.pick(&[0, 0, 255, 1]);
    stamps.extend(vec![filler; length]);
}

fn spoil_value(stamps: &mut [u8], start: usize, random: &mut Random) {
    let values = stamp_range(stamps, start).len() - MASK_SIZE;
    let place = start + MASK_SIZE + random.below(values);
    let anything = random.nonzero_byte();
    stamps[place] ^= random.pick(&[1, 2, 128, anything]);
}

fn spoil_last_value(stamps: &mut [u8], random: &mut Random) {
    let place = stamps.len() - random.within(1..=VALUE_SIZE);
    stamps[place] ^= random.pick(&[1, 128]);
}

fn end_early(stamps: &mut Vec<u8>, random: &mut Random) {
    let some = random.within(1..=stamps.len());
    let less = random.pick(&[1, 2, 3, 4, 5, 6, stamps.len(), some]);
    stamps.truncate(stamps.len().saturating_sub(less));
}

fn drop_one_value(stamps: &mut Vec<u8>, start: usize) {
    let mask = mask_at(stamps, start);
    put_mask(stamps, start, mask & (mask - 1));
    let first_value = start + MASK_SIZE;
    stamps.drain(first_value..first_value + VALUE_SIZE);
}

/// Claims one component more than the stamp carries, after all those it does.
fn add_one_value(stamps: &mut Vec<u8>, start: usize, random: &mut Random) {
    let mask = mask_at(stamps, start);
    let free = mask.leading_zeros() as usize;
    if free == 0 {
        return;
    }
    let end = stamp_range(stamps, start).end;
    put_mask(stamps, start, mask | 1 << (32 - random.within(1..=free)));
    let value = random.pick(&[[0, 0], [1, 0]]);
    stamps.splice(end..end, value);
}

fn repeat_stamp(stamps: &mut Vec<u8>, start: usize) {
    let stamp = stamps[stamp_range(stamps, start)].to_vec();
    stamps.splice(start..start, stamp);
}

fn stamp_starts(stamps: &[u8]) -> Vec<usize> {
    let mut starts = Vec::new();
    let mut next = 0;
    while next < stamps.len() {
        starts.push(next);
        next = stamp_range(stamps, next).end;
    }
    starts
}

fn stamp_range(stamps: &[u8], start: usize) -> Range<usize> {
    let carried = mask_at(stamps, start).count_ones() as usize;
    start..start + MASK_SIZE + VALUE_SIZE * carried
}

fn mask_at(stamps: &[u8], start: usize) -> u32 {
    let [a, b, c, d] = [0, 1, 2, 3].map(|place| stamps[start + place]);
    u32::from_le_bytes([a, b, c, d])
}

fn put_mask(stamps: &mut [u8], start: usize, mask: u32) {
    stamps[start..start + MASK_SIZE].copy_from_slice(&mask.to_le_bytes());
}
