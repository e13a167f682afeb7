//! Sheets laid out in other ways than the writer's: gaps, junk, stamps first, empty parts anywhere.

use std::ops::Range;

use second::sheet::{compose, header_bytes, HEADER_SIZE, MOST_SHEET_BYTES};

use crate::random::Random;

/// A sheet and where its parts stand in it.
pub struct Placed {
    pub bytes: Vec<u8>,
    pub events: Range<usize>,
    pub stamps: Range<usize>,
}

pub fn place(processes: u8, list: &[u8], stamps: &[u8], random: &mut Random) -> Placed {
    if random.one_in(3) {
        as_written(processes, list, stamps)
    } else {
        with_gaps(processes, list, stamps, random)
    }
}

fn as_written(processes: u8, list: &[u8], stamps: &[u8]) -> Placed {
    let after_events = HEADER_SIZE + list.len();
    Placed {
        bytes: compose(usize::from(processes), list, stamps),
        events: HEADER_SIZE..after_events,
        stamps: after_events..after_events + stamps.len(),
    }
}

fn with_gaps(processes: u8, list: &[u8], stamps: &[u8], random: &mut Random) -> Placed {
    let mut body = Vec::new();
    let stamps_first = random.one_in(2);
    let parts = if stamps_first {
        [stamps, list]
    } else {
        [list, stamps]
    };
    let places = parts.map(|part| {
        let length = gap(random);
        body.extend(random.bytes(length));
        body.extend(part);
        let end = HEADER_SIZE + body.len();
        end - part.len()..end
    });
    let length = last_gap(body.len(), random);
    body.extend(random.bytes(length));
    let [first, second] = places.map(|place| anywhere_if_empty(place, body.len(), random));
    let (events, stamps) = if stamps_first {
        (second, first)
    } else {
        (first, second)
    };
    let mut bytes = header_bytes(processes, &events, &stamps);
    bytes.extend(body);
    Placed {
        bytes,
        events,
        stamps,
    }
}

fn gap(random: &mut Random) -> usize {
    let some = random.below(60);
    random.pick(&[0, 0, 0, 1, 2, 7, 8, some])
}

/// Now and then the sheet has the greatest length.
fn last_gap(body: usize, random: &mut Random) -> usize {
    if random.one_in(100) {
        MOST_SHEET_BYTES - HEADER_SIZE - body
    } else {
        gap(random)
    }
}

/// "an empty part shares none", wherever it stands.
fn anywhere_if_empty(place: Range<usize>, body: usize, random: &mut Random) -> Range<usize> {
    if place.is_empty() {
        let end = HEADER_SIZE + body;
        let inside = random.within(HEADER_SIZE..=end);
        let offset = random.pick(&[HEADER_SIZE, end, inside]);
        offset..offset
    } else {
        place
    }
}
