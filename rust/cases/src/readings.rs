//! Cases of reading: sheets whole and damaged.

use second::event::RECORD_SIZE;
use second::judge::{each_offer, only_accepted};
use second::sheet::{header_bytes, stamp_bytes, HEADER_SIZE};

use crate::damages::{flip_bytes, leave_over, move_end, spoil_header, spoil_stamps, HEADER_CHECKS};
use crate::lengths::{chosen_length, WorkLengths};
use crate::lists::{made_list, seldom_bad};
use crate::random::Random;
use crate::sheets::{place, Placed};
use crate::{Call, Case};

/// A sheet and what it needed before it was damaged.
pub struct LentSheet {
    pub sheet: Vec<u8>,
    pub needed: WorkLengths,
}

pub fn case(random: &mut Random) -> Case {
    let lent = some_sheet(random);
    Case {
        call: Call::Read,
        work: WorkLengths::chosen(lent.needed, random),
        input: lent.sheet,
        ..Case::default()
    }
}

pub fn lamport_case(random: &mut Random) -> Case {
    let lent = some_sheet(random);
    Case {
        call: Call::ReadLamport,
        work: WorkLengths::chosen(lent.needed, random),
        lamports: chosen_length(lent.needed.masks, random),
        input: lent.sheet,
        ..Case::default()
    }
}

pub fn savings_case(random: &mut Random) -> Case {
    let lent = some_sheet(random);
    Case {
        call: Call::Savings,
        work: WorkLengths::chosen(lent.needed, random),
        output: chosen_length(1, random),
        input: lent.sheet,
        ..Case::default()
    }
}

pub fn some_sheet(random: &mut Random) -> LentSheet {
    if random.one_in(25) {
        return garbage(random);
    }
    let bad = seldom_bad(random);
    let made = made_list(bad, random);
    let n = usize::from(made.processes);
    let mut stamps = stamp_bytes(&only_accepted(&each_offer(n, &made.list)));
    match random.below(10) {
        0..=1 => spoil_stamps(&mut stamps, random),
        2 => leave_over(&mut stamps, random),
        _ => {}
    }
    let mut sheet = place(made.processes, &made.list, &stamps, random);
    damage(&mut sheet, random);
    LentSheet {
        sheet: sheet.bytes,
        needed: WorkLengths::needed(n, made.list.len() / RECORD_SIZE),
    }
}

/// A third of the sheets are damaged outside their parts, some of them twice.
fn damage(sheet: &mut Placed, random: &mut Random) {
    match random.below(20) {
        0..=6 => spoil_header(random.pick(&HEADER_CHECKS), sheet, random),
        7 => {
            let but_the_length = &HEADER_CHECKS[1..];
            spoil_header(random.pick(but_the_length), sheet, random);
            spoil_header(random.pick(&HEADER_CHECKS), sheet, random);
        }
        8 => move_end(sheet, random),
        9 => flip_bytes(sheet, random),
        _ => {}
    }
}

/// Random bytes, alone or behind a good header.
fn garbage(random: &mut Random) -> LentSheet {
    let length = random.below(200);
    let mut sheet = random.bytes(length);
    if random.one_in(2) {
        let events = HEADER_SIZE..HEADER_SIZE + length / RECORD_SIZE * RECORD_SIZE;
        let stamps = events.end..HEADER_SIZE + length;
        sheet.splice(0..0, header_bytes(3, &events, &stamps));
    }
    LentSheet {
        sheet,
        needed: WorkLengths::needed(3, length / RECORD_SIZE),
    }
}
