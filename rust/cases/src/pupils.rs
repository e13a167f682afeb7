//! Cases of marking: a sheet, whole or damaged, and a pupil's list.

use second::clock::ALL_VERDICTS;
use second::machine::Accepted;
use second::marking::{bytes_of, Line, LINE_SIZE, MOST_LINES};
use second::questions::compare;
use second::sheet::{judge_parts, Header};

use crate::lengths::{chosen_length, WorkLengths};
use crate::random::Random;
use crate::readings::some_sheet;
use crate::{Call, Case};

/// A multiple of a line's size that is 0 when cut to 16 bits.
const CUT_TO_NOTHING: usize = 65_536 * (LINE_SIZE / 2);

const WRONG_VERDICTS: [u16; 4] = [0, 5, 6, 65_535];

pub fn case(random: &mut Random) -> Case {
    let lent = some_sheet(random);
    let accepted = accepted_of(&lent.sheet);
    let count = chosen_count(random);
    let lines: Vec<Line> = (0..count).map(|_| some_line(&accepted, random)).collect();
    let mut list = bytes_of(&lines);
    if random.one_in(12) {
        spoil_length(&mut list, random);
    }
    Case {
        call: Call::Mark,
        work: WorkLengths::chosen(lent.needed, random),
        output: chosen_length(count, random),
        input: lent.sheet,
        lines: list,
        ..Case::default()
    }
}

/// None where the sheet is refused.
fn accepted_of(sheet: &[u8]) -> Vec<Accepted> {
    let header = Header::of(sheet).ok();
    let accepted = header.and_then(|header| judge_parts(sheet, &header).ok());
    accepted.unwrap_or_default()
}

fn chosen_count(random: &mut Random) -> usize {
    match random.below(20) {
        0 => 0,
        1 => random.pick(&[MOST_LINES - 1, MOST_LINES, MOST_LINES]),
        2 => MOST_LINES + 1,
        3..=7 => random.within(13..=MOST_LINES),
        _ => random.within(1..=12),
    }
}

/// A byte or more too many or too few, or far too many lines.
fn spoil_length(list: &mut Vec<u8>, random: &mut Random) {
    let more = list.len() + random.within(1..=LINE_SIZE - 1);
    let less = list.len().saturating_sub(random.within(1..=LINE_SIZE - 1));
    let whole = LINE_SIZE * MOST_LINES;
    let far = CUT_TO_NOTHING + list.len();
    let length = random.pick(&[list.len() + 1, more, less, whole + 1, whole - 1, far]);
    list.resize(length, 0);
}

fn some_line(accepted: &[Accepted], random: &mut Random) -> Line {
    let first = some_position(accepted.len(), random);
    let second = if random.one_in(8) {
        first
    } else {
        some_position(accepted.len(), random)
    };
    Line {
        first,
        second,
        verdict: some_verdict(accepted, first, second, random),
    }
}

/// Mostly an event of the list; some of the others look right when cut to fewer bits.
fn some_position(events: usize, random: &mut Random) -> u16 {
    let inside = random.below(events.max(1));
    let position = if random.one_in(12) {
        random.pick(&[events, events + 1, 256 + inside, 512 + inside, 511, 65_535])
    } else {
        inside
    };
    position as u16
}

/// The right one, another, or one that is not known; some of those look right when cut to a byte.
fn some_verdict(accepted: &[Accepted], first: u16, second: u16, random: &mut Random) -> u16 {
    let another = random.pick(&ALL_VERDICTS) as u16;
    let judged = compare(accepted, usize::from(first), usize::from(second));
    let right = judged.map_or(another, |verdict| verdict as u16);
    let wrong = random.pick(&WRONG_VERDICTS);
    random.pick(&[right, right, right, another, another, wrong, 256 + right])
}
