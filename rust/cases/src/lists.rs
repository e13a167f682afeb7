//! Cases of the calls that are lent an event list: class mode, writing and the questions.

use second::calls::room_for_chain;
use second::clock::MOST_PROCESSES;
use second::event::{events_of, list_of, Event, MOST_EVENTS, RECORD_SIZE};
use second::judge::whole_list;
use second::machine::Accepted;
use second::questions::chain;
use second::sheet::{compose, stamp_bytes};

use crate::lengths::{chosen_length, WorkLengths};
use crate::random::Random;
use crate::shapes::{Bad, Script, Shape, ALL_SHAPES, OFFER_CHECKS};
use crate::{Call, Case};

/// A list and the process count it was made for.
pub struct Made {
    pub processes: u8,
    pub list: Vec<u8>,
}

pub fn class_case(random: &mut Random) -> Case {
    let chances = random.pick(&[1, 2, 2, 6, 6, 6, 12]);
    let bad = random.pick(&[Bad::Nowhere, Bad::OneIn(chances), Bad::OneIn(chances)]);
    let mut case = case_with_list(Call::Class, bad, random);
    case.output = chosen_length(case.work_needed().masks, random);
    case
}

pub fn class_lamport_case(random: &mut Random) -> Case {
    let mut case = class_case(random);
    case.call = Call::ClassLamport;
    case.lamports = chosen_length(case.work_needed().masks, random);
    case
}

pub fn write_case(random: &mut Random) -> Case {
    let bad = seldom_bad(random);
    let mut case = case_with_list(Call::Write, bad, random);
    case.output = chosen_length(case.sheet_length(), random);
    case
}

pub fn compare_case(random: &mut Random) -> Case {
    let bad = seldom_bad(random);
    let mut case = case_with_list(Call::Compare, bad, random);
    case.positions = chosen_positions(case.events(), random);
    case
}

pub fn chain_case(random: &mut Random) -> Case {
    let bad = seldom_bad(random);
    let mut case = case_with_list(Call::Chain, bad, random);
    case.positions = if random.one_in(2) {
        chosen_positions(case.events(), random)
    } else {
        ends_of_a_long_chain(&case, random)
    };
    case.output = chain_slots(case.processes, random);
    case
}

fn chain_slots(processes: usize, random: &mut Random) -> usize {
    let room = room_for_chain(processes.clamp(1, MOST_PROCESSES));
    let one_less = room.saturating_sub(1);
    let more = room + 88;
    random.pick(&[room, room, room, room, more, more, one_less, 0])
}

/// A list of some shape and size.
pub fn made_list(bad: Bad, random: &mut Random) -> Made {
    let processes = chosen_processes(random);
    let length = chosen_events(random);
    let shape = random.pick(&ALL_SHAPES);
    let shape = if random.one_in(2) {
        shape
    } else {
        Shape::Mixed
    };
    let mut script = Script::new(shape, processes, random);
    if random.one_in(2) {
        script = script.with_few_talkers(random);
    }
    Made {
        processes,
        list: list_of(&script.events(length, bad, random)),
    }
}

/// One bad offer at most: every call but class mode stops there.
pub fn seldom_bad(random: &mut Random) -> Bad {
    if random.one_in(3) {
        let place = random.below(20);
        Bad::OnceFrom(place, random.pick(&OFFER_CHECKS))
    } else {
        Bad::Nowhere
    }
}

fn chosen_processes(random: &mut Random) -> u8 {
    let few = random.within(4..=8) as u8;
    let some = random.within(9..=30) as u8;
    random.pick(&[1, 2, 2, 3, 3, 3, 3, few, few, 8, some, 31, 32, 32])
}

fn chosen_events(random: &mut Random) -> usize {
    match random.below(40) {
        0 => 0,
        1..=18 => random.within(1..=12),
        19..=31 => random.within(13..=60),
        32..=36 => random.within(61..=200),
        37 => random.pick(&[MOST_EVENTS - 1, MOST_EVENTS]),
        _ => random.within(201..=MOST_EVENTS),
    }
}

fn case_with_list(call: Call, bad: Bad, random: &mut Random) -> Case {
    let mut made = made_list(bad, random);
    match random.below(16) {
        0 => spoil_list_length(&mut made.list, random),
        1 => made = garbage(random),
        _ => {}
    }
    let mut case = Case {
        call,
        processes: lent_count(made.processes, random),
        input: made.list,
        ..Case::default()
    };
    case.work = WorkLengths::chosen(case.work_needed(), random);
    case
}

/// Mostly the list's own count; some of the others look right when cut to fewer bits.
fn lent_count(own: u8, random: &mut Random) -> usize {
    let own = usize::from(own);
    let others = [
        0,
        1,
        2,
        3,
        8,
        31,
        32,
        33,
        255,
        256 + own,
        65_536 + own,
        (1 << 32) + own,
        usize::MAX,
    ];
    if random.one_in(8) {
        random.pick(&others)
    } else {
        own
    }
}

/// No multiple of 8, or more than 4,096 bytes, or exactly those.
fn spoil_list_length(list: &mut Vec<u8>, random: &mut Random) {
    let odd = list.len() + random.within(1..=RECORD_SIZE - 1);
    let less = list
        .len()
        .saturating_sub(random.within(1..=RECORD_SIZE - 1));
    let length = random.pick(&[
        odd,
        odd,
        less,
        4_095,
        4_096,
        4_097,
        4_104,
        4_104,
        8_192,
        65_536 + list.len(),
    ]);
    list.resize(length, 0);
}

/// Records of small random fields, which reach the later checks by chance.
fn garbage(random: &mut Random) -> Made {
    let processes = random.within(1..=4) as u8;
    let length = random.below(30);
    let events: Vec<Event> = (0..length)
        .map(|_| {
            let mut event = Event::internal(random.below(4) as u8);
            event.kind = random.pick(&[0, 1, 1, 1, 2, 2, 2, 3]);
            event.peer = random.below(4) as u8;
            event.message = random.below(6) as u16;
            event.spare[2] = random.pick(&[0, 0, 0, 0, 0, 0, 0, 1]);
            event
        })
        .collect();
    Made {
        processes,
        list: list_of(&events),
    }
}

/// Mostly two events of the list; some of the others look right when cut to fewer bits.
fn chosen_positions(events: usize, random: &mut Random) -> (usize, usize) {
    if events == 0 || random.one_in(10) {
        return (any_position(events, random), any_position(events, random));
    }
    if random.one_in(2) {
        return (random.below(events), random.below(events));
    }
    let early = random.below(events.div_ceil(3));
    let late = events - 1 - random.below(events.div_ceil(3));
    (early, late)
}

/// Of a few pairs of events, the one with the longest chain between them.
fn ends_of_a_long_chain(case: &Case, random: &mut Random) -> (usize, usize) {
    let accepted = case.accepted();
    (0..20)
        .map(|_| chosen_positions(case.events(), random))
        .max_by_key(|(a, b)| chain(&accepted, *a, *b).map_or(0, |sends| 1 + sends.len()))
        .unwrap_or_default()
}

fn any_position(events: usize, random: &mut Random) -> usize {
    let inside = random.below(events.max(1));
    random.pick(&[
        inside,
        inside,
        inside,
        events,
        events + 1,
        511,
        512,
        65_536 + inside,
        (1 << 32) + inside,
        usize::MAX,
    ])
}

impl Case {
    fn events(&self) -> usize {
        events_of(&self.input).count()
    }

    fn work_needed(&self) -> WorkLengths {
        WorkLengths::needed(self.processes, self.events())
    }

    /// The accepted events; none where the list is refused.
    fn accepted(&self) -> Vec<Accepted> {
        whole_list(self.processes.min(MOST_PROCESSES), &self.input).unwrap_or_default()
    }

    /// What the written sheet takes; of no weight where the list is refused.
    fn sheet_length(&self) -> usize {
        let stamps = stamp_bytes(&self.accepted());
        compose(self.processes, &self.input, &stamps).len()
    }
}
