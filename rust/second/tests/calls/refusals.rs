//! Each refusal number, its order and what it leaves in the buffers.

use crate::desk::{Desk, PRIOR};
use second::calls::{chain, class, compare, order, read, write};
use second::event::{list_of, Event};
use second::examples::{list_a, SHEET_A};
use second::sheet::compose;
use second::{packed, Check, Refusal};

/// A refusal up to and including check 9 writes nothing; a later one clears the named slots.
fn assert_refused(sheet: &[u8], named: (usize, usize), expected: Refusal) {
    let (n, m) = named;
    let mut desk = Desk::largest();
    let before = desk.clone();
    assert_eq!(read(sheet, desk.lend()), Err(expected));
    let after = if expected.check <= Check::WorkLength {
        before
    } else {
        before.cleared(n, m)
    };
    assert_eq!(desk, after);
}

fn changed_a(place: usize, byte: u8) -> Vec<u8> {
    let mut sheet = SHEET_A.to_vec();
    sheet[place] = byte;
    sheet
}

fn a_refused_by_its_header(sheet: &[u8], check: Check) {
    assert_refused(sheet, (0, 0), check.of_no_event());
}

#[test]
fn number_1_lengths() {
    a_refused_by_its_header(&[], Check::SheetLength);
    a_refused_by_its_header(&SHEET_A[..23], Check::SheetLength);
    let mut longest = SHEET_A.to_vec();
    longest.resize(40_960, 7);
    assert!(read(&longest, Desk::largest().lend()).is_ok());
    longest.push(7);
    a_refused_by_its_header(&longest, Check::SheetLength);
}

#[test]
fn numbers_2_to_5_header_bytes() {
    for place in 0..3 {
        a_refused_by_its_header(&changed_a(place, b'c'), Check::Letters);
    }
    a_refused_by_its_header(&changed_a(4, 2), Check::Version);
    a_refused_by_its_header(&changed_a(5, 1), Check::Version);
    a_refused_by_its_header(&changed_a(3, 0), Check::ProcessCount);
    a_refused_by_its_header(&changed_a(3, 33), Check::ProcessCount);
    a_refused_by_its_header(&changed_a(6, 1), Check::HeaderSpare);
    a_refused_by_its_header(&changed_a(7, 128), Check::HeaderSpare);
}

#[test]
fn version_is_looked_at_before_the_process_count() {
    let mut sheet = changed_a(3, 0);
    sheet[4] = 0;
    a_refused_by_its_header(&sheet, Check::Version);
}

#[test]
fn number_6_event_part() {
    a_refused_by_its_header(&changed_a(8, 23), Check::EventPart);
    a_refused_by_its_header(&changed_a(8, 117), Check::EventPart);
    a_refused_by_its_header(&changed_a(8, 53), Check::EventPart);
    a_refused_by_its_header(&changed_a(12, 63), Check::EventPart);
    a_refused_by_its_header(&changed_a(12, 96), Check::EventPart);
    let too_many = compose(1, &[0; 4_104], &[]);
    a_refused_by_its_header(&too_many, Check::EventPart);
}

#[test]
fn number_7_stamp_part() {
    a_refused_by_its_header(&changed_a(16, 23), Check::StampPart);
    a_refused_by_its_header(&changed_a(16, 117), Check::StampPart);
    a_refused_by_its_header(&changed_a(16, 87), Check::StampPart);
    a_refused_by_its_header(&changed_a(20, 29), Check::StampPart);
    let mut events_start_in_stamps = SHEET_A.to_vec();
    events_start_in_stamps[8] = 52;
    events_start_in_stamps[16] = 25;
    a_refused_by_its_header(&events_start_in_stamps, Check::StampPart);
}

#[test]
fn number_8_list_length() {
    for length in [1, 7, 9, 4_095, 4_097, 4_104] {
        let mut desk = Desk::largest();
        let before = desk.clone();
        let refusal = class(1, &vec![0; length], desk.lend(), &mut [0; 600]);
        assert_eq!(refusal, Err(Check::ListLength.of_no_event()));
        assert_eq!(desk, before);
    }
}

#[test]
fn number_9_each_work_buffer() {
    for short in 0..3 {
        let mut desk = Desk::with_room(3, 8, 0);
        match short {
            0 => desk.clocks.truncate(23),
            1 => desk.masks.truncate(7),
            _ => desk.values.truncate(23),
        }
        let before = desk.clone();
        let expected = Check::WorkLength.of_no_event();
        assert_eq!(read(SHEET_A, desk.lend()), Err(expected));
        assert_eq!(compare(3, list_a(), desk.lend(), 0, 0), Err(expected));
        assert_eq!(desk, before);
    }
    let mut desk = Desk::with_room(3, 8, 0);
    let mut answers = [PRIOR; 7];
    let refusal = class(3, list_a(), desk.lend(), &mut answers);
    assert_eq!(refusal, Err(Check::WorkLength.of_no_event()));
    assert_eq!(desk, Desk::with_room(3, 8, 0));
    assert_eq!(answers, [PRIOR; 7]);
}

fn spoilt(mut event: Event, spoil: impl Fn(&mut Event)) -> Event {
    spoil(&mut event);
    event
}

/// Offers to two processes, after message 1 was received and 2, 3 wait on the way from 0 to 1.
fn offers() -> Vec<(Event, u8)> {
    let internal = Event::internal(0);
    vec![
        (spoilt(internal, |event| event.kind = 3), 10),
        (spoilt(internal, |event| event.kind = 255), 10),
        (Event::internal(2), 11),
        (Event::send(2, 2, 0), 11),
        (spoilt(internal, |event| event.peer = 1), 12),
        (Event::send(0, 2, 0), 12),
        (Event::send(1, 1, 9), 12),
        (Event::receive(1, 1, 2), 12),
        (spoilt(internal, |event| event.spare[0] = 1), 13),
        (spoilt(internal, |event| event.spare[1] = 1), 13),
        (spoilt(internal, |event| event.spare[2] = 1), 13),
        (spoilt(internal, |event| event.message = 256), 13),
        (Event::send(0, 1, 0), 13),
        (Event::receive(1, 0, 0), 13),
        (Event::send(0, 1, 1), 14),
        (Event::send(1, 0, 2), 14),
        (Event::receive(1, 0, 1), 15),
        (Event::receive(1, 0, 9), 15),
        (Event::receive(0, 1, 2), 15),
        (Event::receive(1, 0, 3), 16),
    ]
}

fn prelude() -> Vec<Event> {
    vec![
        Event::send(0, 1, 1),
        Event::receive(1, 0, 1),
        Event::send(0, 1, 2),
        Event::send(0, 1, 3),
    ]
}

#[test]
fn numbers_10_to_16_refuse_a_sheet_at_the_event() {
    for (offer, number) in offers() {
        let mut events = prelude();
        events.push(offer);
        let sheet = compose(2, &list_of(&events), &[]);
        let mut desk = Desk::largest();
        let before = desk.clone();
        let refusal = read(&sheet, desk.lend()).unwrap_err();
        assert_eq!((refusal.check.number(), refusal.position), (number, 4));
        assert_eq!(desk, before.cleared(2, 5));
    }
}

#[test]
fn numbers_10_to_16_answer_an_offer_and_class_mode_goes_on() {
    let mut events = prelude();
    events.extend(offers().into_iter().map(|(offer, _)| offer));
    events.push(Event::receive(1, 0, 2));
    let m = events.len();
    let mut desk = Desk::with_room(2, m, 0);
    let mut answers = vec![PRIOR; m + 1];
    let classed = class(2, &list_of(&events), desk.lend(), &mut answers).unwrap();
    assert_eq!((classed.accepted, classed.entries), (5, 3));
    let mut expected = vec![0; 4];
    expected.extend(offers().into_iter().map(|(_, number)| number));
    expected.extend([0, PRIOR]);
    assert_eq!(answers, expected);
    assert_eq!(desk.clocks[..10], [1, 0, 1, 1, 2, 0, 3, 0, 2, 2]);
    assert!(desk.clocks[10..].iter().all(|slot| *slot == 0));
    assert_eq!(desk.masks[..6], [1, 0, 1, 1, 0, 0]);
}

#[test]
fn a_refused_send_leaves_its_number_free() {
    let refused = spoilt(Event::send(0, 1, 5), |event| event.spare[0] = 1);
    let events = [refused, Event::receive(1, 0, 5), Event::send(0, 1, 5)];
    let mut answers = [PRIOR; 3];
    class(2, &list_of(&events), Desk::largest().lend(), &mut answers).unwrap();
    assert_eq!(answers, [13, 15, 0]);
}

#[test]
fn number_18_stamps_that_end_early_or_differ() {
    let last_send = Check::Stamp.at_event(5);
    for place in 108..116 {
        assert_refused(&changed_a(place, 9), (3, 8), last_send);
    }
    for size in 20..28 {
        assert_refused(&changed_a(20, size), (3, 8), last_send);
    }
    assert_refused(&changed_a(20, 0), (3, 8), Check::Stamp.at_event(0));
    assert_refused(&changed_a(94, 5), (3, 8), Check::Stamp.at_event(1));
}

#[test]
fn number_19_bytes_left_over() {
    let mut sheet = changed_a(20, 29);
    sheet.push(0);
    assert_refused(&sheet, (3, 8), Check::LeftOver.of_no_event());
}

#[test]
fn events_are_judged_before_stamps() {
    let mut sheet = changed_a(88, 7);
    sheet[24 + 7 * 8] = 3;
    assert_refused(&sheet, (3, 8), Check::Kind.at_event(7));
}

#[test]
fn number_20_positions() {
    for (first, second) in [(8, 0), (0, 8), (usize::MAX, 8)] {
        let mut desk = Desk::largest();
        let expected = Err(Check::Position.of_no_event());
        let refusal = compare(3, list_a(), desk.lend(), first, second);
        assert_eq!(refusal, expected);
        assert_eq!(desk, Desk::largest().cleared(3, 8));
        let mut slots = [9];
        let refusal = chain(3, list_a(), desk.lend(), first, second, &mut slots);
        assert_eq!(refusal.map(|_| ()), Err(Check::Position.of_no_event()));
        assert_eq!(slots, [9]);
    }
}

#[test]
fn number_21_outputs() {
    let mut desk = Desk::largest();
    let mut sheet = [PRIOR; 115];
    let refusal = write(3, list_a(), desk.lend(), &mut sheet);
    assert_eq!(refusal, Err(Check::OutputLength.of_no_event()));
    assert_eq!(sheet, [PRIOR; 115]);
    assert_eq!(desk, Desk::largest().cleared(3, 8));
    let mut slots = [u16::from(PRIOR); 3];
    let refusal = chain(3, list_a(), desk.lend(), 1, 7, &mut slots[..1]);
    assert_eq!(refusal, Err(Check::OutputLength.of_no_event()));
    assert_eq!(slots, [u16::from(PRIOR); 3]);
    assert_eq!(chain(3, list_a(), desk.lend(), 1, 7, &mut slots), Ok(2));
    assert_eq!(slots, [1, 5, u16::from(PRIOR)]);
}

#[test]
fn with_one_process_a_chain_needs_no_slot() {
    let alone = list_of(&[Event::internal(0); 2]);
    let length = chain(1, &alone, Desk::largest().lend(), 0, 1, &mut []);
    assert_eq!(length, Ok(0));
}

#[test]
fn number_22_stands_before_21() {
    for (first, second) in [(1, 3), (7, 0), (4, 4)] {
        let mut desk = Desk::largest();
        let refusal = chain(3, list_a(), desk.lend(), first, second, &mut []);
        assert_eq!(refusal, Err(Check::NotBefore.of_no_event()));
        assert_eq!(desk, Desk::largest().cleared(3, 8));
    }
}

#[test]
fn number_4_of_lent_counts_and_clocks() {
    let expected = Check::ProcessCount.of_no_event();
    for n in [0, 33, usize::MAX] {
        let refusal = compare(n, &[1], Desk::largest().lend(), 0, 0);
        assert_eq!(refusal, Err(expected));
    }
    assert_eq!(order(&[], &[]), Err(expected));
    assert_eq!(order(&[0; 33], &[0; 33]), Err(expected));
    assert_eq!(order(&[0; 3], &[0; 4]), Err(expected));
    assert!(order(&[0; 32], &[0; 32]).is_ok());
}

#[test]
fn answers_are_packed_as_the_c_calls_give_them() {
    let mut desk = Desk::largest();
    let read_a = packed::read(SHEET_A, desk.lend());
    assert_eq!(read_a, 256 * 3 + 65_536 * 8 + 4_294_967_296 * 6);
    let refused = packed::read(&changed_a(20, 27), desk.lend());
    assert_eq!(refused, 18 + 65_536 * 5);
    let written = packed::write(3, list_a(), desk.lend(), &mut [0; 116]);
    assert_eq!(written, 65_536 * 8 + 4_294_967_296 * 116);
    let classed = packed::class(3, list_a(), desk.lend(), &mut [0; 8]);
    assert_eq!(classed, 65_536 * 8 + 4_294_967_296 * 6);
    assert_eq!(packed::compare(3, list_a(), desk.lend(), 7, 0), 512);
    let chained = packed::chain(3, list_a(), desk.lend(), 1, 7, &mut [0; 2]);
    assert_eq!(chained, 4_294_967_296 * 2);
    assert_eq!(packed::order(&[1], &[2]), 256);
}
