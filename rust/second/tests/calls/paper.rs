//! Sheet A, list B and the settled examples of the paper.

use crate::desk::{Desk, PRIOR};
use second::calls::{chain, class, compare, order, read, write, Reading, Written};
use second::clock::Verdict;
use second::event::{list_of, Event};
use second::examples::{
    events_of_b, list_a, LISTING_OF_A, PROCESSES_OF_A, PROCESSES_OF_B, SHEET_A,
};
use second::sheet::{compose, header_bytes};
use second::{text, Check, Refusal};

const CLOCKS_OF_A: [u16; 24] = [
    1, 0, 0, 0, 0, 1, 1, 1, 0, 1, 2, 0, 1, 3, 1, 1, 4, 1, 2, 2, 0, 3, 4, 1,
];
const MASKS_OF_A: [u32; 8] = [1, 4, 0, 3, 0, 6, 0, 0];
const VALUES_OF_A: [u16; 6] = [1, 1, 1, 2, 4, 1];

fn read_refusal(sheet: &[u8]) -> Refusal {
    read(sheet, Desk::largest().lend()).unwrap_err()
}

fn list_refusal(n: usize, events: &[Event]) -> Refusal {
    compare(n, &list_of(events), Desk::largest().lend(), 0, 0).unwrap_err()
}

fn verdict_on_a(first: usize, second: usize) -> Verdict {
    compare(
        PROCESSES_OF_A,
        list_a(),
        Desk::largest().lend(),
        first,
        second,
    )
    .unwrap()
}

fn chain_of(n: usize, list: &[u8], first: usize, second: usize) -> Vec<u16> {
    let mut slots = vec![0; n - 1];
    let length = chain(n, list, Desk::largest().lend(), first, second, &mut slots).unwrap();
    slots.truncate(length);
    slots
}

#[test]
fn sheet_a_is_read_with_its_clocks_masks_and_values() {
    let mut desk = Desk::with_room(3, 8, 2);
    let reading = read(SHEET_A, desk.lend()).unwrap();
    let expected = Reading {
        processes: 3,
        events: 8,
        entries: 6,
    };
    assert_eq!(reading, expected);
    assert_eq!(desk.clocks[..24], CLOCKS_OF_A);
    assert_eq!(desk.masks[..8], MASKS_OF_A);
    assert_eq!(desk.values[..6], VALUES_OF_A);
    assert!(desk.values[6..24].iter().all(|value| *value == 0));
    assert_eq!(desk.clocks[24..], [u16::from(PRIOR); 2]);
    assert_eq!(desk.masks[8..], [u32::from(PRIOR); 2]);
    assert_eq!(desk.values[24..], [u16::from(PRIOR); 2]);
}

#[test]
fn sheet_a_is_written_byte_for_byte() {
    let mut desk = Desk::with_room(3, 8, 0);
    let mut sheet = vec![PRIOR; 120];
    let written = write(PROCESSES_OF_A, list_a(), desk.lend(), &mut sheet).unwrap();
    let expected = Written {
        events: 8,
        bytes: 116,
    };
    assert_eq!(written, expected);
    assert_eq!(sheet[..116], SHEET_A[..]);
    assert_eq!(sheet[116..], [PRIOR; 4]);
    assert_eq!(desk.clocks, CLOCKS_OF_A);
}

#[test]
fn sheet_a_is_listed_byte_for_byte() {
    let printed = text::listing(&[], SHEET_A);
    assert_eq!(printed.output, LISTING_OF_A.as_bytes());
    assert!(printed.error.is_empty());
}

#[test]
fn events_of_a_are_compared() {
    assert_eq!(verdict_on_a(1, 3), Verdict::Neither);
    assert_eq!(verdict_on_a(1, 7), Verdict::FirstBelow);
    assert_eq!(verdict_on_a(7, 0), Verdict::SecondBelow);
    for position in 0..8 {
        assert_eq!(verdict_on_a(position, position), Verdict::Same);
    }
}

#[test]
fn the_chain_from_1_to_7_is_1_and_5() {
    assert_eq!(chain_of(PROCESSES_OF_A, list_a(), 1, 7), [1, 5]);
    assert_eq!(chain_of(PROCESSES_OF_A, list_a(), 0, 7), [0u16; 0]);
    assert_eq!(chain_of(PROCESSES_OF_A, list_a(), 0, 2), [0]);
    assert_eq!(chain_of(PROCESSES_OF_A, list_a(), 3, 6), [3]);
}

#[test]
fn the_empty_list_has_no_clocks() {
    let mut desk = Desk::with_room(3, 0, 4);
    let before = desk.clone();
    let mut answers = [];
    let classed = class(3, &[], desk.lend(), &mut answers).unwrap();
    assert_eq!((classed.accepted, classed.entries), (0, 0));
    assert_eq!(desk, before);
    let sheet = compose(3, &[], &[]);
    assert_eq!(sheet.len(), 24);
    let reading = read(&sheet, desk.lend()).unwrap();
    assert_eq!((reading.events, reading.entries), (0, 0));
    assert_eq!(desk, before);
}

#[test]
fn a_number_received_before_an_older_one_is_16() {
    let events = [
        Event::send(0, 1, 1),
        Event::send(0, 1, 2),
        Event::receive(1, 0, 2),
    ];
    assert_eq!(list_refusal(2, &events), Check::NotInFront.at_event(2));
}

#[test]
fn a_number_received_twice_is_15() {
    let events = [
        Event::send(0, 1, 1),
        Event::receive(1, 0, 1),
        Event::receive(1, 0, 1),
    ];
    assert_eq!(list_refusal(2, &events), Check::NotWaiting.at_event(2));
}

#[test]
fn one_process_sending_to_0_is_12() {
    let events = [Event::send(0, 0, 1)];
    assert_eq!(list_refusal(1, &events), Check::Peer.at_event(0));
}

#[test]
fn an_offset_and_size_whose_sum_wraps_to_88_is_6() {
    let mut sheet = *SHEET_A;
    sheet[8..12].copy_from_slice(&4_278_190_104u32.to_le_bytes());
    sheet[12..16].copy_from_slice(&16_777_280u32.to_le_bytes());
    assert_eq!(4_278_190_104u32.wrapping_add(16_777_280), 88);
    assert_eq!(read_refusal(&sheet), Check::EventPart.of_no_event());
}

#[test]
fn list_b_has_its_clocks_and_masks() {
    let list = list_of(&events_of_b());
    let mut desk = Desk::with_room(PROCESSES_OF_B, 8, 0);
    let mut sheet = vec![0; 200];
    write(PROCESSES_OF_B, &list, desk.lend(), &mut sheet).unwrap();
    assert_eq!(desk.clocks[12..], [5, 2, 5, 3]);
    assert_eq!(desk.masks[6..], [3, 2]);
}

/// The stamps stand first so that the event list can end at the sheet's last byte.
fn a_with_events_last() -> Vec<u8> {
    let mut sheet = header_bytes(3, &(52..116), &(24..52));
    sheet.extend(&SHEET_A[88..116]);
    sheet.extend(list_a());
    sheet
}

#[test]
fn an_event_list_may_end_at_the_last_byte_and_not_later() {
    let mut sheet = a_with_events_last();
    assert!(read(&sheet, Desk::largest().lend()).is_ok());
    sheet[8] += 1;
    assert_eq!(read_refusal(&sheet), Check::EventPart.of_no_event());
}

#[test]
fn five_hundred_and_twelve_events_and_no_more() {
    let most = list_of(&[Event::internal(0); 512]);
    let one_more = list_of(&[Event::internal(0); 513]);
    let reading = read(&compose(1, &most, &[]), Desk::largest().lend()).unwrap();
    assert_eq!(reading.events, 512);
    let refusal = read_refusal(&compose(1, &one_more, &[]));
    assert_eq!(refusal, Check::EventPart.of_no_event());
    assert_eq!(
        compare(1, &most, Desk::largest().lend(), 0, 511),
        Ok(Verdict::FirstBelow)
    );
    assert_eq!(
        compare(1, &one_more, Desk::largest().lend(), 0, 511),
        Err(Check::ListLength.of_no_event())
    );
}

#[test]
fn thirty_two_processes_and_no_more() {
    let list = list_of(&[Event::internal(31), Event::send(31, 0, 65_535)]);
    let mut desk = Desk::largest();
    let mut sheet = vec![0; 100];
    let written = write(32, &list, desk.lend(), &mut sheet).unwrap();
    assert_eq!(desk.masks[1], 1 << 31);
    assert_eq!(desk.clocks[63], 2);
    sheet.truncate(written.bytes);
    assert!(read(&sheet, desk.lend()).is_ok());
    sheet[3] = 33;
    assert_eq!(read_refusal(&sheet), Check::ProcessCount.of_no_event());
    let refusal = write(33, &list, desk.lend(), &mut sheet).unwrap_err();
    assert_eq!(refusal, Check::ProcessCount.of_no_event());
}

#[test]
fn bytes_in_neither_part_alter_no_answer() {
    let mut sheet = header_bytes(3, &(60..124), &(27..55));
    sheet.extend([0xff; 3]);
    sheet.extend(&SHEET_A[88..116]);
    sheet.extend([0xff; 5]);
    sheet.extend(list_a());
    sheet.extend([0xff; 7]);
    assert_eq!(text::listing(&[], &sheet).output, LISTING_OF_A.as_bytes());
}

#[test]
fn an_empty_part_shares_no_byte() {
    let list = list_of(&[Event::internal(0)]);
    let mut sheet = header_bytes(1, &(24..32), &(28..28));
    sheet.extend(&list);
    assert!(read(&sheet, Desk::largest().lend()).is_ok());
    let only_header = header_bytes(1, &(24..24), &(24..24));
    assert!(read(&only_header, Desk::largest().lend()).is_ok());
}

#[test]
fn lent_clocks_are_ordered() {
    assert_eq!(order(&[1, 2], &[1, 3]), Ok(Verdict::FirstBelow));
    assert_eq!(order(&[1, 3], &[1, 2]), Ok(Verdict::SecondBelow));
    assert_eq!(order(&[0, 9], &[1, 3]), Ok(Verdict::Neither));
    assert_eq!(order(&[4, 4], &[4, 4]), Ok(Verdict::Same));
}
