//! Lamport numbers beside the accepted events.

use crate::desk::{Desk, PRIOR};
use second::calls::{class, class_lamport, read, read_lamport};
use second::clock::is_below;
use second::event::{list_of, Event};
use second::examples::{
    events_of_b, list_a, LAMPORTS_OF_A, PROCESSES_OF_A, PROCESSES_OF_B, SHEET_A,
};
use second::judge::whole_list;
use second::Check;

const OLD: u16 = PRIOR as u16;

#[test]
fn sheet_a_has_its_lamport_numbers() {
    let mut desk = Desk::with_room(3, 8, 2);
    let mut plain = desk.clone();
    let mut lamports = [OLD; 10];
    let reading = read_lamport(SHEET_A, desk.lend(), &mut lamports);
    assert_eq!(lamports[..8], LAMPORTS_OF_A);
    assert_eq!(lamports[8..], [OLD; 2]);
    assert_eq!(reading, read(SHEET_A, plain.lend()));
    assert_eq!(desk, plain);
}

/// By hand: five events of process 0, whose send is the fifth; the receive is one more than the larger of 0 and 5.
#[test]
fn list_b_has_its_lamport_numbers() {
    let mut lamports = [OLD; 8];
    let list = list_of(&events_of_b());
    let mut desk = Desk::largest();
    class_lamport(
        PROCESSES_OF_B,
        &list,
        desk.lend(),
        &mut [0; 8],
        &mut lamports,
    )
    .unwrap();
    assert_eq!(lamports, [1, 2, 3, 4, 5, 6, 7, 8]);
}

#[test]
fn a_receive_keeps_its_own_number_where_that_is_larger() {
    let events = [
        Event::send(0, 1, 1),
        Event::internal(1),
        Event::internal(1),
        Event::internal(1),
        Event::receive(1, 0, 1),
    ];
    let lamports: Vec<u16> = whole_list(2, &list_of(&events))
        .unwrap()
        .iter()
        .map(|one| one.lamport)
        .collect();
    assert_eq!(lamports, [1, 1, 2, 3, 4]);
}

#[test]
fn the_lower_clock_has_the_smaller_number() {
    let accepted = whole_list(PROCESSES_OF_A, list_a()).unwrap();
    for first in &accepted {
        for second in &accepted {
            if is_below(&first.clock, &second.clock) {
                assert!(first.lamport < second.lamport);
            }
        }
    }
}

#[test]
fn class_gives_numbers_to_accepted_offers_only() {
    let offers = [
        Event::internal(2),
        Event::send(0, 1, 1),
        Event::receive(1, 0, 7),
        Event::receive(1, 0, 1),
    ];
    let list = list_of(&offers);
    let mut desk = Desk::with_room(2, 4, 0);
    let mut plain = desk.clone();
    let mut lamports = [OLD; 5];
    let mut answers = [PRIOR; 4];
    let classed = class_lamport(2, &list, desk.lend(), &mut answers, &mut lamports);
    assert_eq!(lamports, [1, 2, 0, 0, OLD]);
    assert_eq!(answers, [11, 0, 15, 0]);
    assert_eq!(classed, class(2, &list, plain.lend(), &mut answers));
    assert_eq!(desk, plain);
}

#[test]
fn number_9_covers_the_lamport_numbers_too() {
    let expected = Check::WorkLength.of_no_event();
    let mut desk = Desk::with_room(3, 8, 0);
    let mut lamports = [OLD; 7];
    let mut answers = [PRIOR; 8];
    let reading = read_lamport(SHEET_A, desk.lend(), &mut lamports);
    assert_eq!(reading, Err(expected));
    let classed = class_lamport(3, list_a(), desk.lend(), &mut answers, &mut lamports);
    assert_eq!(classed, Err(expected));
    assert_eq!(desk, Desk::with_room(3, 8, 0));
    assert_eq!((lamports, answers), ([OLD; 7], [PRIOR; 8]));
}

#[test]
fn a_short_answers_buffer_leaves_the_lamport_numbers() {
    let mut lamports = [OLD; 8];
    let mut desk = Desk::with_room(3, 8, 0);
    let classed = class_lamport(3, list_a(), desk.lend(), &mut [0; 7], &mut lamports);
    assert_eq!(classed, Err(Check::WorkLength.of_no_event()));
    assert_eq!(lamports, [OLD; 8]);
}

#[test]
fn a_later_refusal_clears_the_named_lamport_numbers() {
    let mut spoilt = *SHEET_A;
    spoilt[108] = 7;
    let mut lamports = [OLD; 9];
    let mut desk = Desk::with_room(3, 8, 1);
    let reading = read_lamport(&spoilt, desk.lend(), &mut lamports);
    assert_eq!(reading, Err(Check::Stamp.at_event(5)));
    assert_eq!(lamports, [0, 0, 0, 0, 0, 0, 0, 0, OLD]);
    assert_eq!(desk, Desk::with_room(3, 8, 1).cleared(3, 8));
}

#[test]
fn an_earlier_refusal_leaves_the_lamport_numbers() {
    let mut lamports = [OLD; 8];
    let reading = read_lamport(&SHEET_A[..23], Desk::largest().lend(), &mut lamports);
    assert_eq!(reading, Err(Check::SheetLength.of_no_event()));
    assert_eq!(lamports, [OLD; 8]);
}
