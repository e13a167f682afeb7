//! What the short stamps of a sheet saved.

use crate::desk::Desk;
use second::calls::{read, savings};
use second::event::{list_of, Event};
use second::examples::SHEET_A;
use second::judge::whole_list;
use second::sheet::{compose, stamp_bytes};
use second::{packed, Check};

const PRIOR_PERCENT: f64 = -1.5;

fn sheet_of(n: usize, events: &[Event]) -> Vec<u8> {
    let list = list_of(events);
    let stamps = stamp_bytes(&whole_list(n, &list).unwrap());
    compose(n, &list, &stamps)
}

/// What is told, and what the first of two slots holds afterwards; the second slot stays.
fn told(sheet: &[u8]) -> (Option<f64>, f64) {
    let mut percent = [PRIOR_PERCENT; 2];
    let saved = savings(sheet, Desk::largest().lend(), &mut percent).unwrap();
    assert_eq!(percent[1], PRIOR_PERCENT);
    (saved, percent[0])
}

#[test]
fn sheet_a_gives_50() {
    assert_eq!(told(SHEET_A), (Some(50.0), 50.0));
}

#[test]
fn no_messages_leave_the_slot() {
    let silent = sheet_of(2, &[Event::internal(0), Event::internal(1)]);
    for sheet in [silent, sheet_of(32, &[])] {
        assert_eq!(told(&sheet), (None, PRIOR_PERCENT));
    }
}

#[test]
fn sends_count_and_receives_do_not() {
    let sends = [Event::send(0, 1, 1), Event::send(0, 1, 2)];
    let received = [sends[0], sends[1], Event::receive(1, 0, 1)];
    assert_eq!(told(&sheet_of(4, &sends)), (Some(75.0), 75.0));
    assert_eq!(told(&sheet_of(4, &received)), (Some(75.0), 75.0));
}

#[test]
fn the_work_is_that_of_reading() {
    let mut desk = Desk::with_room(3, 8, 2);
    let mut plain = desk.clone();
    savings(SHEET_A, desk.lend(), &mut [0.0]).unwrap();
    read(SHEET_A, plain.lend()).unwrap();
    assert_eq!(desk, plain);
}

#[test]
fn number_21_where_there_is_no_slot_whichever_it_would_be() {
    let silent = sheet_of(3, &[Event::internal(0); 8]);
    for sheet in [&SHEET_A[..], &silent] {
        let mut desk = Desk::largest();
        let saved = savings(sheet, desk.lend(), &mut []);
        assert_eq!(saved, Err(Check::OutputLength.of_no_event()));
        assert_eq!(desk, Desk::largest().cleared(3, 8));
    }
}

#[test]
fn a_refused_sheet_is_refused_as_in_reading() {
    let mut spoilt = *SHEET_A;
    spoilt[108] = 7;
    let mut percent = [PRIOR_PERCENT];
    let saved = savings(&spoilt, Desk::largest().lend(), &mut percent);
    assert_eq!(saved, Err(Check::Stamp.at_event(5)));
    assert_eq!(percent, [PRIOR_PERCENT]);
    let short = savings(SHEET_A, Desk::with_room(3, 7, 0).lend(), &mut []);
    assert_eq!(short, Err(Check::WorkLength.of_no_event()));
}

#[test]
fn the_answer_says_whether_there_is_a_percentage() {
    let answer = |sheet: &[u8]| packed::savings(sheet, Desk::largest().lend(), &mut [0.0]);
    assert_eq!(answer(SHEET_A), 256);
    assert_eq!(answer(&sheet_of(3, &[])), 0);
}
