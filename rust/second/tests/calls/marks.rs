//! Marking a pupil's list.

use crate::desk::{Desk, PRIOR};
use second::calls::{mark, read, Marked};
use second::event::{events_of, Event, RECEIVE, SEND};
use second::examples::{list_a, SHEET_A};
use second::marking::{bytes_of, Line};
use second::sheet::compose;
use second::{packed, Check};

fn line(first: u16, second: u16, verdict: u16) -> Line {
    Line {
        first,
        second,
        verdict,
    }
}

/// The marks on sheet A, in a desk of their own.
fn marks_on_a(lines: &[Line]) -> Vec<u8> {
    let mut marks = vec![PRIOR; lines.len()];
    let marked = mark(
        SHEET_A,
        &bytes_of(lines),
        Desk::largest().lend(),
        &mut marks,
    );
    let expected = Marked {
        total: marks.iter().map(|mark| usize::from(*mark)).sum(),
        lines: lines.len(),
    };
    assert_eq!(marked, Ok(expected));
    marks
}

#[test]
fn right_lines_earn_a_mark() {
    let lines = [line(1, 3, 3), line(1, 7, 1), line(7, 0, 2), line(0, 2, 1)];
    assert_eq!(marks_on_a(&lines), [1, 1, 1, 1]);
}

#[test]
fn wrong_lines_earn_nothing() {
    let lines = [line(1, 3, 1), line(1, 7, 2), line(7, 0, 1), line(0, 2, 3)];
    assert_eq!(marks_on_a(&lines), [0, 0, 0, 0]);
}

#[test]
fn no_known_verdict_earns_nothing() {
    let lines = [0, 4, 5, 255, 257, 65_535].map(|verdict| line(1, 7, verdict));
    assert_eq!(marks_on_a(&lines), [0; 6]);
}

#[test]
fn a_missing_event_earns_nothing() {
    for verdict in 0..=4 {
        let lines = [(8, 0), (0, 8), (8, 8), (256, 7), (65_535, 65_535)]
            .map(|(first, second)| line(first, second, verdict));
        assert_eq!(marks_on_a(&lines), [0; 5]);
    }
}

#[test]
fn an_event_is_the_same_as_itself_and_not_concurrent_with_itself() {
    let lines = [line(4, 4, 3), line(4, 4, 1), line(4, 4, 2), line(4, 4, 4)];
    assert_eq!(marks_on_a(&lines), [0, 0, 0, 1]);
}

/// "A chain step leads from an event to a later event of the same process, or from a send to its receive".
fn is_step(from: &Event, to: &Event) -> bool {
    let is_message = from.kind == SEND && to.kind == RECEIVE && from.message == to.message;
    from.process == to.process || is_message
}

fn leads(events: &[Event], from: usize, to: usize) -> bool {
    (from + 1..=to).any(|next| {
        is_step(&events[from], &events[next]) && (next == to || leads(events, next, to))
    })
}

#[test]
fn the_right_verdict_on_two_events_is_that_of_the_chain_steps() {
    let events: Vec<Event> = events_of(list_a()).collect();
    for first in 0..8 {
        for second in (0..8).filter(|second| *second != first) {
            let right = if leads(&events, first, second) {
                1
            } else if leads(&events, second, first) {
                2
            } else {
                3
            };
            let lines = [1, 2, 3].map(|verdict| line(first as u16, second as u16, verdict));
            let expected = [1, 2, 3].map(|verdict| u8::from(verdict == right));
            assert_eq!(marks_on_a(&lines), expected);
        }
    }
}

#[test]
fn marking_leaves_the_work_of_reading() {
    let mut desk = Desk::with_room(3, 8, 2);
    let mut plain = desk.clone();
    let mut marks = [PRIOR; 3];
    let list = bytes_of(&[line(1, 7, 1)]);
    mark(SHEET_A, &list, desk.lend(), &mut marks).unwrap();
    read(SHEET_A, plain.lend()).unwrap();
    assert_eq!(desk, plain);
    assert_eq!(marks, [1, PRIOR, PRIOR]);
}

#[test]
fn an_empty_list_has_no_marks() {
    assert_eq!(marks_on_a(&[]), []);
}

#[test]
fn events_of_an_empty_sheet_are_missing() {
    let sheet = compose(3, &[], &[]);
    let mut marks = [PRIOR];
    let list = bytes_of(&[line(0, 0, 3)]);
    let marked = mark(&sheet, &list, Desk::largest().lend(), &mut marks);
    assert_eq!(marked, Ok(Marked { total: 0, lines: 1 }));
    assert_eq!(marks, [0]);
}

#[test]
fn number_30_stands_before_the_sheet_and_writes_nothing() {
    let right = bytes_of(&[line(1, 7, 1); 201]);
    for length in [1, 5, 7, 1_199, 1_201, 1_206] {
        for sheet in [&SHEET_A[..], &[]] {
            let mut desk = Desk::largest();
            let mut marks = [PRIOR; 201];
            let marked = mark(sheet, &right[..length], desk.lend(), &mut marks);
            assert_eq!(marked, Err(Check::PupilsLines.of_no_event()));
            assert_eq!(desk, Desk::largest());
            assert_eq!(marks, [PRIOR; 201]);
        }
    }
    assert_eq!(marks_on_a(&[line(1, 7, 1); 200]), [1; 200]);
}

#[test]
fn a_refused_sheet_is_refused_as_in_reading() {
    let mut spoilt = *SHEET_A;
    spoilt[108] = 7;
    let mut desk = Desk::largest();
    let list = bytes_of(&[line(1, 7, 1)]);
    let marked = mark(&spoilt, &list, desk.lend(), &mut []);
    assert_eq!(marked, Err(Check::Stamp.at_event(5)));
    assert_eq!(desk, Desk::largest().cleared(3, 8));
    let short = mark(
        SHEET_A,
        &list,
        Desk::with_room(3, 7, 0).lend(),
        &mut [PRIOR],
    );
    assert_eq!(short, Err(Check::WorkLength.of_no_event()));
}

#[test]
fn number_21_fewer_slots_than_lines() {
    let mut desk = Desk::largest();
    let mut marks = [PRIOR; 1];
    let list = bytes_of(&[line(1, 7, 1); 2]);
    let marked = mark(SHEET_A, &list, desk.lend(), &mut marks);
    assert_eq!(marked, Err(Check::OutputLength.of_no_event()));
    assert_eq!(marks, [PRIOR]);
    assert_eq!(desk, Desk::largest().cleared(3, 8));
}

#[test]
fn the_answer_has_the_total_and_the_lines() {
    let list = bytes_of(&[line(1, 7, 1), line(1, 7, 2), line(7, 0, 2)]);
    let packed = packed::mark(SHEET_A, &list, Desk::largest().lend(), &mut [0; 3]);
    assert_eq!(packed, 65_536 * 2 + 4_294_967_296 * 3);
}
