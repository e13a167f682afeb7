//! The paper's sheet A, list B and settled examples, through the library's safe wrapper and both sides.

use cases::lengths::WorkLengths;
use cases::{Call, Case, ALL_CALLS};
use compare::run;
use oboefinch::{
    chain, class, class_lamport, compare, mark, order, read, read_lamport, savings, write, Refusal,
    Verdict,
};
use second::event::{list_of, Event};
use second::examples::{
    events_of_b, list_a, LAMPORTS_OF_A, PROCESSES_OF_A, PROCESSES_OF_B, SHEET_A,
};
use second::marking::{bytes_of, Line};
use second::sheet::{compose, header_bytes};
use second::text;

const LENT_A_SHEET: [Call; 4] = [Call::Read, Call::ReadLamport, Call::Mark, Call::Savings];

fn refusal(number: u8, position: u16) -> Refusal {
    Refusal { number, position }
}

/// The listing's last fields, as the second program prints them.
fn library_listing(sheet: &[u8]) -> Vec<String> {
    let reading = read(sheet).unwrap();
    let line = |position| {
        let clock = reading.clock(position).iter().map(u16::to_string);
        let components: Vec<String> = clock.collect();
        format!("{} {}", reading.mask(position), components.join(" "))
    };
    (0..reading.events()).map(line).collect()
}

fn agree(case: &Case) {
    if let Err(difference) = run(case) {
        panic!("{case:?}: {}", difference.0);
    }
}

#[test]
fn examples_1_and_2_clocks_and_masks_of_a() {
    let expected = [
        "1 1 0 0", "4 0 0 1", "0 1 1 0", "3 1 2 0", "0 1 3 1", "6 1 4 1", "0 2 2 0", "0 3 4 1",
    ];
    assert_eq!(library_listing(SHEET_A), expected);
    let reading = read(SHEET_A).unwrap();
    assert_eq!((reading.processes(), reading.entries()), (3, 6));
    assert_eq!(reading.values(5), [4, 1]);
    assert_eq!(reading.values(4), [0u16; 0]);
}

#[test]
fn lamport_numbers_of_a() {
    let (reading, of_read) = read_lamport(SHEET_A).unwrap();
    assert_eq!(of_read, LAMPORTS_OF_A);
    assert_eq!(Ok(reading), read(SHEET_A));
    let (classed, of_class) = class_lamport(PROCESSES_OF_A, list_a()).unwrap();
    assert_eq!(of_class, LAMPORTS_OF_A);
    assert_eq!(Ok(classed), class(PROCESSES_OF_A, list_a()));
}

/// A refused offer has no number and leaves the numbers of the others alone.
#[test]
fn lamport_numbers_stand_by_accepted_offers_only() {
    let offers = [
        Event::internal(0),
        Event::send(0, 1, 1),
        Event::receive(1, 0, 2),
        Event::receive(1, 0, 1),
        Event::internal(2),
        Event::internal(0),
    ];
    let (classed, lamports) = class_lamport(2, &list_of(&offers)).unwrap();
    assert_eq!(classed.answers, [0, 0, 15, 0, 11, 0]);
    assert_eq!(lamports, [1, 2, 3, 3]);
}

#[test]
fn both_sides_agree_on_every_room_for_lamport_numbers() {
    for call in [Call::ReadLamport, Call::ClassLamport] {
        for lamports in 0..12 {
            let mut case = case_of_a(call, (0, 0));
            case.lamports = lamports;
            agree(&case);
        }
    }
}

#[test]
fn examples_3_to_6_questions_about_a() {
    let verdict = |first, second| compare(PROCESSES_OF_A, list_a(), first, second);
    assert_eq!(verdict(1, 3), Ok(Verdict::Neither));
    assert_eq!(verdict(1, 7), Ok(Verdict::Before));
    assert_eq!(verdict(7, 0), Ok(Verdict::After));
    assert_eq!(chain(PROCESSES_OF_A, list_a(), 1, 7), Ok(vec![1, 5]));
    assert_eq!(order(&[0, 0, 1], &[1, 2, 0]), Ok(Verdict::Neither));
    assert_eq!(verdict(3, 3), Ok(Verdict::Same));
    assert_eq!(order(&[1, 2, 0], &[1, 2, 0]), Ok(Verdict::Same));
}

#[test]
fn example_7_the_empty_list() {
    assert_eq!(class(3, &[]).unwrap().accepted.events(), 0);
    assert_eq!(read(&compose(3, &[], &[])).unwrap().events(), 0);
}

#[test]
fn examples_8_to_10_refused_events() {
    let sends = [Event::send(0, 1, 1), Event::send(0, 1, 2)];
    let second_first = [sends[0], sends[1], Event::receive(1, 0, 2)];
    let twice = [sends[0], Event::receive(1, 0, 1), Event::receive(1, 0, 1)];
    let to_itself = [Event::send(0, 0, 1)];
    let of = |n, events: &[Event]| write(n, &list_of(events)).unwrap_err();
    assert_eq!(of(2, &second_first), refusal(16, 2));
    assert_eq!(of(2, &twice), refusal(15, 2));
    assert_eq!(of(1, &to_itself), refusal(12, 0));
    assert_eq!(class(2, &list_of(&twice)).unwrap().answers, [0, 0, 15]);
}

#[test]
fn example_11_a_sum_that_wraps() {
    let mut sheet = *SHEET_A;
    sheet[8..12].copy_from_slice(&4_278_190_104u32.to_le_bytes());
    sheet[12..16].copy_from_slice(&16_777_280u32.to_le_bytes());
    assert_eq!(read(&sheet), Err(refusal(6, 0)));
}

#[test]
fn example_12_list_b() {
    let written = write(PROCESSES_OF_B, &list_of(&events_of_b())).unwrap();
    let last_two = [6, 7].map(|position| written.accepted.clock(position).to_vec());
    assert_eq!(last_two, [[5, 2], [5, 3]]);
    assert_eq!(
        [6, 7].map(|position| written.accepted.mask(position)),
        [3, 2]
    );
    assert_eq!(read(&written.sheet).unwrap(), written.accepted);
}

#[test]
fn sheet_a_is_written_byte_for_byte() {
    let written = write(PROCESSES_OF_A, list_a()).unwrap();
    assert_eq!(written.sheet, SHEET_A);
}

#[test]
fn a_list_may_end_at_the_last_byte_and_not_later() {
    let mut sheet = header_bytes(3, &(52..116), &(24..52));
    sheet.extend(&SHEET_A[88..]);
    sheet.extend(list_a());
    assert!(read(&sheet).is_ok());
    sheet[8] += 1;
    assert_eq!(read(&sheet), Err(refusal(6, 0)));
}

#[test]
fn the_most_events_and_processes_and_one_more() {
    let list = |events| list_of(&vec![Event::internal(0); events]);
    assert_eq!(read(&compose(1, &list(512), &[])).unwrap().events(), 512);
    assert_eq!(read(&compose(1, &list(513), &[])), Err(refusal(6, 0)));
    assert_eq!(class(1, &list(512)).unwrap().accepted.clock(511), [512]);
    assert_eq!(class(1, &list(513)), Err(refusal(8, 0)));
    assert!(class(32, &list(1)).is_ok());
    assert_eq!(class(33, &list(1)), Err(refusal(4, 0)));
    assert_eq!(read(&compose(33, &list(1), &[])), Err(refusal(4, 0)));
}

#[test]
fn both_sides_agree_on_every_pair_of_sheet_a() {
    for first in 0..9 {
        for second in 0..9 {
            for call in ALL_CALLS {
                agree(&case_of_a(call, (first, second)));
            }
        }
    }
}

/// Lines with every known verdict and some that are not.
fn every_verdict_on((first, second): (usize, usize)) -> Vec<Line> {
    let line = |verdict| Line {
        first: first as u16,
        second: second as u16,
        verdict,
    };
    [0, 1, 2, 3, 4, 5, 255, 257, 65_535].map(line).to_vec()
}

fn case_of_a(call: Call, positions: (usize, usize)) -> Case {
    let input = match call {
        _ if LENT_A_SHEET.contains(&call) => SHEET_A.to_vec(),
        _ => list_a().to_vec(),
    };
    Case {
        call,
        processes: PROCESSES_OF_A,
        input,
        lines: bytes_of(&every_verdict_on(positions)),
        work: WorkLengths::needed(PROCESSES_OF_A, 8),
        lamports: 10,
        output: 512,
        positions,
        clocks: (vec![1, 0, 0], vec![0, 0, 1]),
    }
}

#[test]
fn both_sides_agree_on_sheet_a_with_each_bit_changed() {
    for place in 0..SHEET_A.len() {
        for bit in 0..8 {
            for call in LENT_A_SHEET {
                let mut case = case_of_a(call, (0, 0));
                case.input[place] ^= 1 << bit;
                case.work = WorkLengths::needed(32, 16);
                agree(&case);
            }
        }
    }
}

#[test]
fn both_sides_agree_on_sheet_a_cut_and_lengthened() {
    for length in 0..160 {
        for call in LENT_A_SHEET {
            let mut case = case_of_a(call, (0, 0));
            case.input.resize(length, 0);
            agree(&case);
        }
    }
}

fn line(first: u16, second: u16, verdict: u16) -> Line {
    Line {
        first,
        second,
        verdict,
    }
}

#[test]
fn a_pupils_list_is_marked_on_a() {
    let lines = [
        line(1, 3, 3),
        line(1, 7, 1),
        line(7, 0, 2),
        line(1, 7, 2),
        line(8, 0, 3),
        line(1, 7, 0),
        line(1, 7, 4),
        line(1, 7, 65_535),
    ];
    let marked = mark(SHEET_A, &bytes_of(&lines)).unwrap();
    assert_eq!(marked.marks, [1, 1, 1, 0, 0, 0, 0, 0]);
    assert_eq!(marked.total, 3);
}

#[test]
fn a_pupils_list_is_looked_at_before_the_sheet() {
    let right = bytes_of(&[line(1, 7, 1); 201]);
    assert_eq!(mark(SHEET_A, &right[..1_200]).unwrap().total, 200);
    assert_eq!(mark(SHEET_A, &[]).unwrap().marks, []);
    for length in [1, 5, 7, 1_199, 1_201, 1_206] {
        assert_eq!(mark(&[], &right[..length]), Err(refusal(30, 0)));
    }
    assert_eq!(mark(&[], &right[..6]), Err(refusal(1, 0)));
}

#[test]
fn both_sides_agree_on_pupils_lists_of_every_length() {
    for length in 0..1_210 {
        let mut case = case_of_a(Call::Mark, (1, 7));
        case.lines.resize(length, 1);
        agree(&case);
    }
}

#[test]
fn both_sides_agree_on_every_room_for_marks() {
    for room in 0..12 {
        let mut case = case_of_a(Call::Mark, (1, 7));
        case.output = room;
        agree(&case);
    }
}

#[test]
fn sheet_a_saves_50_percent() {
    assert_eq!(savings(SHEET_A), Ok(Some(50.0)));
    assert_eq!(text::savings(SHEET_A).output, b"saved 50.00\n");
    assert_eq!(savings(&SHEET_A[..23]), Err(refusal(1, 0)));
}

/// 2 of 3 values are left out, and 200 / 3 is no double.
#[test]
fn a_message_that_is_never_received_counts() {
    let sheet = write(3, &list_of(&[Event::send(0, 1, 1)])).unwrap().sheet;
    assert_eq!(savings(&sheet), Ok(Some(200.0 / 3.0)));
    assert_eq!(text::savings(&sheet).output, b"saved 66.66\n");
}

#[test]
fn a_sheet_without_sends_has_no_messages() {
    for events in [vec![], vec![Event::internal(0), Event::internal(1)]] {
        let sheet = write(2, &list_of(&events)).unwrap().sheet;
        assert_eq!(savings(&sheet), Ok(None));
        assert_eq!(text::savings(&sheet).output, b"no messages\n");
    }
}

#[test]
fn both_sides_agree_on_every_room_for_the_percentage() {
    for room in 0..4 {
        let mut case = case_of_a(Call::Savings, (0, 0));
        case.output = room;
        agree(&case);
    }
}

#[test]
fn a_refusal_reads_as_the_programs_print_it() {
    let spoilt = &SHEET_A[..23];
    let printed = text::listing(&[], spoilt).output;
    let refusal = read(spoilt).unwrap_err();
    let line = format!("refused {} at {}\n", refusal.number, refusal.position);
    assert_eq!(printed, line.as_bytes());
    assert!(refusal.to_string().contains("shorter than 24"));
}
