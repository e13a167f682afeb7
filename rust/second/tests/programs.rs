//! What the seven programs print.

use second::event::{list_of, Event};
use second::examples::{list_a, LAMPORTS_OF_A, LISTING_OF_A, SHEET_A};
use second::marking::{bytes_of, Line};
use second::text::{chain, class, compare, listing, marker, savings, write, Printed};

fn on_output(text: &str) -> Printed {
    Printed {
        output: text.as_bytes().to_vec(),
        error: Vec::new(),
    }
}

fn on_error(text: &str) -> Printed {
    Printed {
        output: Vec::new(),
        error: text.as_bytes().to_vec(),
    }
}

#[test]
fn listing_prints_the_listing_or_the_refusal() {
    assert_eq!(listing(&[], SHEET_A), on_output(LISTING_OF_A));
    assert_eq!(listing(&[], &[]), on_output("refused 1 at 0\n"));
    assert_eq!(listing(&[], &[0; 40_961]), on_output("refused 1 at 0\n"));
    let mut spoilt = *SHEET_A;
    spoilt[108] = 7;
    assert_eq!(listing(&[], &spoilt), on_output("refused 18 at 5\n"));
}

#[test]
fn listing_lamport_adds_a_last_field() {
    let mut expected = String::new();
    let mut fields = LAMPORTS_OF_A.iter();
    for (place, line) in LISTING_OF_A.lines().enumerate() {
        expected += line;
        if place > 0 {
            expected += &format!(" {}", fields.next().unwrap());
        }
        expected += "\n";
    }
    assert!(expected.ends_with("7 R 0 1 4 0 3 4 1 6\n"));
    assert_eq!(listing(&["lamport"], SHEET_A), on_output(&expected));
    let refused = on_output("refused 1 at 0\n");
    assert_eq!(listing(&["lamport"], &[]), refused);
    for word in ["", "Lamport", "lamports", "0"] {
        let usage = on_error("usage: listing [lamport]\n");
        assert_eq!(listing(&[word], SHEET_A), usage);
    }
}

#[test]
fn compare_prints_the_verdicts_number() {
    assert_eq!(compare(&["1", "3"], SHEET_A), on_output("3\n"));
    assert_eq!(compare(&["00001", "7"], SHEET_A), on_output("1\n"));
    assert_eq!(compare(&["7", "0"], SHEET_A), on_output("2\n"));
    let out_of_range = compare(&["8", "0"], SHEET_A);
    assert_eq!(out_of_range, on_output("refused 20 at 0\n"));
    let not_a_sheet = compare(&["99999", "0"], &[]);
    assert_eq!(not_a_sheet, on_output("refused 1 at 0\n"));
}

#[test]
fn chain_prints_positions_on_one_line() {
    assert_eq!(chain(&["1", "7"], SHEET_A), on_output("1 5\n"));
    assert_eq!(chain(&["0", "7"], SHEET_A), on_output("\n"));
    assert_eq!(chain(&["1", "3"], SHEET_A), on_output("refused 22 at 0\n"));
}

#[test]
fn class_prints_a_line_for_each_offer() {
    let events = [
        Event::receive(1, 0, 1),
        Event::send(0, 1, 1),
        Event::internal(2),
        Event::receive(1, 0, 1),
        Event::internal(1),
    ];
    let expected = "offers 5 processes 2 accepted 3 entries 1\n\
                    0 refused 15\n\
                    1 S 0 1 1 1 1 0\n\
                    2 refused 11\n\
                    3 R 1 0 1 0 1 1\n\
                    4 I 1 0 0 0 1 2\n";
    assert_eq!(class(&["2"], &list_of(&events)), on_output(expected));
    assert_eq!(
        class(&["3"], &[]),
        on_output("offers 0 processes 3 accepted 0 entries 0\n")
    );
    assert_eq!(class(&["0"], &[]), on_output("refused 4 at 0\n"));
    assert_eq!(class(&["2"], &[0; 4_097]), on_output("refused 8 at 0\n"));
}

#[test]
fn write_puts_the_sheet_on_output_and_refusals_on_error() {
    let sheet = write(&["3"], list_a());
    assert_eq!(sheet.output, SHEET_A);
    assert!(sheet.error.is_empty());
    assert_eq!(write(&["33"], list_a()), on_error("refused 4 at 0\n"));
    assert_eq!(write(&["3"], &[0; 9]), on_error("refused 8 at 0\n"));
    assert_eq!(write(&["2"], list_a()), on_error("refused 11 at 1\n"));
}

#[test]
fn marker_prints_each_mark_and_the_total() {
    let list = bytes_of(&[
        Line {
            first: 1,
            second: 7,
            verdict: 1,
        },
        Line {
            first: 1,
            second: 7,
            verdict: 2,
        },
    ]);
    let marked = on_output("0 1\n1 0\ntotal 1 of 2\n");
    assert_eq!(marker(Some(&list), SHEET_A), marked);
    let no_lines = on_output("total 0 of 0\n");
    assert_eq!(marker(Some(&[]), SHEET_A), no_lines);
    assert_eq!(marker(Some(&[0]), &[]), on_output("refused 30 at 0\n"));
    assert_eq!(marker(Some(&list), &[]), on_output("refused 1 at 0\n"));
    assert_eq!(marker(None, SHEET_A), on_error("usage: marker FILE\n"));
}

#[test]
fn savings_prints_whole_hundredths() {
    assert_eq!(savings(SHEET_A), on_output("saved 50.00\n"));
    let one_send = write(&["3"], &list_of(&[Event::send(0, 1, 1)])).output;
    assert_eq!(savings(&one_send), on_output("saved 66.66\n"));
    let no_sends = write(&["3"], &list_of(&[Event::internal(2)])).output;
    assert_eq!(savings(&no_sends), on_output("no messages\n"));
    assert_eq!(savings(&[]), on_output("refused 1 at 0\n"));
}

#[test]
fn arguments_are_looked_at_before_the_input() {
    let wrong: [&[&str]; 6] = [
        &[],
        &[""],
        &["+1", "2"],
        &["000001", "2"],
        &["1 ", "2"],
        &["-1", "2"],
    ];
    for arguments in wrong {
        for printed in [
            compare(arguments, &[]),
            chain(arguments, &[]),
            class(arguments, &[]),
            write(arguments, &[]),
        ] {
            assert!(printed.output.is_empty());
            assert!(printed.error.starts_with(b"usage: "));
            assert!(printed.error.ends_with(b"\n"));
        }
    }
    assert!(compare(&["1"], SHEET_A).error.starts_with(b"usage: "));
}
