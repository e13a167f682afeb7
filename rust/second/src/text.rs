//! What the seven programs print, given their arguments and standard input.

use crate::calls::count_lent_events;
use crate::event::{RECEIVE, SEND};
use crate::judge::{carried_values, each_offer, only_accepted, whole_list};
use crate::machine::Accepted;
use crate::marking::{lines_of, marks_of, total};
use crate::saving::Counts;
use crate::sheet::{compose, judge_parts, stamp_bytes, Header};
use crate::{questions, Check, Refusal};

#[derive(Clone, Debug, Default, PartialEq, Eq)]
pub struct Printed {
    pub output: Vec<u8>,
    pub error: Vec<u8>,
}

/// The word `lamport` asks for each event's Lamport number as a last field.
pub fn listing(arguments: &[&str], input: &[u8]) -> Printed {
    let line = match arguments.first() {
        None => event_line,
        Some(&"lamport") => event_line_with_lamport,
        Some(_) => return usage("listing [lamport]"),
    };
    text_or_refusal(read_sheet(input).map(|(n, accepted)| listing_text(n, &accepted, line)))
}

pub fn compare(arguments: &[&str], input: &[u8]) -> Printed {
    let Some((first, second)) = two_numbers(arguments) else {
        return usage("compare FIRST SECOND");
    };
    let verdict =
        read_sheet(input).and_then(|(_, accepted)| questions::compare(&accepted, first, second));
    text_or_refusal(verdict.map(|verdict| format!("{}\n", verdict as u8)))
}

pub fn chain(arguments: &[&str], input: &[u8]) -> Printed {
    let Some((first, second)) = two_numbers(arguments) else {
        return usage("chain FIRST SECOND");
    };
    let sends =
        read_sheet(input).and_then(|(_, accepted)| questions::chain(&accepted, first, second));
    text_or_refusal(sends.map(|sends| {
        let positions: Vec<String> = sends.iter().map(usize::to_string).collect();
        format!("{}\n", positions.join(" "))
    }))
}

pub fn class(arguments: &[&str], input: &[u8]) -> Printed {
    let Some(n) = number_at(arguments, 0) else {
        return usage("class PROCESSES");
    };
    text_or_refusal(count_lent_events(n, input).map(|_| class_text(n, input)))
}

/// The only program whose refusals go to standard error.
pub fn write(arguments: &[&str], input: &[u8]) -> Printed {
    let Some(n) = number_at(arguments, 0) else {
        return usage("write PROCESSES");
    };
    match count_lent_events(n, input).and_then(|_| whole_list(n, input)) {
        Ok(accepted) => Printed {
            output: compose(n, input, &stamp_bytes(&accepted)),
            error: Vec::new(),
        },
        Err(refusal) => on_standard_error(refusal_line(refusal)),
    }
}

/// `list` is what the named file holds; none where no file is named or it can't be read.
pub fn marker(list: Option<&[u8]>, input: &[u8]) -> Printed {
    let Some(list) = list else {
        return usage("marker FILE");
    };
    let marks = lines_of(list).and_then(|lines| {
        let (_, accepted) = read_sheet(input)?;
        Ok(marks_of(&lines, &accepted))
    });
    text_or_refusal(marks.map(|marks| marks_text(&marks)))
}

pub fn savings(input: &[u8]) -> Printed {
    let counts = read_sheet(input).map(|(n, accepted)| Counts::of(n, &accepted));
    text_or_refusal(counts.map(|counts| match counts.hundredths() {
        None => "no messages\n".to_string(),
        Some(hundredths) => format!("saved {}.{:02}\n", hundredths / 100, hundredths % 100),
    }))
}

/// Reading without work buffers, so that check 9 cannot arise.
fn read_sheet(input: &[u8]) -> Result<(usize, Vec<Accepted>), Refusal> {
    let header = Header::of(input).map_err(Check::of_no_event)?;
    let accepted = judge_parts(input, &header)?;
    Ok((header.processes, accepted))
}

fn listing_text(n: usize, accepted: &[Accepted], line: EventLine) -> String {
    let entries = carried_values(accepted).len();
    let events = accepted.len();
    let mut text = format!("events {events} processes {n} entries {entries}\n");
    for (position, one) in accepted.iter().enumerate() {
        text += &line(position, n, one);
        text += "\n";
    }
    text
}

fn class_text(n: usize, list: &[u8]) -> String {
    let offers = each_offer(n, list);
    let accepted = only_accepted(&offers);
    let mut text = format!(
        "offers {} processes {n} accepted {} entries {}\n",
        offers.len(),
        accepted.len(),
        carried_values(&accepted).len()
    );
    for (position, offer) in offers.iter().enumerate() {
        text += &match offer {
            Ok(one) => event_line(position, n, one),
            Err(check) => format!("{position} refused {}", check.number()),
        };
        text += "\n";
    }
    text
}

/// "a line `P M` for each line of the list (its place from 0, its mark), then `total T of L`".
fn marks_text(marks: &[u8]) -> String {
    let mut text = String::new();
    for (place, mark) in marks.iter().enumerate() {
        text += &format!("{place} {mark}\n");
    }
    text + &format!("total {} of {}\n", total(marks), marks.len())
}

type EventLine = fn(usize, usize, &Accepted) -> String;

/// "Fields: position, kind (I, S, R), process, peer, message, mask, then the n components."
fn event_line(position: usize, n: usize, one: &Accepted) -> String {
    let kind = match one.event.kind {
        SEND => 'S',
        RECEIVE => 'R',
        _ => 'I',
    };
    let event = &one.event;
    let mut line = format!(
        "{position} {kind} {} {} {} {}",
        event.process, event.peer, event.message, one.stamp.mask
    );
    for component in &one.clock[..n] {
        line += &format!(" {component}");
    }
    line
}

fn event_line_with_lamport(position: usize, n: usize, one: &Accepted) -> String {
    format!("{} {}", event_line(position, n, one), one.lamport)
}

fn refusal_line(refusal: Refusal) -> String {
    format!(
        "refused {} at {}\n",
        refusal.check.number(),
        refusal.position
    )
}

fn text_or_refusal(text: Result<String, Refusal>) -> Printed {
    Printed {
        output: text.unwrap_or_else(refusal_line).into_bytes(),
        error: Vec::new(),
    }
}

fn usage(form: &str) -> Printed {
    on_standard_error(format!("usage: {form}\n"))
}

fn on_standard_error(line: String) -> Printed {
    Printed {
        output: Vec::new(),
        error: line.into_bytes(),
    }
}

fn two_numbers(arguments: &[&str]) -> Option<(usize, usize)> {
    Some((number_at(arguments, 0)?, number_at(arguments, 1)?))
}

/// "no decimal number of 1 to 5 digits (leading zeros count as digits)".
fn number_at(arguments: &[&str], place: usize) -> Option<usize> {
    let digits = arguments.get(place)?;
    let is_decimal = digits.bytes().all(|byte| byte.is_ascii_digit());
    if !is_decimal || !(1..=5).contains(&digits.len()) {
        return None;
    }
    digits.parse().ok()
}
