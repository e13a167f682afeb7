//! A refusal in words.

use std::fmt;

/// A refusal number of the paper's table, and the event's position where an event is refused.
#[derive(Clone, Copy, Debug, PartialEq, Eq)]
pub struct Refusal {
    pub number: u8,
    pub position: u16,
}

impl Refusal {
    /// Whether the number speaks of one event, so that the position says which.
    fn is_of_an_event(&self) -> bool {
        matches!(self.number, 10..=16 | 18)
    }
}

fn sentence(number: u8) -> &'static str {
    match number {
        1 => "the sheet is shorter than 24 or longer than 40,960 bytes",
        2 => "the sheet does not begin with the letters CKT",
        3 => "the sheet's version is not 1",
        4 => "the process count is not from 1 to 32, or two clocks differ in length",
        5 => "byte 6 or 7 of the sheet is not zero",
        6 => "the event list does not lie in the sheet as a list must",
        7 => "the stamps do not lie in the sheet or share a byte with the events",
        8 => "the list's length is not a multiple of 8 or is over 4,096",
        9 => "a work buffer is too short",
        10 => "the kind is above 2",
        11 => "the process is not below the process count",
        12 => "the peer is not one this event can have",
        13 => "a spare byte is not zero, or the message number is not one this event can have",
        14 => "the message number was used by an earlier send",
        15 => "no such message is on its way from that sender to this process",
        16 => "an older message on the same channel is not yet received",
        18 => "the recorded stamp ends early or differs from the right one",
        19 => "bytes are left over after the last stamp",
        20 => "an asked position is not below the event count",
        21 => "the output is too short",
        22 => "the first event is not before the second",
        30 => "the pupil's list is not whole lines or has more than 200",
        _ => "the library gave a number that the table does not have",
    }
}

impl fmt::Display for Refusal {
    fn fmt(&self, f: &mut fmt::Formatter<'_>) -> fmt::Result {
        write!(f, "refused {}: {}", self.number, sentence(self.number))?;
        if self.is_of_an_event() {
            write!(f, " (event {})", self.position)?;
        }
        Ok(())
    }
}

impl std::error::Error for Refusal {}

#[cfg(test)]
mod tests {
    use super::*;

    #[test]
    fn each_number_of_the_table_has_its_own_sentence() {
        let used = (1..=22).filter(|number| *number != 17).chain([30]);
        let sentences: std::collections::BTreeSet<&str> = used.map(sentence).collect();
        assert_eq!(sentences.len(), 22);
        assert!(!sentences.contains(sentence(17)));
    }

    #[test]
    fn a_refused_event_is_named() {
        let of_an_event = Refusal {
            number: 18,
            position: 5,
        };
        assert!(of_an_event.to_string().ends_with(" (event 5)"));
        let of_none = Refusal {
            number: 19,
            position: 0,
        };
        assert!(!of_none.to_string().contains("event 0"));
    }
}
