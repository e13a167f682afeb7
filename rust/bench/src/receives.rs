//! Inputs for what a receive costs: stamps that carry a given number of components, at 32 processes.

use second::event::{list_of, Event};

use crate::sides::{Task, TimedCall};

pub const CARRIED: [u8; 4] = [1, 2, 8, 32];
const PROCESSES: u8 = 32;
const ROUNDS: usize = 8;

/// The same list with and without its last kind of receive, so that the difference is what these cost.
pub struct Receives {
    pub carried: u8,
    pub with: Task,
    pub without: Task,
    pub count: usize,
}

impl Receives {
    pub fn of(carried: u8) -> Self {
        let with = events(carried, true);
        let without = events(carried, false);
        Receives {
            carried,
            count: with.len() - without.len(),
            with: task(&with),
            without: task(&without),
        }
    }
}

fn task(events: &[Event]) -> Task {
    Task {
        call: TimedCall::Class,
        processes: usize::from(PROCESSES),
        input: list_of(events),
    }
}

/// In each round process 0 hears of one more event of each process below `carried`, and then sends to the others:
/// since the round before, these components and its own grew. At 32 the addressees are those it heard of, and
/// what they tell in a second round would be longer, so there is one round.
fn events(carried: u8, received: bool) -> Vec<Event> {
    let first_addressee = if carried < PROCESSES { carried } else { 1 };
    let rounds = if carried < PROCESSES { ROUNDS } else { 1 };
    let mut events = Vec::new();
    let mut numbers = 1..;
    for _ in 0..rounds {
        for (process, number) in (1..carried).zip(&mut numbers) {
            events.push(Event::send(process, 0, number));
            events.push(Event::receive(0, process, number));
        }
        let messages: Vec<_> = (first_addressee..PROCESSES).zip(&mut numbers).collect();
        events.extend(
            messages
                .iter()
                .map(|&(to, number)| Event::send(0, to, number)),
        );
        if received {
            events.extend(
                messages
                    .iter()
                    .map(|&(to, number)| Event::receive(to, 0, number)),
            );
        }
    }
    events
}

#[cfg(test)]
mod tests {
    use second::calls::{self, Work};

    use super::*;

    /// The masks of process 0's sends.
    fn masks_of_sends(events: &[Event]) -> Vec<u32> {
        let (mut clocks, mut masks) = (vec![0; 32 * 512], vec![0; 512]);
        let (mut values, mut answers) = (vec![0; 32 * 512], vec![0; 512]);
        let work = Work {
            clocks: &mut clocks,
            masks: &mut masks,
            values: &mut values,
            lamports: None,
        };
        let classed = calls::class(32, &list_of(events), work, &mut answers);
        assert!(classed.is_ok(), "the list is refused");
        assert!(answers[..events.len()].iter().all(|answer| *answer == 0));
        let sends = events.iter().zip(masks);
        sends
            .filter(|(event, _)| **event == Event::send(0, event.peer, event.message))
            .map(|(_, mask)| mask)
            .collect()
    }

    #[test]
    fn each_stamp_carries_as_many_components_as_asked() {
        for carried in CARRIED {
            let masks = masks_of_sends(&events(carried, true));
            assert_eq!(masks.len(), Receives::of(carried).count);
            assert!(masks
                .iter()
                .all(|mask| mask.count_ones() == u32::from(carried)));
        }
    }
}
