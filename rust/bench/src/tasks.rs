//! The inputs that are timed.

use cases::random::Random;
use cases::shapes::{Bad, Script, Shape};
use second::event::{list_of, Event};
use second::text;

use crate::sides::{Task, TimedCall};

const LONGEST: usize = 512;
const EVENTS: [usize; 3] = [8, 64, LONGEST];
const PROCESSES: [u8; 3] = [3, 8, 32];
const SHAPES: [(Shape, &str); 4] = [
    (Shape::ChattyPairs, "chatty pairs"),
    (Shape::Ring, "ring"),
    (Shape::Broadcast, "broadcast"),
    (Shape::ManyOnTheWay, "many on the way"),
];
const SEED: u64 = 2024;

/// Whole sheets of each shape.
pub fn sheets() -> Vec<Row> {
    rows()
        .into_iter()
        .filter(|row| row.task.call == TimedCall::Read && row.events == LONGEST)
        .collect()
}

/// A task with what the table says of it.
pub struct Row {
    pub shape: &'static str,
    pub events: usize,
    pub task: Task,
}

pub fn rows() -> Vec<Row> {
    let mut rows = Vec::new();
    for call in [TimedCall::Class, TimedCall::Read] {
        for (shape, name) in SHAPES {
            for events in EVENTS {
                for processes in PROCESSES {
                    let list = list_of_shape(shape, processes, events);
                    rows.push(row(call, name, processes, events, list));
                }
            }
        }
    }
    for events in EVENTS {
        for (name, refused) in [
            ("numbers used twice", numbers_used_twice(events)),
            ("receives of nothing", receives_of_nothing(events)),
        ] {
            rows.push(row(TimedCall::Class, name, 3, events, list_of(&refused)));
        }
    }
    rows
}

fn row(call: TimedCall, shape: &'static str, processes: u8, events: usize, list: Vec<u8>) -> Row {
    let input = match call {
        TimedCall::Class => list,
        TimedCall::Read => text::write(&[&processes.to_string()], &list).output,
    };
    let processes = usize::from(processes);
    Row {
        shape,
        events,
        task: Task {
            call,
            processes,
            input,
        },
    }
}

fn list_of_shape(shape: Shape, processes: u8, events: usize) -> Vec<u8> {
    let random = &mut Random::new(SEED);
    let script = Script::new(shape, processes, random);
    list_of(&script.events(events, Bad::Nowhere, random))
}

/// Half of the offers are sends, the other half the same again.
fn numbers_used_twice(events: usize) -> Vec<Event> {
    let half = events as u16 / 2;
    let numbers = (1..=half).chain(1..=half);
    numbers.map(|number| Event::send(0, 1, number)).collect()
}

/// Half of the offers are sends, the other half receives of numbers that were never sent.
fn receives_of_nothing(events: usize) -> Vec<Event> {
    let half = events as u16 / 2;
    let sends = (1..=half).map(|number| Event::send(0, 1, number));
    let receives = (1..=half).map(|number| Event::receive(1, 0, number + half));
    sends.chain(receives).collect()
}
