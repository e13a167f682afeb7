//! The sides that are timed, each on the same task and the same buffers.

use cases::lengths::WorkLengths;
use oboefinch::{raw, Answer};
use second::calls::Work;
use second::event::RECORD_SIZE;
use second::packed;

use crate::anchor::{self, LooksAtAll, Plain, Wide};
use crate::opened::Opened;

#[derive(Clone, Copy, Debug, PartialEq, Eq)]
pub enum TimedCall {
    Class,
    Read,
}

#[derive(Clone, Copy, Debug)]
pub enum Side {
    Library,
    Second,
    Tuned,
    Wide,
    LooksAtAll,
    Before(&'static Opened),
}

/// A call and its input: a list for class mode, a sheet for reading.
pub struct Task {
    pub call: TimedCall,
    pub processes: usize,
    pub input: Vec<u8>,
}

#[derive(Clone, Debug, PartialEq, Eq)]
pub struct Buffers {
    clocks: Vec<u16>,
    masks: Vec<u32>,
    values: Vec<u16>,
    answers: Vec<u8>,
}

impl Buffers {
    /// With prior contents that are not 0.
    pub fn with_lengths(work: WorkLengths, answers: usize) -> Self {
        Buffers {
            clocks: vec![7; work.clocks],
            masks: vec![7; work.masks],
            values: vec![7; work.values],
            answers: vec![7; answers],
        }
    }

    pub fn exactly_for(processes: usize, events: usize) -> Self {
        Buffers::with_lengths(WorkLengths::needed(processes, events), events)
    }

    fn work(&mut self) -> (Work<'_>, &mut [u8]) {
        let work = Work {
            clocks: &mut self.clocks,
            masks: &mut self.masks,
            values: &mut self.values,
            lamports: None,
        };
        (work, &mut self.answers)
    }
}

pub fn call(side: Side, task: &Task, buffers: &mut Buffers) -> u64 {
    let n = task.processes;
    let input = &task.input;
    let (work, answers) = buffers.work();
    match (side, task.call) {
        (Side::Library, TimedCall::Class) => {
            raw::class(n, input, work.clocks, work.masks, work.values, answers)
        }
        (Side::Library, TimedCall::Read) => raw::read(input, work.clocks, work.masks, work.values),
        (Side::Second, TimedCall::Class) => packed::class(n, input, work, answers),
        (Side::Second, TimedCall::Read) => packed::read(input, work),
        (Side::Tuned, TimedCall::Class) => anchor::class::<Plain>(n, input, work, answers),
        (Side::Tuned, TimedCall::Read) => anchor::read::<Plain>(input, work),
        (Side::Wide, TimedCall::Class) => anchor::class::<Wide>(n, input, work, answers),
        (Side::Wide, TimedCall::Read) => anchor::read::<Wide>(input, work),
        (Side::LooksAtAll, TimedCall::Class) => {
            anchor::class::<LooksAtAll>(n, input, work, answers)
        }
        (Side::LooksAtAll, TimedCall::Read) => anchor::read::<LooksAtAll>(input, work),
        (Side::Before(library), TimedCall::Class) => library.class(n, input, work, answers),
        (Side::Before(library), TimedCall::Read) => library.read(input, work),
    }
}

/// The floor: what a call must do to the buffers at the least, with the results known before.
pub struct Floor {
    result: Buffers,
    clocks_used: usize,
    masks_used: usize,
    values_used: usize,
    answers_used: usize,
}

impl Floor {
    pub fn of(task: &Task, packed: u64, result: Buffers) -> Self {
        let answer = Answer::unpack(packed);
        let answers_used = match task.call {
            TimedCall::Class => task.input.len() / RECORD_SIZE,
            TimedCall::Read => 0,
        };
        Floor {
            clocks_used: task.processes * answer.y,
            masks_used: answer.y,
            values_used: answer.z,
            answers_used,
            result,
        }
    }

    pub fn clear_and_fill(&self, buffers: &mut Buffers) {
        buffers.clocks.fill(0);
        buffers.masks.fill(0);
        buffers.values.fill(0);
        copy_first(&mut buffers.clocks, &self.result.clocks, self.clocks_used);
        copy_first(&mut buffers.masks, &self.result.masks, self.masks_used);
        copy_first(&mut buffers.values, &self.result.values, self.values_used);
        copy_first(
            &mut buffers.answers,
            &self.result.answers,
            self.answers_used,
        );
    }
}

fn copy_first<T: Copy>(to: &mut [T], from: &[T], count: usize) {
    to[..count].copy_from_slice(&from[..count]);
}
