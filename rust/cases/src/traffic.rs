//! Which messages are on their way: what a generator must know to offer good events, and bad ones.

use std::collections::{BTreeMap, VecDeque};

use second::event::Event;

use crate::random::Random;

pub type Process = u8;

/// A sender and an addressee.
pub type Channel = (Process, Process);

const MESSAGE_NUMBERS: usize = 65_535;

/// Each stride has no divisor in common with 65,535, so that no number comes twice.
const STRIDES: [usize; 7] = [1, MESSAGE_NUMBERS - 1, 256, 32_768, 64, 4_096, 31_337];

/// Distinct message numbers, from one list's own start and stride.
struct Numbers {
    next: usize,
    stride: usize,
}

impl Numbers {
    fn new(random: &mut Random) -> Self {
        let anywhere = random.below(MESSAGE_NUMBERS);
        Numbers {
            next: random.pick(&[0, 0, MESSAGE_NUMBERS - 1, 254, anywhere]),
            stride: random.pick(&STRIDES),
        }
    }

    fn peek(&self) -> u16 {
        self.next as u16 + 1
    }

    fn take(&mut self) -> u16 {
        let number = self.peek();
        self.next = (self.next + self.stride) % MESSAGE_NUMBERS;
        number
    }
}

pub struct Traffic {
    pub processes: Process,
    /// Only channels on which a message waits.
    pub waiting: BTreeMap<Channel, VecDeque<u16>>,
    pub received: Vec<(Channel, u16)>,
    pub used: Vec<u16>,
    numbers: Numbers,
}

impl Traffic {
    pub fn new(processes: Process, random: &mut Random) -> Self {
        Traffic {
            processes,
            waiting: BTreeMap::new(),
            received: Vec::new(),
            used: Vec::new(),
            numbers: Numbers::new(random),
        }
    }

    /// The number of the next send; a bad offer may borrow it, and it stays unused.
    pub fn unused_number(&self) -> u16 {
        self.numbers.peek()
    }

    pub fn send(&mut self, (sender, addressee): Channel) -> Event {
        let number = self.numbers.take();
        self.used.push(number);
        self.waiting
            .entry((sender, addressee))
            .or_default()
            .push_back(number);
        Event::send(sender, addressee, number)
    }

    /// The front message of the channel, if one waits.
    pub fn receive(&mut self, channel: Channel) -> Option<Event> {
        let queue = self.waiting.get_mut(&channel)?;
        let number = queue.pop_front()?;
        if queue.is_empty() {
            self.waiting.remove(&channel);
        }
        self.received.push((channel, number));
        Some(Event::receive(channel.1, channel.0, number))
    }

    pub fn any_waiting_channel(&self, random: &mut Random) -> Option<Channel> {
        if self.waiting.is_empty() {
            return None;
        }
        let place = random.below(self.waiting.len());
        self.waiting.keys().nth(place).copied()
    }

    pub fn any_process(&self, random: &mut Random) -> Process {
        random.below(usize::from(self.processes)) as Process
    }

    /// None where there is only one process.
    pub fn any_channel(&self, random: &mut Random) -> Option<Channel> {
        let all: Vec<Process> = (0..self.processes).collect();
        two_of(&all, random)
    }
}

pub fn two_of(processes: &[Process], random: &mut Random) -> Option<Channel> {
    if processes.len() < 2 {
        return None;
    }
    let first = random.below(processes.len());
    let second = (first + random.within(1..=processes.len() - 1)) % processes.len();
    Some((processes[first], processes[second]))
}
