//! The plain machine: a whole clock and a Lamport clock for each process, the numbers already sent, and the queues.

use std::collections::{BTreeSet, VecDeque};

use crate::clock::{raise_to_larger, Clock, ZERO};
use crate::event::{Event, RECEIVE, SEND};
use crate::stamp::Stamp;
use crate::Check;

struct Message {
    number: u16,
    clock: Clock,
    /// "it piggybacks on m the value t" (LC2, Dragoni, "Logical Time").
    t: u16,
}

pub struct Machine {
    processes: usize,
    clocks: Vec<Clock>,
    /// The L of each process (LC1 and LC2, Dragoni, "Logical Time").
    lamports: Vec<u16>,
    used_numbers: BTreeSet<u16>,
    /// By sender, then by addressee.
    queues: Vec<Vec<VecDeque<Message>>>,
    /// By sender, then by addressee; "or from zero if there was none".
    clocks_at_previous_send: Vec<Vec<Clock>>,
}

/// An accepted event with its clock and its Lamport number; the stamp is empty unless it is a send.
#[derive(Clone, Debug)]
pub struct Accepted {
    pub event: Event,
    pub clock: Clock,
    pub lamport: u16,
    pub stamp: Stamp,
}

impl Machine {
    pub fn new(n: usize) -> Self {
        let no_queues = || (0..n).map(|_| VecDeque::new()).collect();
        Machine {
            processes: n,
            clocks: vec![ZERO; n],
            lamports: vec![0; n],
            used_numbers: BTreeSet::new(),
            queues: (0..n).map(|_| no_queues()).collect(),
            clocks_at_previous_send: vec![vec![ZERO; n]; n],
        }
    }

    /// A refused offer leaves the machine as it was.
    pub fn offer(&mut self, event: Event) -> Result<Accepted, Check> {
        event.check_form(self.processes)?;
        self.check_traffic(&event)?;
        let process = usize::from(event.process);
        self.clocks[process][process] += 1;
        self.take_in_t(&event);
        self.lamports[process] += 1;
        let stamp = match event.kind {
            SEND => self.send(&event),
            RECEIVE => self.receive(&event),
            _ => Stamp::default(),
        };
        Ok(Accepted {
            event,
            clock: self.clocks[process],
            lamport: self.lamports[process],
            stamp,
        })
    }

    /// Checks 14 to 16.
    fn check_traffic(&self, event: &Event) -> Result<(), Check> {
        match event.kind {
            SEND if self.used_numbers.contains(&event.message) => Err(Check::NumberUsed),
            RECEIVE => self.check_receive(event),
            _ => Ok(()),
        }
    }

    /// "15 is given when the number is not in that queue, 16 when it is there but not in front".
    fn check_receive(&self, event: &Event) -> Result<(), Check> {
        let queue = &self.queues[usize::from(event.peer)][usize::from(event.process)];
        let place = queue
            .iter()
            .position(|waiting| waiting.number == event.message);
        match place {
            Some(0) => Ok(()),
            Some(_) => Err(Check::NotInFront),
            None => Err(Check::NotWaiting),
        }
    }

    /// "On receiving (m, t), a process computes L := max(L, t) and then applies LC1".
    fn take_in_t(&mut self, event: &Event) {
        if event.kind != RECEIVE {
            return;
        }
        let receiver = usize::from(event.process);
        let queue = &self.queues[usize::from(event.peer)][receiver];
        if let Some(message) = queue.front() {
            self.lamports[receiver] = self.lamports[receiver].max(message.t);
        }
    }

    fn send(&mut self, event: &Event) -> Stamp {
        let sender = usize::from(event.process);
        let addressee = usize::from(event.peer);
        let clock = self.clocks[sender];
        let at_previous_send = &mut self.clocks_at_previous_send[sender][addressee];
        let stamp = Stamp::of_differences(&clock, at_previous_send);
        *at_previous_send = clock;
        self.used_numbers.insert(event.message);
        self.queues[sender][addressee].push_back(Message {
            number: event.message,
            clock,
            t: self.lamports[sender],
        });
        stamp
    }

    fn receive(&mut self, event: &Event) -> Stamp {
        let receiver = usize::from(event.process);
        let queue = &mut self.queues[usize::from(event.peer)][receiver];
        if let Some(message) = queue.pop_front() {
            raise_to_larger(&mut self.clocks[receiver], &message.clock);
        }
        Stamp::default()
    }
}
