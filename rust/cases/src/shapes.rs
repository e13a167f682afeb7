//! Event lists of many shapes; every event of them is acceptable unless bad offers are asked for.

use std::collections::VecDeque;

use second::event::Event;
use second::Check;

use crate::offers::bad_offer;
use crate::random::Random;
use crate::traffic::{two_of, Channel, Process, Traffic};

#[derive(Clone, Copy, Debug, PartialEq, Eq)]
pub enum Shape {
    ChattyPairs,
    Ring,
    Broadcast,
    ManyOnTheWay,
    Mixed,
    InternalOnly,
}

pub const ALL_SHAPES: [Shape; 6] = [
    Shape::ChattyPairs,
    Shape::Ring,
    Shape::Broadcast,
    Shape::ManyOnTheWay,
    Shape::Mixed,
    Shape::InternalOnly,
];

/// The checks that look at a single offer.
pub const OFFER_CHECKS: [Check; 7] = [
    Check::Kind,
    Check::Process,
    Check::Peer,
    Check::SpareOrMessage,
    Check::NumberUsed,
    Check::NotWaiting,
    Check::NotInFront,
];

/// Where bad offers stand among the good ones.
#[derive(Clone, Copy, Debug, PartialEq, Eq)]
pub enum Bad {
    Nowhere,
    /// One with this aim, as soon from this position on as the traffic gives the chance.
    OnceFrom(usize, Check),
    /// With any aim.
    OneIn(usize),
}

#[derive(Clone, Copy)]
enum Step {
    Internal(Process),
    Send(Channel),
    Receive(Channel),
}

/// A list in the making.
pub struct Script {
    shape: Shape,
    /// The processes that exchange messages.
    talkers: Vec<Process>,
    turn: usize,
    planned: VecDeque<Step>,
    traffic: Traffic,
}

impl Script {
    pub fn new(shape: Shape, processes: Process, random: &mut Random) -> Self {
        Script {
            shape,
            talkers: (0..processes).collect(),
            turn: 0,
            planned: VecDeque::new(),
            traffic: Traffic::new(processes, random),
        }
    }

    /// Only some of the processes talk, so that the same channels are used again and again.
    pub fn with_few_talkers(mut self, random: &mut Random) -> Self {
        let most = self.talkers.len().min(4);
        while self.talkers.len() > most {
            let place = random.below(self.talkers.len());
            self.talkers.remove(place);
        }
        self
    }

    pub fn events(mut self, length: usize, bad: Bad, random: &mut Random) -> Vec<Event> {
        let mut bad = bad;
        (0..length)
            .map(
                |position| match self.bad_event(position, &mut bad, random) {
                    Some(event) => event,
                    None => self.good_event(position, length, random),
                },
            )
            .collect()
    }

    fn bad_event(&self, position: usize, bad: &mut Bad, random: &mut Random) -> Option<Event> {
        match *bad {
            Bad::OnceFrom(place, aim) if place <= position => {
                let event = bad_offer(aim, &self.traffic, random)?;
                *bad = Bad::Nowhere;
                Some(event)
            }
            Bad::OneIn(chances) if random.one_in(chances) => Some(self.any_bad_event(random)),
            _ => None,
        }
    }

    /// Some aims are always possible, so this ends.
    fn any_bad_event(&self, random: &mut Random) -> Event {
        loop {
            let aim = random.pick(&OFFER_CHECKS);
            if let Some(event) = bad_offer(aim, &self.traffic, random) {
                return event;
            }
        }
    }

    fn good_event(&mut self, position: usize, length: usize, random: &mut Random) -> Event {
        if self.planned.is_empty() {
            self.plan(position, length, random);
        }
        let idle = Step::Internal(self.traffic.any_process(random));
        match self.planned.pop_front().unwrap_or(idle) {
            Step::Internal(process) => Event::internal(process),
            Step::Send(channel) => self.traffic.send(channel),
            Step::Receive(channel) => self
                .traffic
                .receive(channel)
                .unwrap_or(Event::internal(channel.1)),
        }
    }

    fn plan(&mut self, position: usize, length: usize, random: &mut Random) {
        if self.talkers.len() < 2 {
            return;
        }
        match self.shape {
            Shape::ChattyPairs => self.plan_question_and_answer(random),
            Shape::Ring => self.plan_handing_on(),
            Shape::Broadcast => self.plan_broadcast(random),
            Shape::ManyOnTheWay if position * 5 < length * 3 => self.plan_any_send(random),
            Shape::ManyOnTheWay => self.plan_any_receive(random),
            Shape::Mixed => self.plan_anything(random),
            Shape::InternalOnly => {}
        }
    }

    fn plan_question_and_answer(&mut self, random: &mut Random) {
        let pair = random.below(self.talkers.len() / 2);
        let asker = self.talkers[2 * pair];
        let answerer = self.talkers[2 * pair + 1];
        for channel in [(asker, answerer), (answerer, asker)] {
            let words = random.within(1..=2);
            self.planned.extend(vec![Step::Send(channel); words]);
            self.planned.extend(vec![Step::Receive(channel); words]);
        }
    }

    fn plan_handing_on(&mut self) {
        let holder = self.talkers[self.turn % self.talkers.len()];
        let next = self.talkers[(self.turn + 1) % self.talkers.len()];
        self.planned.push_back(Step::Send((holder, next)));
        self.planned.push_back(Step::Receive((holder, next)));
        self.turn += 1;
    }

    fn plan_broadcast(&mut self, random: &mut Random) {
        let speaker = random.pick(&self.talkers);
        let listeners = self.talkers.iter().filter(|process| **process != speaker);
        let channels: Vec<Channel> = listeners.map(|listener| (speaker, *listener)).collect();
        self.planned
            .extend(channels.iter().map(|channel| Step::Send(*channel)));
        self.planned
            .extend(channels.iter().map(|channel| Step::Receive(*channel)));
    }

    fn plan_any_send(&mut self, random: &mut Random) {
        let channel = two_of(&self.talkers, random);
        self.planned.extend(channel.map(Step::Send));
    }

    fn plan_any_receive(&mut self, random: &mut Random) {
        let channel = self.traffic.any_waiting_channel(random);
        self.planned.extend(channel.map(Step::Receive));
    }

    fn plan_anything(&mut self, random: &mut Random) {
        match random.below(8) {
            0 => {
                let process = random.pick(&self.talkers);
                self.planned.push_back(Step::Internal(process));
            }
            1..=4 => self.plan_any_send(random),
            _ => self.plan_any_receive(random),
        }
    }
}
