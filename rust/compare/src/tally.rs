//! How often each answer of each call was seen, so that a generator that has gone dull is noticed.

use std::collections::BTreeMap;

use cases::{Call, Case};
use oboefinch::{Answer, MOST_EVENTS, MOST_LINES, MOST_PROCESSES, RECORD_SIZE};
use second::clock::ALL_VERDICTS;

use crate::Agreed;

/// What a case showed, besides that both sides agree.
#[derive(Clone, Copy, Debug, PartialEq, Eq, PartialOrd, Ord)]
pub enum Seen {
    /// The number of a call's answer; 0 is success.
    Number(Call, u8),
    /// The answer to one offer in class mode.
    Offer(u8),
    Verdict(Call, usize),
    ChainLength(usize),
    /// The mark of one line.
    Mark(u8),
    Lines(usize),
    /// 0 no messages, 1 a percentage.
    Saving(usize),
    MostEvents(Call),
    MostProcesses(Call),
}

#[derive(Default)]
pub struct Tally {
    counts: BTreeMap<Seen, usize>,
}

const LONGEST_TOLD_CHAIN: usize = 3;

/// The calls whose answer has the number of events in y.
const COUNTING_EVENTS: [Call; 5] = [
    Call::Read,
    Call::ReadLamport,
    Call::Class,
    Call::ClassLamport,
    Call::Write,
];

impl Tally {
    pub fn add(&mut self, case: &Case, agreed: &Agreed) {
        let answer = Answer::unpack(agreed.packed);
        self.count(Seen::Number(case.call, answer.number));
        if answer.number == 0 {
            self.add_success(case, agreed, answer);
        }
    }

    fn add_success(&mut self, case: &Case, agreed: &Agreed, answer: Answer) {
        let call = case.call;
        match call {
            Call::Compare | Call::Order => self.count(Seen::Verdict(call, answer.x)),
            Call::Chain => self.count(Seen::ChainLength(answer.z.min(LONGEST_TOLD_CHAIN))),
            Call::Class | Call::ClassLamport => self.add_offers(case, agreed),
            Call::Mark => self.add_marks(agreed, answer),
            Call::Savings => self.count(Seen::Saving(answer.x)),
            Call::Read | Call::ReadLamport | Call::Write => {}
        }
        if COUNTING_EVENTS.contains(&call) && answer.y == MOST_EVENTS {
            self.count(Seen::MostEvents(call));
        }
        let processes = match call {
            Call::Read | Call::ReadLamport => answer.x,
            _ => case.processes,
        };
        if processes == MOST_PROCESSES {
            self.count(Seen::MostProcesses(call));
        }
    }

    fn add_offers(&mut self, case: &Case, agreed: &Agreed) {
        let offers = case.input.len() / RECORD_SIZE;
        for answer in &agreed.answers[..offers] {
            self.count(Seen::Offer(*answer));
        }
    }

    fn add_marks(&mut self, agreed: &Agreed, answer: Answer) {
        self.count(Seen::Lines(answer.z));
        for mark in &agreed.answers[..answer.z] {
            self.count(Seen::Mark(*mark));
        }
    }

    fn count(&mut self, seen: Seen) {
        *self.counts.entry(seen).or_default() += 1;
    }

    pub fn of(&self, seen: Seen) -> usize {
        self.counts.get(&seen).copied().unwrap_or(0)
    }

    /// Every answer the paper allows for a call, and the turns of success worth seeing.
    pub fn wanted() -> Vec<Seen> {
        let mut wanted = Vec::new();
        for call in cases::ALL_CALLS {
            let numbers = numbers_of(call).iter();
            wanted.extend(numbers.map(|number| Seen::Number(call, *number)));
        }
        wanted.push(Seen::Offer(0));
        wanted.extend((10..=16).map(Seen::Offer));
        for verdict in ALL_VERDICTS {
            wanted.push(Seen::Verdict(Call::Compare, verdict as usize));
            wanted.push(Seen::Verdict(Call::Order, verdict as usize));
        }
        wanted.extend([Seen::Mark(0), Seen::Mark(1)]);
        wanted.extend([Seen::Lines(0), Seen::Lines(MOST_LINES)]);
        wanted.extend([Seen::Saving(0), Seen::Saving(1)]);
        wanted.extend((0..=LONGEST_TOLD_CHAIN).map(Seen::ChainLength));
        for call in COUNTING_EVENTS {
            wanted.push(Seen::MostEvents(call));
            wanted.push(Seen::MostProcesses(call));
        }
        wanted
    }

    /// No number was seen that the paper does not give for the call.
    pub fn unknown_numbers(&self) -> Vec<Seen> {
        let is_unknown = |seen: &Seen| match seen {
            Seen::Number(call, number) => !numbers_of(*call).contains(number),
            _ => false,
        };
        self.counts.keys().copied().filter(is_unknown).collect()
    }
}

fn numbers_of(call: Call) -> &'static [u8] {
    match call {
        Call::Read | Call::ReadLamport => &[
            0, 1, 2, 3, 4, 5, 6, 7, 9, 10, 11, 12, 13, 14, 15, 16, 18, 19,
        ],
        Call::Class | Call::ClassLamport => &[0, 4, 8, 9],
        Call::Write => &[0, 4, 8, 9, 10, 11, 12, 13, 14, 15, 16, 21],
        Call::Compare => &[0, 4, 8, 9, 10, 11, 12, 13, 14, 15, 16, 20],
        Call::Chain => &[0, 4, 8, 9, 10, 11, 12, 13, 14, 15, 16, 20, 21, 22],
        Call::Mark => &[
            0, 1, 2, 3, 4, 5, 6, 7, 9, 10, 11, 12, 13, 14, 15, 16, 18, 19, 21, 30,
        ],
        Call::Savings => &[
            0, 1, 2, 3, 4, 5, 6, 7, 9, 10, 11, 12, 13, 14, 15, 16, 18, 19, 21,
        ],
        Call::Order => &[0, 4],
    }
}
