//! Events offered to the machine in list order.

use crate::event::events_of;
use crate::machine::{Accepted, Machine};
use crate::{Check, Refusal};

/// Class mode, "which tries each offer and goes on".
pub fn each_offer(n: usize, list: &[u8]) -> Vec<Result<Accepted, Check>> {
    let mut machine = Machine::new(n);
    events_of(list).map(|event| machine.offer(event)).collect()
}

/// Reading, writing and questions: the first refused event refuses the whole list.
pub fn whole_list(n: usize, list: &[u8]) -> Result<Vec<Accepted>, Refusal> {
    each_offer(n, list)
        .into_iter()
        .enumerate()
        .map(|(position, offer)| offer.map_err(|check| check.at_event(position)))
        .collect()
}

pub fn only_accepted(offers: &[Result<Accepted, Check>]) -> Vec<Accepted> {
    offers.iter().flatten().cloned().collect()
}

pub fn carried_values(accepted: &[Accepted]) -> Vec<u16> {
    accepted
        .iter()
        .flat_map(|one| one.stamp.values.clone())
        .collect()
}
