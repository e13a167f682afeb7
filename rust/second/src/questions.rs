//! Questions about two events of a list that was accepted entire.

use crate::clock::{is_below, verdict, Verdict};
use crate::event::SEND;
use crate::machine::Accepted;
use crate::{Check, Refusal};

pub fn compare(accepted: &[Accepted], first: usize, second: usize) -> Result<Verdict, Refusal> {
    check_positions(accepted, first, second)?;
    Ok(verdict(&accepted[first].clock, &accepted[second].clock))
}

/// Checks 20 and 22, then the teaching chain.
pub fn chain(accepted: &[Accepted], first: usize, second: usize) -> Result<Vec<usize>, Refusal> {
    check_positions(accepted, first, second)?;
    if !is_below(&accepted[first].clock, &accepted[second].clock) {
        return Err(Check::NotBefore.of_no_event());
    }
    Ok(walk(accepted, first, second))
}

fn check_positions(accepted: &[Accepted], first: usize, second: usize) -> Result<(), Refusal> {
    if first >= accepted.len() || second >= accepted.len() {
        return Err(Check::Position.of_no_event());
    }
    Ok(())
}

fn walk(accepted: &[Accepted], a: usize, b: usize) -> Vec<usize> {
    if accepted[b].event.process == accepted[a].event.process {
        return Vec::new();
    }
    let receive = first_to_know(accepted, a, b);
    let send = sending_event(accepted, receive);
    let mut sends = walk(accepted, a, send);
    sends.push(send);
    sends
}

/// "the first event on b's process whose component for a's process is at least a's own number".
fn first_to_know(accepted: &[Accepted], a: usize, b: usize) -> usize {
    let process_of_a = usize::from(accepted[a].event.process);
    let own_number_of_a = accepted[a].clock[process_of_a];
    accepted
        .iter()
        .position(|one| {
            one.event.process == accepted[b].event.process
                && one.clock[process_of_a] >= own_number_of_a
        })
        .expect("b itself is such an event when a is before b")
}

/// A number is used by one accepted send only, so the number finds it.
fn sending_event(accepted: &[Accepted], receive: usize) -> usize {
    accepted
        .iter()
        .position(|one| {
            one.event.kind == SEND && one.event.message == accepted[receive].event.message
        })
        .expect("an accepted receive has its send")
}
