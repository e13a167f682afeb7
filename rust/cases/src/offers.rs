//! Bad offers, each aimed at one of the checks 10 to 16.

use second::event::{Event, INTERNAL};
use second::Check;

use crate::random::Random;
use crate::traffic::{Channel, Traffic};

/// None where the traffic gives no chance for such an offer.
pub fn bad_offer(aim: Check, traffic: &Traffic, random: &mut Random) -> Option<Event> {
    match aim {
        Check::Kind => Some(wrong_kind(traffic, random)),
        Check::Process => Some(wrong_process(traffic, random)),
        Check::Peer => Some(wrong_peer(traffic, random)),
        Check::SpareOrMessage => Some(wrong_spare_or_message(traffic, random)),
        Check::NumberUsed => used_number(traffic, random),
        Check::NotWaiting => nothing_to_receive(traffic, random),
        Check::NotInFront => not_in_front(traffic, random),
        _ => None,
    }
}

/// An offer with nothing wrong in it, to be spoilt.
fn good_offer(traffic: &Traffic, random: &mut Random) -> Event {
    let message = if random.one_in(2) {
        send_of_unused_number(traffic, random)
    } else {
        front_of_some_channel(traffic, random)
    };
    let internal = Event::internal(traffic.any_process(random));
    match message {
        Some(event) if !random.one_in(3) => event,
        _ => internal,
    }
}

fn send_of_unused_number(traffic: &Traffic, random: &mut Random) -> Option<Event> {
    let (sender, addressee) = traffic.any_channel(random)?;
    Some(Event::send(sender, addressee, traffic.unused_number()))
}

fn front_of_some_channel(traffic: &Traffic, random: &mut Random) -> Option<Event> {
    let channel = traffic.any_waiting_channel(random)?;
    let front = traffic.waiting.get(&channel)?.front()?;
    Some(receive_on(channel, *front))
}

fn receive_on((sender, addressee): Channel, number: u16) -> Event {
    Event::receive(addressee, sender, number)
}

fn wrong_kind(traffic: &Traffic, random: &mut Random) -> Event {
    let mut event = good_offer(traffic, random);
    event.kind = random.pick(&[3, 3, 4, 128, 255]);
    if random.one_in(2) {
        event.process = random.byte();
        spoil_peer_and_later(&mut event, random);
    }
    event
}

fn wrong_process(traffic: &Traffic, random: &mut Random) -> Event {
    let n = traffic.processes;
    let anywhere = random.within(usize::from(n)..=255) as u8;
    let mut event = good_offer(traffic, random);
    event.process = random.pick(&[n, n + 1, 33, 255, anywhere]).max(n);
    if random.one_in(2) {
        spoil_peer_and_later(&mut event, random);
    }
    event
}

fn wrong_peer(traffic: &Traffic, random: &mut Random) -> Event {
    let n = traffic.processes;
    let mut event = good_offer(traffic, random);
    let too_large = random.within(usize::from(n)..=255) as u8;
    event.peer = if event.kind == INTERNAL {
        random
            .pick(&[1, 1, n.saturating_sub(1), 255, too_large])
            .max(1)
    } else {
        random.pick(&[event.process, event.process, n, 255, too_large])
    };
    if random.one_in(2) {
        spoil_message(&mut event, random);
    }
    event
}

fn wrong_spare_or_message(traffic: &Traffic, random: &mut Random) -> Event {
    let mut event = good_offer(traffic, random);
    let single_bytes = [1, 255, 256, 65_535];
    match (random.one_in(2), event.kind) {
        (true, INTERNAL) => event.message = random.pick(&single_bytes),
        (true, _) => event.message = 0,
        (false, _) => event.spare[random.below(3)] = random.nonzero_byte(),
    }
    let may_also_be_used = event.kind != INTERNAL && event.message != 0;
    if may_also_be_used && !traffic.used.is_empty() && random.one_in(2) {
        event.message = random.pick(&traffic.used);
    }
    event
}

/// Faults of later checks besides the aimed one, so that the order of the checks shows.
fn spoil_peer_and_later(event: &mut Event, random: &mut Random) {
    event.peer = random.byte();
    spoil_message(event, random);
}

fn spoil_message(event: &mut Event, random: &mut Random) {
    let anything = random.number() as u16;
    event.spare[random.below(3)] = random.byte();
    event.message = random.pick(&[0, 1, anything]);
}

fn used_number(traffic: &Traffic, random: &mut Random) -> Option<Event> {
    if traffic.used.is_empty() {
        return None;
    }
    let (sender, addressee) = traffic.any_channel(random)?;
    let number = random.pick(&traffic.used);
    Some(Event::send(sender, addressee, number))
}

fn nothing_to_receive(traffic: &Traffic, random: &mut Random) -> Option<Event> {
    match random.below(4) {
        0 => never_sent(traffic, random),
        1 => received_already(traffic, random),
        _ => on_another_channel(traffic, random),
    }
}

fn never_sent(traffic: &Traffic, random: &mut Random) -> Option<Event> {
    let channel = match traffic.any_waiting_channel(random) {
        Some(channel) if random.one_in(2) => channel,
        _ => traffic.any_channel(random)?,
    };
    Some(receive_on(channel, traffic.unused_number()))
}

fn received_already(traffic: &Traffic, random: &mut Random) -> Option<Event> {
    if traffic.received.is_empty() {
        return None;
    }
    let (channel, number) = random.pick(&traffic.received);
    Some(receive_on(channel, number))
}

/// The number waits, but the sender or the addressee differs.
fn on_another_channel(traffic: &Traffic, random: &mut Random) -> Option<Event> {
    let (sender, addressee) = traffic.any_waiting_channel(random)?;
    let queue = traffic.waiting.get(&(sender, addressee))?;
    let number = queue[random.below(queue.len())];
    let (other, another) = traffic.any_channel(random)?;
    let channel = random.pick(&[
        (addressee, sender),
        (other, addressee),
        (sender, other),
        (other, another),
    ]);
    let is_a_channel = channel.0 != channel.1 && channel != (sender, addressee);
    is_a_channel.then(|| receive_on(channel, number))
}

fn not_in_front(traffic: &Traffic, random: &mut Random) -> Option<Event> {
    let crowded: Vec<(&Channel, usize)> = traffic
        .waiting
        .iter()
        .map(|(channel, queue)| (channel, queue.len()))
        .filter(|(_, length)| *length >= 2)
        .collect();
    if crowded.is_empty() {
        return None;
    }
    let (channel, length) = random.pick(&crowded);
    let anywhere = random.within(1..=length - 1);
    let place = random.pick(&[1, length - 1, anywhere]);
    Some(receive_on(*channel, traffic.waiting[channel][place]))
}

#[cfg(test)]
mod tests {
    use super::*;
    use crate::shapes::OFFER_CHECKS;
    use second::machine::Machine;

    fn step(traffic: &mut Traffic, random: &mut Random) -> Option<Event> {
        if random.one_in(3) {
            let channel = traffic.any_waiting_channel(random)?;
            traffic.receive(channel)
        } else {
            let channel = traffic.any_channel(random)?;
            Some(traffic.send(channel))
        }
    }

    #[test]
    fn each_bad_offer_gets_the_number_it_is_aimed_at() {
        let random = &mut Random::new(7);
        for processes in [1, 2, 3, 32] {
            let mut traffic = Traffic::new(processes, random);
            let mut machine = Machine::new(usize::from(processes));
            for _ in 0..200 {
                if let Some(event) = step(&mut traffic, random) {
                    assert!(machine.offer(event).is_ok());
                }
                for aim in OFFER_CHECKS {
                    if let Some(event) = bad_offer(aim, &traffic, random) {
                        assert_eq!(machine.offer(event).err(), Some(aim), "{event:?}");
                    }
                }
            }
        }
    }
}
