//! Cases of comparing two lent clocks.

use crate::random::Random;
use crate::{Call, Case};

const LENGTHS: [usize; 12] = [0, 1, 1, 2, 3, 8, 16, 31, 32, 32, 33, 40];

pub fn case(random: &mut Random) -> Case {
    let length = random.pick(&LENGTHS);
    let first: Vec<u16> = (0..length).map(|_| component(random)).collect();
    let mut second = related(&first, random);
    match random.below(16) {
        0 => second.push(component(random)),
        1 => second.truncate(length.saturating_sub(1)),
        2 => second.resize(random.pick(&LENGTHS), 1),
        _ => {}
    }
    let clocks = if random.one_in(2) {
        (first, second)
    } else {
        (second, first)
    };
    Case {
        call: Call::Order,
        clocks,
        ..Case::default()
    }
}

fn component(random: &mut Random) -> u16 {
    let anything = random.number() as u16;
    let some = random.below(5) as u16;
    random.pick(&[0, some, some, 256, 512, 32_768, 65_535, anything])
}

/// Equal, raised in one place or in all, or raised in one and lowered in another.
fn related(first: &[u16], random: &mut Random) -> Vec<u16> {
    let mut second = first.to_vec();
    let raised = random.below(first.len().max(1));
    let lowered = random.below(first.len().max(1));
    match random.below(6) {
        0 => {}
        1 => second.iter_mut().for_each(|c| *c = c.saturating_add(1)),
        2 => change(second.last_mut(), 1),
        3 => change(second.get_mut(raised), 1),
        4 => {
            change(second.get_mut(raised), 1);
            change(second.get_mut(lowered), -1);
        }
        _ => second.iter_mut().for_each(|c| *c = component(random)),
    }
    second
}

fn change(component: Option<&mut u16>, by: i16) {
    if let Some(component) = component {
        *component = component.saturating_add_signed(by);
    }
}
