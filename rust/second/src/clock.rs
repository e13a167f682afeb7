//! Clocks, and which of two is below the other.

pub const MOST_PROCESSES: usize = 32;

/// "A clock is thirty-two numbers, of which the first n are used and the rest stay 0".
pub type Clock = [u16; MOST_PROCESSES];

pub const ZERO: Clock = [0; MOST_PROCESSES];

#[derive(Clone, Copy, Debug, PartialEq, Eq)]
pub enum Verdict {
    FirstBelow = 1,
    SecondBelow = 2,
    Neither = 3,
    Same = 4,
}

/// The known verdicts.
pub const ALL_VERDICTS: [Verdict; 4] = [
    Verdict::FirstBelow,
    Verdict::SecondBelow,
    Verdict::Neither,
    Verdict::Same,
];

/// "Clock V is below W when no component of V exceeds W's and the two differ".
pub fn is_below(v: &[u16], w: &[u16]) -> bool {
    let none_exceeds = v.iter().zip(w).all(|(in_v, in_w)| in_v <= in_w);
    none_exceeds && v != w
}

/// "Two equal clocks now give verdict 4".
pub fn verdict(first: &[u16], second: &[u16]) -> Verdict {
    if is_below(first, second) {
        Verdict::FirstBelow
    } else if is_below(second, first) {
        Verdict::SecondBelow
    } else if first == second {
        Verdict::Same
    } else {
        Verdict::Neither
    }
}

/// "raises each component to the larger of its own and the message's".
pub fn raise_to_larger(own: &mut Clock, message: &Clock) {
    for (component, carried) in own.iter_mut().zip(message) {
        *component = (*component).max(*carried);
    }
}

pub fn is_process_count(n: usize) -> bool {
    (1..=MOST_PROCESSES).contains(&n)
}
