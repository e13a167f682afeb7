//! Cases for comparing the library with the second program: a call with its arguments from each seed.

pub mod damages;
pub mod lengths;
mod lists;
mod offers;
mod orders;
mod pupils;
pub mod random;
mod readings;
pub mod shapes;
pub mod sheets;
pub mod traffic;

use lengths::WorkLengths;
use random::Random;

#[derive(Clone, Copy, Debug, Default, PartialEq, Eq, PartialOrd, Ord)]
pub enum Call {
    #[default]
    Read,
    ReadLamport,
    Class,
    ClassLamport,
    Write,
    Compare,
    Chain,
    Mark,
    Savings,
    Order,
}

pub const ALL_CALLS: [Call; 10] = [
    Call::Read,
    Call::ReadLamport,
    Call::Class,
    Call::ClassLamport,
    Call::Write,
    Call::Compare,
    Call::Chain,
    Call::Mark,
    Call::Savings,
    Call::Order,
];

/// One call; arguments that the call does not have stay empty.
#[derive(Clone, Debug, Default, PartialEq, Eq)]
pub struct Case {
    pub call: Call,
    pub processes: usize,
    /// The sheet or the list.
    pub input: Vec<u8>,
    /// The pupil's list.
    pub lines: Vec<u8>,
    pub work: WorkLengths,
    /// Slots lent for the Lamport numbers.
    pub lamports: usize,
    /// Slots lent for the answers of class mode, for the written sheet, for the chain, for the marks, or for the percentage.
    pub output: usize,
    pub positions: (usize, usize),
    pub clocks: (Vec<u16>, Vec<u16>),
}

/// The case of a seed; the same seed always gives the same case.
pub fn case_of(seed: u64) -> Case {
    let mut random = Random::new(seed);
    match random.below(40) {
        0..=6 => readings::case(&mut random),
        7..=10 => lists::class_case(&mut random),
        11..=13 => lists::write_case(&mut random),
        14..=15 => lists::compare_case(&mut random),
        16..=18 => lists::chain_case(&mut random),
        19..=24 => readings::lamport_case(&mut random),
        25..=29 => lists::class_lamport_case(&mut random),
        30..=33 => pupils::case(&mut random),
        34..=38 => readings::savings_case(&mut random),
        _ => orders::case(&mut random),
    }
}
