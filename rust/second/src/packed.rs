//! The calls with the answer packed into one number, as the C calls give it.

use crate::calls::{self, Classed, Reading, Work};
use crate::Refusal;

pub fn read(sheet: &[u8], work: Work) -> u64 {
    reading(calls::read(sheet, work))
}

pub fn read_lamport<'a>(sheet: &[u8], work: Work<'a>, lamports: &'a mut [u16]) -> u64 {
    reading(calls::read_lamport(sheet, work, lamports))
}

pub fn class(n: usize, list: &[u8], work: Work, answers: &mut [u8]) -> u64 {
    classed(calls::class(n, list, work, answers))
}

pub fn class_lamport<'a>(
    n: usize,
    list: &[u8],
    work: Work<'a>,
    answers: &mut [u8],
    lamports: &'a mut [u16],
) -> u64 {
    classed(calls::class_lamport(n, list, work, answers, lamports))
}

pub fn write(n: usize, list: &[u8], work: Work, output: &mut [u8]) -> u64 {
    match calls::write(n, list, work, output) {
        Ok(written) => pack(0, 0, written.events, written.bytes),
        Err(refusal) => refused(refusal),
    }
}

pub fn compare(n: usize, list: &[u8], work: Work, first: usize, second: usize) -> u64 {
    match calls::compare(n, list, work, first, second) {
        Ok(verdict) => pack(0, verdict as usize, 0, 0),
        Err(refusal) => refused(refusal),
    }
}

pub fn chain(
    n: usize,
    list: &[u8],
    work: Work,
    first: usize,
    second: usize,
    output: &mut [u16],
) -> u64 {
    match calls::chain(n, list, work, first, second, output) {
        Ok(length) => pack(0, 0, 0, length),
        Err(refusal) => refused(refusal),
    }
}

pub fn mark(sheet: &[u8], list: &[u8], work: Work, output: &mut [u8]) -> u64 {
    match calls::mark(sheet, list, work, output) {
        Ok(marked) => pack(0, 0, marked.total, marked.lines),
        Err(refusal) => refused(refusal),
    }
}

pub fn savings(sheet: &[u8], work: Work, percent: &mut [f64]) -> u64 {
    match calls::savings(sheet, work, percent) {
        Ok(saved) => pack(0, usize::from(saved.is_some()), 0, 0),
        Err(refusal) => refused(refusal),
    }
}

pub fn order(first: &[u16], second: &[u16]) -> u64 {
    match calls::order(first, second) {
        Ok(verdict) => pack(0, verdict as usize, 0, 0),
        Err(refusal) => refused(refusal),
    }
}

fn reading(outcome: Result<Reading, Refusal>) -> u64 {
    match outcome {
        Ok(reading) => pack(0, reading.processes, reading.events, reading.entries),
        Err(refusal) => refused(refusal),
    }
}

fn classed(outcome: Result<Classed, Refusal>) -> u64 {
    match outcome {
        Ok(classed) => pack(0, 0, classed.accepted, classed.entries),
        Err(refusal) => refused(refusal),
    }
}

fn refused(refusal: Refusal) -> u64 {
    pack(refusal.check.number(), 0, refusal.position, 0)
}

pub fn pack(number: u8, x: usize, y: usize, z: usize) -> u64 {
    u64::from(number) + 256 * x as u64 + 65_536 * y as u64 + 4_294_967_296 * z as u64
}
