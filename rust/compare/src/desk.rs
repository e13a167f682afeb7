//! All that one side is lent for a case.

use cases::{Call, Case};
use oboefinch::raw;
use second::calls::Work;
use second::packed;

use crate::lent::Lent;
use crate::Difference;

pub struct Desk {
    input: Lent<u8>,
    lines: Lent<u8>,
    clocks: Lent<u16>,
    masks: Lent<u32>,
    values: Lent<u16>,
    lamports: Lent<u16>,
    /// The answers of class mode, the written sheet, or the marks.
    bytes: Lent<u8>,
    chain: Lent<u16>,
    percent: Lent<f64>,
    first_clock: Lent<u16>,
    second_clock: Lent<u16>,
}

impl Desk {
    pub fn for_case(case: &Case, around: u64) -> Self {
        let (bytes, chain, percent) = match case.call {
            Call::Chain => (0, case.output, 0),
            Call::Savings => (0, 0, case.output),
            _ => (case.output, 0, 0),
        };
        Desk {
            input: Lent::holding(&case.input, around),
            lines: Lent::holding(&case.lines, around),
            clocks: Lent::unwritten(case.work.clocks, around),
            masks: Lent::unwritten(case.work.masks, around),
            values: Lent::unwritten(case.work.values, around),
            lamports: Lent::unwritten(case.lamports, around),
            bytes: Lent::unwritten(bytes, around),
            chain: Lent::unwritten(chain, around),
            percent: Lent::unwritten(percent, around),
            first_clock: Lent::holding(&case.clocks.0, around),
            second_clock: Lent::holding(&case.clocks.1, around),
        }
    }

    pub fn call_library(&mut self, case: &Case) -> u64 {
        let n = case.processes;
        let input = self.input.contents();
        let clocks = self.clocks.lend();
        let masks = self.masks.lend();
        let values = self.values.lend();
        let asked = case.positions;
        match case.call {
            Call::Read => raw::read(input, clocks, masks, values),
            Call::ReadLamport => {
                raw::read_lamport(input, clocks, masks, values, self.lamports.lend())
            }
            Call::Class => raw::class(n, input, clocks, masks, values, self.bytes.lend()),
            Call::ClassLamport => {
                let answers = self.bytes.lend();
                let lamports = self.lamports.lend();
                raw::class_lamport(n, input, clocks, masks, values, answers, lamports)
            }
            Call::Write => raw::write(n, input, clocks, masks, values, self.bytes.lend()),
            Call::Compare => raw::compare(n, input, clocks, masks, values, asked),
            Call::Chain => {
                let chain = self.chain.lend();
                raw::chain(n, input, clocks, masks, values, asked, chain)
            }
            Call::Mark => {
                let lines = self.lines.contents();
                raw::mark(input, lines, clocks, masks, values, self.bytes.lend())
            }
            Call::Savings => raw::savings(input, clocks, masks, values, self.percent.lend()),
            Call::Order => raw::order(self.first_clock.contents(), self.second_clock.contents()),
        }
    }

    pub fn call_second(&mut self, case: &Case) -> u64 {
        let n = case.processes;
        let input = self.input.contents();
        let work = Work {
            clocks: self.clocks.lend(),
            masks: self.masks.lend(),
            values: self.values.lend(),
            lamports: None,
        };
        let (first, second) = case.positions;
        match case.call {
            Call::Read => packed::read(input, work),
            Call::ReadLamport => packed::read_lamport(input, work, self.lamports.lend()),
            Call::Class => packed::class(n, input, work, self.bytes.lend()),
            Call::ClassLamport => {
                let lamports = self.lamports.lend();
                packed::class_lamport(n, input, work, self.bytes.lend(), lamports)
            }
            Call::Write => packed::write(n, input, work, self.bytes.lend()),
            Call::Compare => packed::compare(n, input, work, first, second),
            Call::Chain => packed::chain(n, input, work, first, second, self.chain.lend()),
            Call::Mark => packed::mark(input, self.lines.contents(), work, self.bytes.lend()),
            Call::Savings => packed::savings(input, work, self.percent.lend()),
            Call::Order => packed::order(self.first_clock.contents(), self.second_clock.contents()),
        }
    }

    pub fn answers(&self, case: &Case) -> Vec<u8> {
        match case.call {
            Call::Class | Call::ClassLamport | Call::Mark => self.bytes.contents().to_vec(),
            _ => Vec::new(),
        }
    }

    /// Nothing outside the lent slices was written, and no input.
    pub fn check_surroundings(&self, case: &Case, side: &str) -> Result<(), Difference> {
        let guards = [
            (self.input.guards_hold(), "input"),
            (self.lines.guards_hold(), "lines"),
            (self.clocks.guards_hold(), "clocks"),
            (self.masks.guards_hold(), "masks"),
            (self.values.guards_hold(), "values"),
            (self.lamports.guards_hold(), "lamports"),
            (self.bytes.guards_hold(), "answers, sheet or marks"),
            (self.chain.guards_hold(), "chain"),
            (self.percent.guards_hold(), "percent"),
            (self.first_clock.guards_hold(), "first clock"),
            (self.second_clock.guards_hold(), "second clock"),
        ];
        if let Some((_, buffer)) = guards.iter().find(|(hold, _)| !hold) {
            return Err(Difference(format!("{side} wrote beside the {buffer}")));
        }
        let inputs_hold = self.input.contents() == case.input
            && self.lines.contents() == case.lines
            && self.first_clock.contents() == case.clocks.0
            && self.second_clock.contents() == case.clocks.1;
        if !inputs_hold {
            return Err(Difference(format!("{side} wrote into its input")));
        }
        Ok(())
    }

    pub fn check_equal(&self, second: &Desk) -> Result<(), Difference> {
        let differences = [
            ("clocks", self.clocks.first_difference(&second.clocks)),
            ("masks", self.masks.first_difference(&second.masks)),
            ("values", self.values.first_difference(&second.values)),
            ("lamports", self.lamports.first_difference(&second.lamports)),
            (
                "answers, sheet or marks",
                self.bytes.first_difference(&second.bytes),
            ),
            ("chain", self.chain.first_difference(&second.chain)),
            ("percent", self.percent.first_difference(&second.percent)),
        ];
        for (buffer, difference) in differences {
            if let Some(difference) = difference {
                return Err(Difference(format!("{buffer}: {difference}")));
            }
        }
        Ok(())
    }
}
