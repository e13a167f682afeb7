//! Many cases from fixed seeds, and a count of what they showed.

use cases::case_of;
use cases::random::seed_of_case;
use compare::{run, Tally};

const RUNS: u64 = 6;
const CASES_OF_A_RUN: u64 = 40_000;
const SEEN_AT_LEAST: usize = 60;

fn agree_on_run(run_seed: u64, tally: &mut Tally) {
    for index in 0..CASES_OF_A_RUN {
        let seed = seed_of_case(run_seed, index);
        let case = case_of(seed);
        match run(&case) {
            Ok(agreed) => tally.add(&case, &agreed),
            Err(difference) => panic!("{:?} of seed {seed}: {}", case.call, difference.0),
        }
    }
}

#[test]
fn both_sides_agree_and_every_answer_is_seen() {
    let mut tally = Tally::default();
    for run_seed in 1..=RUNS {
        agree_on_run(run_seed, &mut tally);
    }
    assert_eq!(tally.unknown_numbers(), []);
    for wanted in Tally::wanted() {
        let count = tally.of(wanted);
        assert!(count >= SEEN_AT_LEAST, "{wanted:?} was seen {count} times");
    }
}
