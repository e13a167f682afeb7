//! Compares both sides on many cases: `soak CASES FOLDER [SEED]`; a difference is written into FOLDER.

use std::path::Path;
use std::process::ExitCode;
use std::time::{SystemTime, UNIX_EPOCH};

use cases::case_of;
use cases::random::seed_of_case;
use compare::{report, run};

/// How often it is said how far it is.
const LINES: u64 = 20;

struct Wanted {
    cases: u64,
    folder: String,
    seed: u64,
}

fn main() -> ExitCode {
    let Some(wanted) = wanted() else {
        eprintln!("usage: soak CASES FOLDER [SEED]");
        return ExitCode::from(2);
    };
    println!("seed {}", wanted.seed);
    let between = (wanted.cases / LINES).max(1);
    for index in 0..wanted.cases {
        if !agrees(&wanted, index) {
            return ExitCode::FAILURE;
        }
        let done = index + 1;
        if done.is_multiple_of(between) && done != wanted.cases {
            eprintln!("{done} of {} cases so far", wanted.cases);
        }
    }
    println!("{} cases, 0 differences", wanted.cases);
    ExitCode::SUCCESS
}

fn wanted() -> Option<Wanted> {
    let mut arguments = std::env::args().skip(1);
    let cases = arguments.next()?.parse().ok()?;
    let folder = arguments.next()?;
    let seed = match arguments.next() {
        Some(seed) => seed.parse().ok()?,
        None => fresh_seed(),
    };
    Some(Wanted {
        cases,
        folder,
        seed,
    })
}

fn fresh_seed() -> u64 {
    let now = SystemTime::now().duration_since(UNIX_EPOCH);
    now.map_or(0, |since| since.as_nanos() as u64)
}

fn agrees(wanted: &Wanted, index: u64) -> bool {
    let seed = seed_of_case(wanted.seed, index);
    let case = case_of(seed);
    let Err(difference) = run(&case) else {
        return true;
    };
    println!("case {index}: {}", difference.0);
    match report::write(Path::new(&wanted.folder), seed, &case, &difference) {
        Ok(file) => println!("{}", file.display()),
        Err(error) => println!("no file in {}: {error}", wanted.folder),
    }
    false
}
