//! Times the program `listing` against `cat` on one sheet: both are started in turn, and the best and the middle time of each count.

use std::fs::File;
use std::process::{Command, Stdio};
use std::time::{Duration, Instant};

const STARTS: usize = 2_000;

fn main() {
    let arguments: Vec<String> = std::env::args().skip(1).collect();
    let [listing, sheet] = &arguments[..] else {
        eprintln!("usage: programs LISTING SHEET");
        std::process::exit(2);
    };
    let mut times = [Vec::new(), Vec::new()];
    for _ in 0..STARTS {
        times[0].push(time_of(listing, sheet));
        times[1].push(time_of("cat", sheet));
    }
    println!("| program | best of {STARTS} | middle |");
    println!("|---|---:|---:|");
    for (name, times) in ["listing", "cat"].iter().zip(&mut times) {
        times.sort_unstable();
        let [best, middle] = [times[0], times[STARTS / 2]].map(|time| time.as_secs_f64() * 1e6);
        println!("| {name} | {best:.0} us | {middle:.0} us |");
    }
    let ratio = times[0][STARTS / 2].as_secs_f64() / times[1][STARTS / 2].as_secs_f64();
    println!();
    println!("listing / cat, middle times: {ratio:.2}");
}

fn time_of(program: &str, sheet: &str) -> Duration {
    let input = File::open(sheet).expect("the sheet opens");
    let begin = Instant::now();
    let status = Command::new(program)
        .stdin(input)
        .stdout(Stdio::null())
        .status()
        .expect("the program starts");
    let time = begin.elapsed();
    assert!(status.success(), "{program} failed");
    time
}
