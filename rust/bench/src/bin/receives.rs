//! What a receive costs, and a whole sheet: the library, a version whose merge looks at all thirty-two components, and the second
//! program, on the same inputs in one run. `receives times` times them, `receives instructions` counts their instructions by callgrind.
//! With a further word BEFORE, an earlier build of the library is measured too: a shared object of that path.

use std::process::{Command, Stdio};

use bench::rows::{tables, Table};
use bench::timing::{best_nanoseconds, Run, REPETITIONS};

fn main() {
    let arguments: Vec<String> = std::env::args().skip(1).collect();
    let words: Vec<&str> = arguments.iter().map(String::as_str).collect();
    match words[..] {
        ["times"] => print_times(None),
        ["times", before] => print_times(Some(before)),
        ["instructions"] => print_instructions(None),
        ["instructions", before] => print_instructions(Some(before)),
        ["run", number] => run_once(None, number.parse().expect("a run's number")),
        ["run", number, before] => run_once(Some(before), number.parse().expect("a run's number")),
        _ => {
            eprintln!("usage: receives times|instructions [BEFORE]");
            std::process::exit(2);
        }
    }
}

fn print_times(before: Option<&str>) {
    println!("Nanoseconds, best of {REPETITIONS} repetitions.");
    for mut table in tables(before) {
        table.print_head();
        for row in &mut table.rows {
            let times = best_nanoseconds(&mut row.runs);
            row.print(&times);
        }
    }
}

fn print_instructions(before: Option<&str>) {
    println!("Instructions by valgrind --tool=callgrind.");
    let mut number = 0;
    for table in tables(before) {
        table.print_head();
        for row in &table.rows {
            let runs = number..number + row.runs.len();
            number = runs.end;
            let counts: Vec<f64> = runs.map(|run| instructions(before, run)).collect();
            row.print(&counts);
        }
    }
}

/// A run by itself in a process of its own, where only `counted` is counted.
fn instructions(before: Option<&str>, number: usize) -> f64 {
    let output = Command::new("valgrind")
        .args(["--tool=callgrind", "--callgrind-out-file=/dev/null"])
        .arg("--toggle-collect=counted")
        .arg(std::env::current_exe().expect("the path of this program"))
        .args(["run", &number.to_string()])
        .args(before)
        .stdout(Stdio::null())
        .output()
        .expect("valgrind starts");
    let said = String::from_utf8_lossy(&output.stderr).into_owned();
    let count = said
        .lines()
        .find_map(|line| line.split_once("Collected : "));
    let (_, count) = count.unwrap_or_else(|| panic!("valgrind counted nothing: {said}"));
    count.trim().parse().expect("a count of instructions")
}

/// Once to warm up, and once to be counted.
fn run_once(before: Option<&str>, number: usize) {
    let mut runs = tables(before).into_iter().flat_map(Table::into_runs);
    let mut run = runs.nth(number).expect("a run of that number");
    run();
    counted(&mut run);
}

#[no_mangle]
#[inline(never)]
extern "C" fn counted(run: &mut Run) {
    run();
}
