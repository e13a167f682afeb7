//! Times class mode and reading: the library, the second program, two tuned anchors and the floor.

use std::hint::black_box;
use std::rc::Rc;

use bench::sides::{call, Buffers, Floor, Side};
use bench::tasks::{self, Row};
use bench::timing::{best_nanoseconds, Run, REPETITIONS};
use oboefinch::Answer;

const SIDES: [Side; 4] = [Side::Library, Side::Second, Side::Tuned, Side::Wide];

fn main() {
    println!("Nanoseconds for each event of the list, best of {REPETITIONS} repetitions.");
    println!("Buffers have the exact lengths and are not cleared before a call: each call is lent");
    println!("what the one before it left. All sides gave equal results before the timing.");
    println!("Floor: the named slots cleared and the known results copied in, nothing judged.");
    println!();
    println!("| call | shape | events | processes | library | second | tuned | wide | floor | library / tuned |");
    println!("|---|---|---:|---:|---:|---:|---:|---:|---:|---:|");
    let rows = tasks::rows();
    let many = rows.len();
    for (place, row) in rows.into_iter().enumerate() {
        eprintln!("row {} of {many}", place + 1);
        print_row(row);
    }
}

fn print_row(row: Row) {
    let row = Rc::new(row);
    let floor = agreed_result(&row);
    let times = times_of_row(&row, floor);
    let each: Vec<f64> = times
        .iter()
        .map(|whole| whole / row.events as f64)
        .collect();
    let [library, second, tuned, wide, floor] = each[..] else {
        unreachable!("one time for each side and the floor");
    };
    println!(
        "| {:?} | {} | {} | {} | {library:.1} | {second:.1} | {tuned:.1} | {wide:.1} | {floor:.1} | {:.2} |",
        row.task.call,
        row.shape,
        row.events,
        row.task.processes,
        library / tuned
    );
}

fn times_of_row(row: &Rc<Row>, floor: Floor) -> Vec<f64> {
    let mut runs: Vec<Run> = SIDES
        .iter()
        .map(|side| {
            let (side, row, mut buffers) = (*side, Rc::clone(row), buffers_for(row));
            let run = move || {
                black_box(call(side, black_box(&row.task), black_box(&mut buffers)));
            };
            Box::new(run) as Run
        })
        .collect();
    let mut buffers = buffers_for(row);
    runs.push(Box::new(move || {
        black_box(&floor).clear_and_fill(black_box(&mut buffers))
    }));
    best_nanoseconds(&mut runs)
}

/// Checks that all sides give the same, and keeps it as the floor's results.
fn agreed_result(row: &Row) -> Floor {
    let [library, second, tuned, wide] = SIDES.map(|side| {
        let mut buffers = buffers_for(row);
        let packed = call(side, &row.task, &mut buffers);
        (packed, buffers)
    });
    assert!(library == second, "library and second differ");
    assert!(tuned == second, "tuned and second differ");
    assert!(wide == second, "wide and second differ");
    let (packed, buffers) = second;
    assert_eq!(Answer::unpack(packed).number, 0, "the task is refused");
    let floor = Floor::of(&row.task, packed, buffers.clone());
    let mut filled = buffers_for(row);
    floor.clear_and_fill(&mut filled);
    assert!(filled == buffers, "floor and second differ");
    floor
}

fn buffers_for(row: &Row) -> Buffers {
    Buffers::exactly_for(row.task.processes, row.events)
}
