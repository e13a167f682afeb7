//! The tables of what a receive costs: in each row the same input for every side.

use std::hint::black_box;
use std::rc::Rc;

use second::clock::MOST_PROCESSES;
use second::event::RECORD_SIZE;

use crate::merge::Merge;
use crate::opened::Opened;
use crate::receives::{Receives, CARRIED};
use crate::sides::{call, Buffers, Side, Task};
use crate::tasks;
use crate::timing::Run;

/// A merge is short: so many are made in one run.
const MERGES: usize = 64;

type Figures = dyn Fn(&[f64]) -> Vec<f64>;

pub struct Row {
    name: String,
    pub runs: Vec<Run>,
    /// What is printed, of what the runs took.
    figures: Box<Figures>,
}

impl Row {
    pub fn print(&self, taken: &[f64]) {
        let figures = (self.figures)(taken);
        let cells: Vec<String> = figures
            .iter()
            .map(|figure| format!("{figure:.1}"))
            .collect();
        println!("| {} | {} |", self.name, cells.join(" | "));
    }
}

pub struct Table {
    title: &'static str,
    columns: Vec<&'static str>,
    pub rows: Vec<Row>,
}

impl Table {
    pub fn print_head(&self) {
        println!();
        println!("{}", self.title);
        println!();
        println!("| | {} |", self.columns.join(" | "));
        println!("|---|{}", "---:|".repeat(self.columns.len()));
    }

    pub fn into_runs(self) -> impl Iterator<Item = Run> {
        self.rows.into_iter().flat_map(|row| row.runs)
    }
}

const FORMS: [&str; 2] = ["from set bit to set bit", "looks at all 32"];

/// `before` is the path of an earlier build of the library, where there is one to measure.
pub fn tables(before: Option<&str>) -> Vec<Table> {
    let mut named = vec![
        ("after", Side::Library),
        ("looks at all 32", Side::LooksAtAll),
        ("tuned", Side::Wide),
        ("second", Side::Second),
    ];
    if let Some(path) = before {
        let opened = Box::leak(Box::new(Opened::at(path)));
        named.insert(0, ("before", Side::Before(opened)));
    }
    let (names, sides): (Vec<&str>, Vec<Side>) = named.into_iter().unzip();
    let rows_of_receives = CARRIED.map(|carried| receives_row(&sides, Receives::of(carried)));
    vec![
        Table {
            title: "The merge itself, where every carried component grows:",
            columns: FORMS.to_vec(),
            rows: CARRIED.map(merge_row).into(),
        },
        Table {
            title: "A receive at 32 processes, in class mode (a list with these receives less the list without them):",
            columns: names.clone(),
            rows: rows_of_receives.into(),
        },
        Table {
            title: "Reading a whole sheet, for each event:",
            columns: names,
            rows: tasks::sheets().into_iter().map(|row| sheet_row(&sides, row)).collect(),
        },
    ]
}

fn receives_row(sides: &[Side], receives: Receives) -> Row {
    let (count, many) = (receives.count as f64, sides.len());
    let name = format!("{} carried", receives.carried);
    let events = receives.with.input.len() / RECORD_SIZE;
    let tasks = [receives.with, receives.without];
    let runs = tasks
        .into_iter()
        .flat_map(|task| call_runs(sides, task, events));
    Row {
        name,
        runs: runs.collect(),
        figures: Box::new(move |taken| {
            let (with, without) = taken.split_at(many);
            let pairs = with.iter().zip(without);
            pairs
                .map(|(with, without)| (with - without) / count)
                .collect()
        }),
    }
}

fn sheet_row(sides: &[Side], row: tasks::Row) -> Row {
    let events = row.events as f64;
    let name = format!(
        "{}, {} processes, {} events",
        row.shape, row.task.processes, row.events
    );
    Row {
        name,
        runs: call_runs(sides, row.task, row.events),
        figures: Box::new(move |taken| taken.iter().map(|whole| whole / events).collect()),
    }
}

/// Each side on the same task, once all of them gave the same.
fn call_runs(sides: &[Side], task: Task, events: usize) -> Vec<Run> {
    let lent = Buffers::exactly_for(task.processes, events);
    let answered = sides.iter().map(|side| {
        let mut buffers = lent.clone();
        (call(*side, &task, &mut buffers), buffers)
    });
    let answered: Vec<(u64, Buffers)> = answered.collect();
    assert!(
        answered.iter().all(|each| *each == answered[0]),
        "two sides differ"
    );
    let task = Rc::new(task);
    let runs = sides
        .iter()
        .map(|side| call_run(*side, Rc::clone(&task), lent.clone()));
    runs.collect()
}

fn call_run(side: Side, task: Rc<Task>, mut buffers: Buffers) -> Run {
    Box::new(move || {
        black_box(call(side, black_box(&task), black_box(&mut buffers)));
    })
}

fn merge_row(carried: u8) -> Row {
    Row {
        name: format!("{carried} carried"),
        runs: vec![
            merge_run(carried, |merge, mask, values| merge.walk(mask, values)),
            merge_run(carried, |merge, mask, values| {
                merge.look_at_all(mask, values)
            }),
        ],
        figures: Box::new(|taken| taken.iter().map(|whole| whole / MERGES as f64).collect()),
    }
}

/// A clock takes in stamps whose values grow from one to the next, so that each merge raises every carried component.
fn merge_run(carried: u8, mut form: impl FnMut(&mut Merge, u32, &[u16]) + 'static) -> Run {
    let mask = u32::MAX >> (32 - carried);
    let stamps: Vec<Vec<u16>> = (0..MERGES as u16)
        .map(|value| vec![value + 1; usize::from(carried)])
        .collect();
    Box::new(move || {
        let (mut clock, mut last_update) = ([0; MOST_PROCESSES], [0; MOST_PROCESSES]);
        for (own, values) in (1..).zip(black_box(&stamps)) {
            let mut merge = Merge {
                clock: black_box(&mut clock),
                last_update: black_box(&mut last_update),
                own,
            };
            form(&mut merge, black_box(mask), values);
        }
    })
}
