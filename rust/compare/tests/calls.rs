//! The box's calls with buffers of given lengths: 9 and 21, which no program can get, since programs lend enough; and 30.

use std::fs;
use std::path::Path;

use cases::lengths::WorkLengths;
use cases::{Call, Case};
use compare::run;
use oboefinch::Answer;

const BOX: &str = concat!(env!("CARGO_MANIFEST_DIR"), "/../../box");

#[test]
fn each_call_of_the_box_gives_what_it_says() {
    let mut seen = Vec::new();
    for entry in fs::read_dir(Path::new(BOX).join("calls")).unwrap() {
        let path = entry.unwrap().path();
        let text = fs::read_to_string(&path).unwrap();
        let (case, gives) = case_of(&text);
        let agreed = run(&case).unwrap_or_else(|difference| panic!("{path:?}: {}", difference.0));
        let answer = Answer::unpack(agreed.packed);
        assert_eq!(said(&answer), gives, "{path:?}");
        seen.push(answer.number);
    }
    assert!([9, 21, 30].iter().all(|number| seen.contains(number)));
}

fn said(answer: &Answer) -> String {
    match answer.number {
        0 => "accepted".to_string(),
        number => format!("refused {number} at {}", answer.y),
    }
}

/// A line for each word: the call, its arguments, and what it gives.
fn case_of(text: &str) -> (Case, String) {
    let mut case = Case::default();
    let mut gives = String::new();
    for line in text.lines() {
        let (word, rest) = line.split_once(' ').expect("a word and what it says");
        match word {
            "call" => case.call = call_of(rest),
            "processes" => case.processes = numbers(rest)[0],
            "input" => case.input = fs::read(Path::new(BOX).join(rest)).unwrap(),
            "lines" => case.lines = fs::read(Path::new(BOX).join(rest)).unwrap(),
            "work" => case.work = work_of(&numbers(rest)),
            "lamports" => case.lamports = numbers(rest)[0],
            "output" => case.output = numbers(rest)[0],
            "positions" => case.positions = (numbers(rest)[0], numbers(rest)[1]),
            "gives" => gives = rest.to_string(),
            _ => panic!("no such word: {word}"),
        }
    }
    (case, gives)
}

fn call_of(name: &str) -> Call {
    match name {
        "read" => Call::Read,
        "read_lamport" => Call::ReadLamport,
        "class" => Call::Class,
        "class_lamport" => Call::ClassLamport,
        "write" => Call::Write,
        "compare" => Call::Compare,
        "chain" => Call::Chain,
        "mark" => Call::Mark,
        "savings" => Call::Savings,
        _ => panic!("no such call: {name}"),
    }
}

fn work_of(lengths: &[usize]) -> WorkLengths {
    WorkLengths {
        clocks: lengths[0],
        masks: lengths[1],
        values: lengths[2],
    }
}

fn numbers(text: &str) -> Vec<usize> {
    text.split(' ').map(|word| word.parse().unwrap()).collect()
}
