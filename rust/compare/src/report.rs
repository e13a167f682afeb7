//! Writes a case with a difference into files, so that it can be looked at and run again.

use std::fs;
use std::io;
use std::path::{Path, PathBuf};

use cases::Case;

use crate::Difference;

/// Gives the text file's name; the input stands beside it as a .bin file, the pupil's list as a .lines file.
pub fn write(
    folder: &Path,
    seed: u64,
    case: &Case,
    difference: &Difference,
) -> io::Result<PathBuf> {
    fs::create_dir_all(folder)?;
    let text_file = folder.join(format!("case-{seed}.txt"));
    let input_file = text_file.with_extension("bin");
    fs::write(&input_file, &case.input)?;
    fs::write(text_file.with_extension("lines"), &case.lines)?;
    fs::write(&text_file, text(seed, case, difference))?;
    Ok(text_file)
}

fn text(seed: u64, case: &Case, difference: &Difference) -> String {
    let (first, second) = case.positions;
    let work = case.work;
    let lines = [
        format!("call {:?}", case.call),
        format!("seed of the case {seed}"),
        format!("process count {}", case.processes),
        format!("input bytes {}", case.input.len()),
        format!("bytes of the pupil's list {}", case.lines.len()),
        format!("clock slots {}", work.clocks),
        format!("mask slots {}", work.masks),
        format!("value slots {}", work.values),
        format!("lamport slots {}", case.lamports),
        format!("output slots {}", case.output),
        format!("positions {first} {second}"),
        format!("first clock {:?}", case.clocks.0),
        format!("second clock {:?}", case.clocks.1),
        format!("difference {}", difference.0),
    ];
    lines.join("\n") + "\n"
}
