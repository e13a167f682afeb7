//! The seven programs of the second program: `second PROGRAM [ARGUMENT...]`, sheet or list on standard input.

use std::io::{Read, Write};
use std::process::ExitCode;

use second::text::{self, Printed};

fn main() -> ExitCode {
    let words: Vec<String> = std::env::args_os()
        .skip(1)
        .map(|word| word.to_string_lossy().into_owned())
        .collect();
    let words: Vec<&str> = words.iter().map(String::as_str).collect();
    let mut input = Vec::new();
    if std::io::stdin().read_to_end(&mut input).is_err() {
        return ExitCode::FAILURE;
    }
    let Some(printed) = run(&words, &input) else {
        eprintln!("usage: second listing|compare|chain|class|write|marker|savings [ARGUMENT...]");
        return ExitCode::FAILURE;
    };
    let out = std::io::stdout().write_all(&printed.output);
    let err = std::io::stderr().write_all(&printed.error);
    match out.and(err) {
        Ok(()) => ExitCode::SUCCESS,
        Err(_) => ExitCode::FAILURE,
    }
}

fn run(words: &[&str], input: &[u8]) -> Option<Printed> {
    let (program, arguments) = words.split_first()?;
    match *program {
        "listing" => Some(text::listing(arguments, input)),
        "compare" => Some(text::compare(arguments, input)),
        "chain" => Some(text::chain(arguments, input)),
        "class" => Some(text::class(arguments, input)),
        "write" => Some(text::write(arguments, input)),
        "marker" => Some(text::marker(first_file(arguments).as_deref(), input)),
        "savings" => Some(text::savings(input)),
        _ => None,
    }
}

fn first_file(arguments: &[&str]) -> Option<Vec<u8>> {
    std::fs::read(arguments.first()?).ok()
}
