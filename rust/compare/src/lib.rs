//! Runs the library and the second program on the same case and compares every slot they were lent.

mod desk;
mod lent;
pub mod report;
mod tally;

pub use tally::{Seen, Tally};

use cases::Case;
use desk::Desk;

/// The surroundings of the lent slices differ between the sides: no answer may depend on them.
const AROUND_THE_LIBRARY: u64 = 1;
const AROUND_THE_SECOND: u64 = 2;

/// What both sides agreed on.
#[derive(Clone, Debug, PartialEq, Eq)]
pub struct Agreed {
    pub packed: u64,
    /// The answers of class mode or the marks; empty for other calls.
    pub answers: Vec<u8>,
}

/// In what the two sides differ, in words.
#[derive(Clone, Debug, PartialEq, Eq)]
pub struct Difference(pub String);

pub fn run(case: &Case) -> Result<Agreed, Difference> {
    let mut library = Desk::for_case(case, AROUND_THE_LIBRARY);
    let mut second = Desk::for_case(case, AROUND_THE_SECOND);
    let packed = library.call_library(case);
    let expected = second.call_second(case);
    if packed != expected {
        let answers = format!("the library answers {packed:#x}, the second {expected:#x}");
        return Err(Difference(answers));
    }
    library.check_surroundings(case, "the library")?;
    second.check_surroundings(case, "the second")?;
    library.check_equal(&second)?;
    Ok(Agreed {
        packed,
        answers: library.answers(case),
    })
}
