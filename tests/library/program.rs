//! What the programs of this folder share: their arguments, and how they end.

use crate::calls::Options;
use std::ops::RangeInclusive;
use std::process::ExitCode;

/// `NAME FIRST LAST CALLS [--large|--small]`: what `work` says of the lists of these seeds, each of so many calls.
fn asked(work: impl FnOnce(RangeInclusive<u64>, u32, Options) -> Result<String, String>) -> Result<String, String> {
    let arguments: Vec<String> = std::env::args().skip(1).collect();
    let number = |at: usize| arguments.get(at).and_then(|word| word.parse::<u64>().ok());
    let (Some(first), Some(last), Some(calls)) = (number(0), number(1), number(2)) else {
        return Err("arguments: FIRST LAST CALLS [--large|--small]".to_string());
    };
    let options = Options {
        large: arguments.iter().any(|word| word == "--large"),
        small: arguments.iter().any(|word| word == "--small"),
        clean: true,
    };
    work(first..=last, calls as u32, options)
}

/// Prints what `work` says, and fails if it does.
pub fn program(work: impl FnOnce(RangeInclusive<u64>, u32, Options) -> Result<String, String>) -> ExitCode {
    ended(asked(work))
}

/// Prints what is said, and fails if it is an error.
pub fn ended(said: Result<String, String>) -> ExitCode {
    let (said, status) = match said {
        Ok(said) => (said, ExitCode::SUCCESS),
        Err(why) => (why, ExitCode::FAILURE),
    };
    println!("{said}");
    status
}
