//! The stack that each exported call uses, and the memory that library and source hold.
//!
//! `sizes stack`: one line for each call, its name and the most bytes of stack that it used, its return address and what it
//! calls included, its arguments not: lists of generated calls are made on windows of all sizes, each call on a stack that
//! was painted with a pattern before. `sizes memory`: one line for each window and content.

/// The source's work counters stay out.
macro_rules! count_work {
    ($($counter:tt)*) => {};
}

#[allow(dead_code)] // the generator uses the rest
#[path = "../../oracle/src/calls.rs"]
mod calls;
#[allow(dead_code)] // the comparison uses the rest
#[path = "../library/declared.rs"]
mod declared;
#[path = "../../oracle/src/line.rs"]
mod line;
mod memory;
mod stack;
#[allow(dead_code)] // the oracle uses the rest
#[path = "../../oracle/target/window.rs"]
mod window;

use std::process::ExitCode;

fn main() -> ExitCode {
    match std::env::args().nth(1).as_deref() {
        Some("stack") => stack::print(),
        Some("memory") => memory::print(),
        _ => {
            println!("usage: sizes stack|memory");
            return ExitCode::FAILURE;
        }
    }
    ExitCode::SUCCESS
}
