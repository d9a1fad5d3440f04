//! list [ENC [LIMIT]] < FILE: lists the tokens of a file, one a line, as `./run scan ENC LIMIT` does.
//! An example of rust/src/scanner.rs as a module.
//! The exit status is 0; 1 if there is a fault; 2 for wrong words; 3 if reading or writing fails.
#[path = "../rust/examples/list/command.rs"]
mod command;
#[path = "../rust/examples/list/listing.rs"]
mod listing;
#[path = "../rust/src/scanner.rs"]
mod scanner;

use std::process::ExitCode;

fn main() -> ExitCode {
    command::run()
}
