//! list [ENC [LIMIT]] < FILE: lists the tokens of a file, one a line, as `yamltok scan ENC LIMIT` does.
//! The exit status is 0; 1 if there is a fault; 2 for wrong words; 3 if reading or writing fails.
mod command;
mod listing;

use bogzhami as scanner; // by this name the two modules call the crate
use std::process::ExitCode;

fn main() -> ExitCode {
    command::run()
}
