//! pieces [ENC [LIMIT]] < FILE: lists the tokens of a pipe, one a line, each as soon as no more bytes can change it.
//! The exit status is 0; 1 if there is a fault; 2 for wrong words; 3 if reading or writing fails.
#[path = "list/listing.rs"]
#[allow(dead_code)]
mod listing;

use bogzhami as scanner; // by this name listing.rs calls the crate
use scanner::{PieceError, Pieces, Settings};
use std::io::{self, ErrorKind, Write};
use std::process::ExitCode;

/// Lists what comes, and returns whether there is a fault. Rust's standard output shows each line when it ends.
fn list(settings: Settings) -> io::Result<bool> {
    let mut out = io::stdout().lock();
    for item in Pieces::with_settings(io::stdin().lock(), settings).expect("the key limit is right") {
        match item {
            Ok(token) => writeln!(out, "{}", listing::line(token))?,
            Err(PieceError::Io(error)) => return Err(error),
            Err(PieceError::Fault(fault)) => {
                writeln!(out, "{}", listing::fault_line(&fault))?;
                return Ok(true);
            }
        }
    }
    Ok(false)
}

fn main() -> ExitCode {
    let words: Vec<String> = std::env::args_os().skip(1).map(|word| word.to_string_lossy().into_owned()).collect();
    let ended = listing::settings(&words).map(list);
    match &ended {
        Err(wrong) => eprintln!("pieces: {wrong}\nusage: pieces [any|utf8|utf16le|utf16be [LIMIT]] < FILE"),
        Ok(Err(error)) if error.kind() != ErrorKind::BrokenPipe => eprintln!("pieces: {error}"),
        _ => (),
    }
    ExitCode::from(match ended {
        Ok(Ok(has_fault)) => has_fault.into(),
        Ok(Err(_)) => 3,
        Err(_) => 2,
    })
}
