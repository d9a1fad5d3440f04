//! The command list, for list.rs and for the example of the crate that is in rust/.
use crate::listing;
use crate::scanner::{library_version, Scanner, Settings};
use std::ffi::OsString;
use std::io::{self, BufWriter, ErrorKind, Read, Write};
use std::path::Path;
use std::process::ExitCode;

const HELP: &str = "Lists the tokens of a file, one a line.

  ENC            any, utf8, utf16le or utf16be; any without it
  LIMIT          the key limit, 1 to 65536; 1024 without it
  -h, --help     print this
      --version  print the version

The exit status is 0; 1 if there is a fault; 2 for wrong words; 3 if reading or writing fails.
A standard input that is closed is an empty one: Rust opens /dev/null for it.
";

/// What the words ask for.
enum Asked {
    Help,
    Version,
    List(Settings),
}

/// What the words ask for, or what is wrong with them. After `--` no word is an option.
fn asked(words: impl Iterator<Item = OsString>) -> Result<Asked, String> {
    let mut plain = Vec::new();
    let mut is_option = true;
    for word in words.map(|word| word.to_string_lossy().into_owned()) {
        match word.as_str() {
            "--" if is_option => is_option = false,
            "-h" | "--help" if is_option => return Ok(Asked::Help),
            "--version" if is_option => return Ok(Asked::Version),
            option if is_option && option.starts_with('-') => return Err(format!("unrecognized option '{option}'")),
            _ => plain.push(word),
        }
    }
    listing::settings(&plain).map(Asked::List)
}

/// An error that also says what was read or written, and has no number.
fn named(name: &'static str) -> impl Fn(io::Error) -> io::Error {
    move |error| {
        let told = error.to_string();
        let reason = told.split(" (os error").next().unwrap_or_default();
        io::Error::new(error.kind(), format!("{name}: {reason}"))
    }
}

/// Writes what is asked for, and returns whether there is a fault.
fn write(out: &mut dyn Write, asked: Asked, program: &str, input: &[u8]) -> io::Result<bool> {
    let mut fault = None;
    match asked {
        Asked::Help => write!(out, "usage: {program} [ENC [LIMIT]] < FILE\n\n{HELP}")?,
        Asked::Version => writeln!(out, "{program} (Bogzhami) {}", library_version())?,
        Asked::List(settings) => {
            let mut scanner = Scanner::with_settings(input, settings).expect("the key limit is right");
            fault = listing::list(out, &mut scanner)?;
        }
    }
    out.flush()?;
    Ok(fault.is_some())
}

/// Does what is asked for, and returns whether there is a fault.
fn obey(asked: Asked, program: &str) -> io::Result<bool> {
    let mut input = Vec::new();
    if matches!(asked, Asked::List(_)) {
        io::stdin().read_to_end(&mut input).map_err(named("standard input"))?;
    }
    let mut out = BufWriter::new(io::stdout().lock());
    write(&mut out, asked, program, &input).map_err(named("standard output"))
}

/// Runs the command. A pipe that no one reads any more ends it without a word.
pub fn run() -> ExitCode {
    let mut words = std::env::args_os();
    let path = words.next().unwrap_or_else(|| "list".into());
    let program = Path::new(&path).file_name().unwrap_or(&path).to_string_lossy();
    let ended = asked(words).map(|asked| obey(asked, &program));
    match &ended {
        Err(wrong) => eprintln!(
            "{program}: {wrong}\nusage: {program} [any|utf8|utf16le|utf16be [LIMIT]] < FILE    (LIMIT is 1 to 65536)"
        ),
        Ok(Err(error)) if error.kind() != ErrorKind::BrokenPipe => eprintln!("{program}: {error}"),
        _ => (),
    }
    ExitCode::from(match ended {
        Ok(Ok(has_fault)) => has_fault.into(),
        Ok(Err(_)) => 3,
        Err(_) => 2,
    })
}
