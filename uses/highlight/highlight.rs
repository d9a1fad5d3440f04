//! highlight [--html] [FILE ..]: shows YAML files in colours, in the terminal or as a page of HTML, while they are read. Without a
//! file, or for the file `-`, it reads standard input. The exit status is 0; 1 when a file has a fault; 2 when the words are wrong;
//! 3 when a file can not be read, the output can not be written or memory is refused.
mod page;
mod pieces;
#[path = "../../rust/src/scanner.rs"]
mod scanner;
mod screen;
mod show;
mod terminal;
mod text;
mod words;

use scanner::library_version;
use screen::Screen;
use show::Show;
use std::ffi::{OsStr, OsString};
use std::fs::File;
use std::io::{self, ErrorKind, Read, Write};
use std::path::Path;
use std::process::ExitCode;
use words::Asked;

/// The exit status when reading or writing fails, or memory is refused.
const LOST: u8 = 3;

/// How many bytes are read at a time, at most.
const ROOM: usize = 1 << 16;

/// How texts are shown.
#[derive(Clone, Copy, PartialEq, Eq)]
pub enum Form {
    Page,
    Colours,
    /// In the terminal, without colours.
    Plain,
}

/// The command as it was called.
struct Command {
    program: String,
    form: Form,
}

/// Why reading or writing failed, without a number.
fn reason(error: &io::Error) -> String {
    error.to_string().split(" (os error").next().unwrap_or_default().to_string()
}

impl Command {
    fn fail(&self, out: &mut Screen, what: &str, why: &str) -> io::Result<u8> {
        out.end_line()?;
        eprintln!("{}: {what}: {why}", self.program);
        Ok(LOST)
    }

    /// Shows a file while it is read, and returns the exit status that it asks for.
    fn show(&self, out: &mut Screen, title: &str, mut file: impl Read) -> io::Result<u8> {
        let mut show = Show::new(out, self.form, title);
        let mut room = vec![0; ROOM];
        let failure = loop {
            match file.read(&mut room) {
                Ok(0) => break None,
                Ok(len) => {
                    if show.add(&room[..len])? {
                        break None; // memory was refused
                    }
                }
                Err(error) if error.kind() == ErrorKind::Interrupted => (),
                Err(error) => break Some(reason(&error)),
            }
        };
        let is_refused = show.finish(failure.is_none())?;
        let problem = show.problem();
        if let Some(failure) = failure.or_else(|| is_refused.then(|| "out of memory".into())) {
            return self.fail(out, title, &failure);
        }
        let problem = match problem {
            Some(problem) => problem,
            None => return Ok(0),
        };
        out.end_line()?;
        eprintln!("{title}:{}:{}: {}", problem.line, problem.column, problem.message);
        Ok(1)
    }

    fn show_file(&self, out: &mut Screen, name: &OsStr) -> io::Result<u8> {
        let title = title(name);
        if name == "-" {
            return self.show(out, &title, io::stdin().lock());
        }
        match File::open(name) {
            Ok(file) => self.show(out, &title, file),
            Err(error) => self.fail(out, &title, &reason(&error)),
        }
    }

    /// Shows all files, and returns the exit status.
    fn show_all(&self, out: &mut Screen, names: &[OsString]) -> io::Result<u8> {
        if self.form == Form::Page {
            page::begin(out, &title(&names[0]))?;
        }
        let mut status = 0;
        for name in names {
            status = status.max(self.show_file(out, name)?);
        }
        if self.form == Form::Page {
            page::end(out)?;
        }
        out.flush()?;
        Ok(status)
    }
}

/// What a file is called.
fn title(name: &OsStr) -> String {
    if name == "-" {
        return "standard input".into();
    }
    name.to_string_lossy().into_owned()
}

fn form(is_page: bool) -> Form {
    let no_colours = std::env::var_os("NO_COLOR").map_or(false, |value| !value.is_empty());
    match (is_page, no_colours) {
        (true, _) => Form::Page,
        (false, true) => Form::Plain,
        (false, false) => Form::Colours,
    }
}

/// Does what the words ask for, and returns the exit status.
fn obey(asked: Asked, program: &str) -> io::Result<u8> {
    let mut out = Screen::new();
    match asked {
        Asked::Help => write!(out, "usage: {program} [--html] [FILE ..]\n\n{}", words::HELP)?,
        Asked::Version => writeln!(out, "{program} (Bogzhami) {}", library_version())?,
        Asked::Show { mut names, is_page } => {
            if names.is_empty() {
                names.push("-".into());
            }
            return Command { program: program.into(), form: form(is_page) }.show_all(&mut out, &names);
        }
    }
    out.flush()?;
    Ok(0)
}

fn main() -> ExitCode {
    let mut words = std::env::args_os();
    let path = words.next().unwrap_or_else(|| "highlight".into());
    let program = Path::new(&path).file_name().unwrap_or(&path).to_string_lossy();
    let asked = words::asked(words).map_err(|wrong| format!("{wrong}\nusage: {program} [--html] [FILE ..]"));
    let (told, status) = match asked.map(|asked| obey(asked, &program)) {
        Ok(Ok(status)) => return ExitCode::from(status),
        Ok(Err(error)) if error.kind() == ErrorKind::BrokenPipe => return ExitCode::from(LOST), // no one reads any more
        Ok(Err(error)) => (format!("standard output: {}", reason(&error)), LOST),
        Err(wrong) => (wrong, 2),
    };
    eprintln!("{program}: {told}");
    ExitCode::from(status)
}
