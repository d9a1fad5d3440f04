//! Standard output, of which is known whether the last line has ended.
use std::io::{self, BufWriter, StdoutLock, Write};
use std::os::raw::c_int;
use std::os::unix::io::AsRawFd;

extern "C" {
    fn isatty(file: c_int) -> c_int;
}

pub struct Screen {
    out: BufWriter<StdoutLock<'static>>,
    is_terminal: bool,
    is_open: bool,
}

impl Screen {
    pub fn new() -> Screen {
        let out = io::stdout().lock();
        // SAFETY: it takes any number, and only looks at the file that has it.
        let is_terminal = unsafe { isatty(out.as_raw_fd()) } == 1;
        Screen { out: BufWriter::new(out), is_terminal, is_open: false }
    }

    /// Writes all that waits. In a terminal the last line is ended first, so that a message has a line of its own.
    pub fn end_line(&mut self) -> io::Result<()> {
        if self.is_terminal && self.is_open {
            self.write_all(b"\n")?;
        }
        self.flush()
    }
}

impl Write for Screen {
    fn write(&mut self, bytes: &[u8]) -> io::Result<usize> {
        let written = self.out.write(bytes)?;
        self.is_open = bytes[..written].last().map_or(self.is_open, |last| *last != b'\n');
        Ok(written)
    }

    fn flush(&mut self) -> io::Result<()> {
        self.out.flush()
    }
}
