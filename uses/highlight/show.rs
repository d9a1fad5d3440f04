//! An input that is shown while it is read.
use crate::page::{self, Lines};
use crate::pieces::{Class, Cutter, Keys, Piece};
use crate::scanner::Feed;
use crate::screen::Screen;
use crate::terminal;
use crate::text::{Problem, Text};
use crate::Form;
use std::io::{self, Write};

/// An input of which more may come. The text up to the end of the last token that no more bytes can change is written at once.
/// After a fault each whole line is.
pub struct Show<'a> {
    out: &'a mut Screen,
    form: Form,
    title: &'a str,
    text: Text,
    has_begun: bool,
    feed: Feed,
    keys: Keys,
    problem: Option<Problem>,
    /// Whether memory was refused.
    is_refused: bool,
    /// Whether the last line of a page is open.
    is_open: bool,
    /// How many of the bytes that are not shown have no line feed, after a fault.
    unbroken: usize,
}

impl<'a> Show<'a> {
    pub fn new(out: &'a mut Screen, form: Form, title: &'a str) -> Show<'a> {
        Show {
            out,
            form,
            title,
            text: Text::default(),
            has_begun: false,
            feed: Feed::new(),
            keys: Keys::default(),
            problem: None,
            is_refused: false,
            is_open: false,
            unbroken: 0,
        }
    }

    /// Shows what can be shown once these bytes came too, and writes out all that waits. Returns whether memory was refused.
    pub fn add(&mut self, bytes: &[u8]) -> io::Result<bool> {
        if self.text.left.try_reserve(bytes.len()).is_err() {
            self.is_refused = true;
            return Ok(true);
        }
        self.text.left.extend_from_slice(bytes);
        if self.is_scanned() {
            self.feed.feed(bytes);
        }
        if self.has_begun || self.text.is_known() {
            self.show_settled()?;
        }
        self.out.flush()?;
        Ok(self.is_refused)
    }

    /// Shows the rest of the input, after its end or after a read that failed. Returns whether memory was refused.
    pub fn finish(&mut self, is_whole: bool) -> io::Result<bool> {
        if is_whole {
            self.feed.finish();
        } else {
            self.feed.flush();
        }
        if is_whole || self.has_begun || !self.text.left.is_empty() {
            self.show_settled()?;
            self.show_rest(self.text.left.len())?;
            self.end()?;
        }
        Ok(self.is_refused)
    }

    /// The problem of the input, if it has one.
    pub fn problem(self) -> Option<Problem> {
        self.problem
    }

    /// Whether the scanner may have more tokens.
    fn is_scanned(&self) -> bool {
        self.problem.is_none() && !self.is_refused
    }

    /// Shows the tokens that no more bytes can change, and the fault if it is next.
    fn show_settled(&mut self) -> io::Result<()> {
        self.begin()?;
        if self.is_scanned() {
            let mut cutter = Cutter::new(&self.text, &mut self.keys);
            if let Some(fault) = cutter.tokens(&mut self.feed) {
                self.problem = Problem::of(&fault);
                self.is_refused = self.problem.is_none();
            }
            if let Some(problem) = &self.problem {
                cutter.problem(problem);
            }
            let pieces = cutter.finish();
            self.write_pieces(&pieces)?;
        }
        if self.problem.is_some() {
            self.show_lines()?;
        }
        Ok(())
    }

    /// Shows the lines after a fault that are whole. A piece of a line could be a piece of a character.
    fn show_lines(&mut self) -> io::Result<()> {
        let end = self.text.left[self.unbroken..].iter().rposition(|byte| *byte == b'\n');
        if let Some(end) = end {
            self.show_rest(self.unbroken + end + 1)?;
        }
        self.unbroken = self.text.left.len();
        Ok(())
    }

    /// Shows so many bytes in which there is no token.
    fn show_rest(&mut self, len: usize) -> io::Result<()> {
        let mut cutter = Cutter::new(&self.text, &mut self.keys);
        cutter.rest(len, self.problem.is_some());
        let pieces = cutter.finish();
        self.write_pieces(&pieces)
    }

    /// Writes what comes before the text.
    fn begin(&mut self) -> io::Result<()> {
        if self.has_begun {
            return Ok(());
        }
        self.has_begun = true;
        let mark = self.text.begin();
        if self.form != Form::Page {
            return self.out.write_all(mark);
        }
        page::begin_text(self.out, self.title)?;
        self.write_page(mark, &[Piece { class: Class::Other, start: 0, end: mark.len() }])
    }

    /// Writes pieces of what is not shown yet, which come next.
    fn write_pieces(&mut self, pieces: &[Piece]) -> io::Result<()> {
        let text = std::mem::take(&mut self.text.left);
        match self.form {
            Form::Page => self.write_page(&text, pieces)?,
            form => terminal::write(self.out, &text, pieces, form == Form::Colours)?,
        }
        self.text.left = text;
        self.text.show(pieces.last().map_or(0, |piece| piece.end));
        Ok(())
    }

    fn write_page(&mut self, text: &[u8], pieces: &[Piece]) -> io::Result<()> {
        let mut lines = Lines { out: self.out, is_open: self.is_open };
        lines.write(text, pieces, self.problem.as_ref())?;
        self.is_open = lines.is_open;
        Ok(())
    }

    /// Writes what comes after the text.
    fn end(&mut self) -> io::Result<()> {
        if self.form != Form::Page {
            return Ok(());
        }
        Lines { out: self.out, is_open: self.is_open }.close()?;
        page::end_text(self.out, self.problem.as_ref())
    }
}
