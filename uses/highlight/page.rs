//! Pieces of texts in colours, as a page of HTML.
use crate::pieces::{Class, Piece};
use crate::text::{find_break, split_text, Problem};
use std::io::{self, Write};

/// The name of a class in the style sheet; empty when it has none.
fn name(class: Class) -> &'static str {
    match class {
        Class::Other => "",
        Class::Comment => "comment",
        Class::Directive => "directive",
        Class::Document => "document",
        Class::Indicator => "indicator",
        Class::Flow => "flow",
        Class::Key => "key",
        Class::Plain => "plain",
        Class::Quoted => "quoted",
        Class::Literal => "literal",
        Class::Anchor => "anchor",
        Class::Alias => "alias",
        Class::Tag => "tag",
        Class::Fault => "fault",
    }
}

/// Writes what comes before the first text.
pub fn begin(out: &mut dyn Write, title: &str) -> io::Result<()> {
    let title = escaped(title);
    let style = include_str!("page.css");
    writeln!(out, "<!DOCTYPE html>\n<html lang=\"en\">\n<head>\n<meta charset=\"utf-8\">")?;
    writeln!(out, "<meta name=\"viewport\" content=\"width=device-width, initial-scale=1\">")?;
    writeln!(out, "<title>{title}</title>\n<style>\n{style}</style>\n</head>\n<body>")
}

/// Writes what comes after the last text.
pub fn end(out: &mut dyn Write) -> io::Result<()> {
    writeln!(out, "</body>\n</html>")
}

/// Writes what comes before a text: its name.
pub fn begin_text(out: &mut dyn Write, title: &str) -> io::Result<()> {
    write!(out, "<h1>{}</h1>\n<pre tabindex=\"0\"><code>", escaped(title))
}

/// Writes what comes after a text: its problem.
pub fn end_text(out: &mut dyn Write, problem: Option<&Problem>) -> io::Result<()> {
    writeln!(out, "</code></pre>")?;
    if let Some(Problem { line, column, message, .. }) = problem {
        writeln!(out, "<p class=\"problem\">Line {line}, column {column}: {}</p>", escaped(message))?;
    }
    Ok(())
}

/// A text whose lines are each in an element of its own.
pub struct Lines<'a> {
    pub out: &'a mut dyn Write,
    /// Whether the element of the last line is open.
    pub is_open: bool,
}

impl Lines<'_> {
    /// Writes pieces of the text. The problem is that of the fault, if that is one of them.
    pub fn write(&mut self, text: &[u8], pieces: &[Piece], problem: Option<&Problem>) -> io::Result<()> {
        let message = problem.map_or(String::new(), |problem| escaped(&problem.message));
        for piece in pieces {
            self.piece(piece.class, &text[piece.start..piece.end], &message)?;
        }
        Ok(())
    }

    fn piece(&mut self, class: Class, mut bytes: &[u8], message: &str) -> io::Result<()> {
        if class == Class::Fault {
            self.open()?;
            write!(self.out, "<mark class=\"{}\" title=\"{message}\">", name(class))?;
            characters(self.out, bytes)?;
            return write!(self.out, "</mark>");
        }
        while !bytes.is_empty() {
            let (at, len) = find_break(bytes).unwrap_or((bytes.len(), 0));
            self.open()?;
            self.span(name(class), &bytes[..at])?;
            characters(self.out, &bytes[at..at + len])?;
            if len > 0 {
                self.close()?;
            }
            bytes = &bytes[at + len..];
        }
        Ok(())
    }

    fn span(&mut self, name: &str, bytes: &[u8]) -> io::Result<()> {
        if name.is_empty() || bytes.is_empty() {
            return characters(self.out, bytes);
        }
        write!(self.out, "<span class=\"{name}\">")?;
        characters(self.out, bytes)?;
        write!(self.out, "</span>")
    }

    fn open(&mut self) -> io::Result<()> {
        if !self.is_open {
            write!(self.out, "<span class=\"line\">")?;
        }
        self.is_open = true;
        Ok(())
    }

    /// Ends the last line, if that is open.
    pub fn close(&mut self) -> io::Result<()> {
        if self.is_open {
            write!(self.out, "</span>")?;
        }
        self.is_open = false;
        Ok(())
    }
}

/// Whether a page may hold a character, as it is or as an entity.
fn is_allowed(character: char) -> bool {
    let code = character as u32;
    let is_control = character.is_control() && !matches!(character, '\t' | '\n' | '\r');
    let is_no_character = code & 0xFFFE == 0xFFFE || (0xFDD0..=0xFDEF).contains(&code);
    !is_control && !is_no_character
}

/// Writes bytes as text. Those that spell no character that a page may hold are written in hexadecimal, in an element of the
/// class `bytes`.
fn characters(out: &mut dyn Write, mut bytes: &[u8]) -> io::Result<()> {
    while !bytes.is_empty() {
        let (text, wrong, rest) = split_text(bytes);
        characters_of(out, text)?;
        hexadecimal(out, wrong)?;
        bytes = rest;
    }
    Ok(())
}

fn characters_of(out: &mut dyn Write, text: &str) -> io::Result<()> {
    for part in text.split_inclusive(|character| !is_allowed(character)) {
        let allowed = part.trim_end_matches(|character| !is_allowed(character));
        out.write_all(escaped(allowed).as_bytes())?;
        hexadecimal(out, &part.as_bytes()[allowed.len()..])?;
    }
    Ok(())
}

fn hexadecimal(out: &mut dyn Write, bytes: &[u8]) -> io::Result<()> {
    if bytes.is_empty() {
        return Ok(());
    }
    let digits: String = bytes.iter().map(|byte| format!("{byte:02X}")).collect();
    write!(out, "<span class=\"bytes\">{digits}</span>")
}

fn escaped(text: &str) -> String {
    let mut made = String::with_capacity(text.len());
    for character in text.chars() {
        match character {
            '&' => made.push_str("&amp;"),
            '<' => made.push_str("&lt;"),
            '>' => made.push_str("&gt;"),
            '"' => made.push_str("&quot;"),
            _ => made.push(character),
        }
    }
    made
}
