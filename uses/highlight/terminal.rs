//! Pieces of a text for a terminal, in colours or without.
use crate::pieces::{Class, Piece};
use crate::text::split_text;
use std::io::{self, Write};

/// The parameters of the escape sequence that sets a class's colour.
fn colour(class: Class) -> &'static str {
    match class {
        Class::Other | Class::Plain => "",
        Class::Comment => "90",
        Class::Directive => "94",
        Class::Document => "1",
        Class::Indicator => "91",
        Class::Flow => "31",
        Class::Key => "36",
        Class::Quoted => "32",
        Class::Literal => "33",
        Class::Anchor => "35",
        Class::Alias => "4;35",
        Class::Tag => "95",
        Class::Fault => "97;41",
    }
}

/// Writes pieces of a text, each in the colour of its class, or without colours. A colour is set anew on each line, so that a pager
/// may show any of them first. A fault without a character colours the rest of its line.
pub fn write(out: &mut dyn Write, text: &[u8], pieces: &[Piece], has_colours: bool) -> io::Result<()> {
    let mut terminal = Terminal { out, has_colours };
    for piece in pieces {
        let bytes = &text[piece.start..piece.end];
        let colour = colour(piece.class);
        if bytes.is_empty() && has_colours {
            write!(terminal.out, "\x1b[{colour}m\x1b[K\x1b[0m")?;
        }
        for line in bytes.split_inclusive(|byte| *byte == b'\n') {
            let end = line.len() - line_end(line).len();
            terminal.characters(colour, &line[..end])?;
            terminal.out.write_all(&line[end..])?;
        }
    }
    Ok(())
}

/// The line break that a line ends with, if a terminal knows it.
fn line_end(line: &[u8]) -> &[u8] {
    let len = [&b"\r\n"[..], b"\n"].iter().find(|end| line.ends_with(end)).map_or(0, |end| end.len());
    &line[line.len() - len..]
}

/// Whether a terminal would do something at a character, other than show it.
fn is_acted_on(character: char) -> bool {
    character.is_control() && character != '\t'
}

struct Terminal<'a> {
    out: &'a mut dyn Write,
    has_colours: bool,
}

impl Terminal<'_> {
    /// Writes the characters of a line. What a terminal would act on, and what is no character, is written as its bytes.
    fn characters(&mut self, colour: &str, mut bytes: &[u8]) -> io::Result<()> {
        while !bytes.is_empty() {
            let (text, wrong, rest) = split_text(bytes);
            for part in text.split_inclusive(is_acted_on) {
                let shown = part.trim_end_matches(is_acted_on);
                self.coloured(colour, shown.as_bytes())?;
                self.escaped(colour, &part.as_bytes()[shown.len()..])?;
            }
            self.escaped(colour, wrong)?;
            bytes = rest;
        }
        Ok(())
    }

    fn coloured(&mut self, colour: &str, bytes: &[u8]) -> io::Result<()> {
        if !self.has_colours || colour.is_empty() || bytes.is_empty() {
            return self.out.write_all(bytes);
        }
        write!(self.out, "\x1b[{colour}m")?;
        self.out.write_all(bytes)?;
        self.out.write_all(b"\x1b[0m")
    }

    /// Writes each byte as `\x` and two digits, in the colour and in reverse.
    fn escaped(&mut self, colour: &str, bytes: &[u8]) -> io::Result<()> {
        if bytes.is_empty() {
            return Ok(());
        }
        let digits: String = bytes.iter().map(|byte| format!("\\x{byte:02x}")).collect();
        let reverse = if colour.is_empty() { "7".to_string() } else { format!("{colour};7") };
        self.coloured(&reverse, digits.as_bytes())
    }
}
