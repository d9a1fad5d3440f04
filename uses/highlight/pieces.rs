//! A text cut into pieces, each with what it is, by the exact places of the tokens.
use crate::scanner::{Data, Fault, Fed, Feed, Style, Token};
use crate::text::{break_len, character_len, find_break, Problem, Text};

/// What a piece of the text is.
#[derive(Clone, Copy, Debug, PartialEq, Eq)]
pub enum Class {
    /// Blanks and line breaks between tokens, and what follows a fault.
    Other,
    Comment,
    Directive,
    /// `---` and `...`.
    Document,
    /// `-`, `?` and `:`, in flow too.
    Indicator,
    /// `[`, `]`, `{`, `}` and `,`.
    Flow,
    /// A scalar that is a key, in any style.
    Key,
    Plain,
    Quoted,
    /// A literal or folded scalar with its header.
    Literal,
    Anchor,
    Alias,
    Tag,
    /// The character at which a fault is, or nothing when it is at a line break or at the end.
    Fault,
}

/// A piece of the text, from one index up to another.
#[derive(Clone, Copy, Debug, PartialEq, Eq)]
pub struct Piece {
    pub class: Class,
    pub start: usize,
    pub end: usize,
}

fn class_of(token: &Token, is_key: bool) -> Class {
    match token.data {
        Data::VersionDirective { .. } | Data::TagDirective { .. } => Class::Directive,
        Data::DocumentStart | Data::DocumentEnd => Class::Document,
        Data::BlockEntry | Data::Key | Data::Value => Class::Indicator,
        Data::FlowSequenceStart | Data::FlowSequenceEnd => Class::Flow,
        Data::FlowMappingStart | Data::FlowMappingEnd | Data::FlowEntry => Class::Flow,
        Data::Alias { .. } => Class::Alias,
        Data::Anchor { .. } => Class::Anchor,
        Data::Tag { .. } => Class::Tag,
        Data::Scalar { .. } if is_key => Class::Key,
        Data::Scalar { style: Style::SingleQuoted | Style::DoubleQuoted, .. } => Class::Quoted,
        Data::Scalar { style: Style::Literal | Style::Folded, .. } => Class::Literal,
        Data::Scalar { .. } => Class::Plain,
        Data::StreamStart { .. } | Data::StreamEnd => Class::Other,
        Data::BlockSequenceStart | Data::BlockMappingStart | Data::BlockEnd => Class::Other,
    }
}

/// Tells which scalars are keys.
#[derive(Default)]
pub struct Keys {
    /// For each flow collection that is open, whether it is a mapping.
    flow: Vec<bool>,
    /// Whether a node that comes now is a key.
    is_next: bool,
}

impl Keys {
    /// Takes the next token, and returns whether it belongs to a key.
    fn take(&mut self, token: &Token) -> bool {
        let was_next = self.is_next;
        self.is_next = match token.data {
            Data::Key => true,
            Data::Anchor { .. } | Data::Tag { .. } => was_next,
            Data::FlowMappingStart => self.open(true),
            Data::FlowSequenceStart => self.open(false),
            Data::FlowEntry => self.flow.last() == Some(&true), // in { } a key may stand alone
            Data::FlowMappingEnd | Data::FlowSequenceEnd => self.close(1),
            Data::DocumentStart | Data::DocumentEnd => self.close(self.flow.len()),
            _ => false,
        };
        was_next
    }

    fn open(&mut self, is_mapping: bool) -> bool {
        self.flow.push(is_mapping);
        is_mapping
    }

    fn close(&mut self, count: usize) -> bool {
        self.flow.truncate(self.flow.len().saturating_sub(count));
        false
    }
}

/// Cuts what came of a text and is not shown yet, from its beginning on.
pub struct Cutter<'a> {
    text: &'a [u8],
    /// How many bytes of the text came before these.
    shown: usize,
    at: usize,
    keys: &'a mut Keys,
    pieces: Vec<Piece>,
}

impl<'a> Cutter<'a> {
    /// A cutter of a text. The keys are those of the same text at each call.
    pub fn new(text: &'a Text, keys: &'a mut Keys) -> Cutter<'a> {
        Cutter { text: &text.left, shown: text.shown, at: 0, keys, pieces: Vec::new() }
    }

    /// Cuts the text at the tokens that its input has by now, and returns the fault if that is next.
    pub fn tokens(&mut self, feed: &mut Feed) -> Option<Fault> {
        loop {
            match feed.next_token() {
                Ok(Fed::Token(token)) => self.token(&token),
                Ok(Fed::More | Fed::Over) => return None,
                Err(fault) => return Some(fault),
            }
        }
    }

    /// Cuts the text at the fault that follows the tokens.
    pub fn problem(&mut self, problem: &Problem) {
        let at = problem.at.saturating_sub(self.shown);
        self.gap(at);
        self.piece(Class::Other, at);
        self.fault();
    }

    /// Cuts off what comes before an index, in which there is no token. After a fault comments are none.
    pub fn rest(&mut self, end: usize, is_after_fault: bool) {
        if !is_after_fault {
            self.gap(end);
        }
        self.piece(Class::Other, end);
    }

    /// The pieces in order. Joined they are the beginning of what came.
    pub fn finish(self) -> Vec<Piece> {
        self.pieces
    }

    /// Puts what comes before a token, and the token unless it has no characters.
    fn token(&mut self, token: &Token) {
        let is_key = self.keys.take(token);
        let (start, end) = (token.start.index as usize, token.end.index as usize);
        if start < end {
            self.gap(start - self.shown);
            self.characters(class_of(token, is_key), end - self.shown);
        }
    }

    /// Puts what comes before an index, unless that is nothing.
    fn piece(&mut self, class: Class, end: usize) {
        if self.at < end {
            self.pieces.push(Piece { class, start: self.at, end });
            self.at = end;
        }
    }

    /// Puts the comments, blanks and breaks from here up to an index.
    fn gap(&mut self, end: usize) {
        let mut at = self.at;
        while at < end {
            let left = &self.text[at..end];
            let blank = match left[0] {
                b' ' | b'\t' => 1,
                0xEF if left.starts_with(b"\xEF\xBB\xBF") => 3,
                _ => break_len(left),
            };
            at += blank;
            if blank == 0 && left[0] == b'#' {
                self.piece(Class::Other, at);
                at += find_break(left).map_or(left.len(), |(len, _)| len);
                self.piece(Class::Comment, at);
            } else if blank == 0 {
                break;
            }
        }
        self.piece(Class::Other, at);
    }

    /// Puts the characters of a token. The header of a literal or folded scalar may have a comment.
    fn characters(&mut self, class: Class, end: usize) {
        let token = &self.text[self.at..end];
        if matches!(token[0], b'|' | b'>') {
            let header = find_break(token).map_or(token, |(len, _)| &token[..len]);
            if let Some(len) = header.iter().position(|byte| *byte == b'#') {
                let (start, header_end) = (self.at, self.at + header.len());
                self.piece(class, start + len);
                self.piece(Class::Comment, header_end);
            }
        }
        self.piece(class, end);
    }

    /// Puts the character at which a fault is, which has no bytes when it is a line break or the end.
    fn fault(&mut self) {
        let left = &self.text[self.at..];
        let len = if break_len(left) > 0 { 0 } else { character_len(left) };
        self.pieces.push(Piece { class: Class::Fault, start: self.at, end: self.at + len });
        self.at += len;
    }
}
