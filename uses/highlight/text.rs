//! The text of an input as it is shown, and where its fault is.
use crate::scanner::Fault;

const UTF8_MARK: &[u8] = b"\xEF\xBB\xBF";

/// What is wrong with an input. The place is an index of the text; the line and the column count from 1.
pub struct Problem {
    pub at: usize,
    pub line: u64,
    pub column: u64,
    pub message: String,
}

impl Problem {
    /// The problem of a fault, or `None` if memory was refused. That of a reader fault is at the end of the text before it.
    pub fn of(fault: &Fault) -> Option<Problem> {
        let (mark, message) = match fault {
            Fault::Scanner { problem, mark, context, context_mark } => {
                let start = format!("that starts at {}:{}", context_mark.line + 1, context_mark.column + 1);
                let context = context.as_ref().map_or(String::new(), |context| format!(", {context} {start}"));
                (mark, format!("{problem}{context}"))
            }
            Fault::Reader { problem, offset, mark, .. } => {
                (mark, format!("{problem} (byte {} of the file)", offset + 1))
            }
            Fault::Memory => return None,
        };
        Some(Problem { at: mark.index as usize, line: mark.line + 1, column: mark.column + 1, message })
    }
}

/// What came of the text whose bytes the scanner's marks count, and is not shown yet. An input in UTF-8 is shown as it is, whatever
/// bytes it has; one in UTF-16 is shown in UTF-8, with U+FFFD for what is no character.
#[derive(Default)]
pub struct Text {
    /// The bytes that are not shown yet. Before `begin` they are those of the input.
    pub left: Vec<u8>,
    /// How many bytes of the text came before these.
    pub shown: usize,
}

impl Text {
    /// Whether it may begin, though more of the input may come.
    pub fn is_known(&self) -> bool {
        self.left.len() >= UTF8_MARK.len() && !is_utf16(&self.left)
    }

    /// Begins the text: takes the byte order mark of UTF-8 off and returns it, or decodes UTF-16, all of which has to be there.
    /// The scanner's marks do not count a byte order mark.
    pub fn begin(&mut self) -> &'static [u8] {
        if is_utf16(&self.left) {
            self.left = utf16(&self.left[2..], self.left[0] == 0xFE);
        } else if self.left.starts_with(UTF8_MARK) {
            self.left.drain(..UTF8_MARK.len());
            return UTF8_MARK;
        }
        b""
    }

    /// Lets go of bytes that are shown.
    pub fn show(&mut self, len: usize) {
        self.left.drain(..len);
        self.shown += len;
    }
}

fn is_utf16(input: &[u8]) -> bool {
    input.starts_with(b"\xFE\xFF") || input.starts_with(b"\xFF\xFE")
}

/// The text that bytes begin with, the bytes after it that begin no character, and the rest.
pub fn split_text(bytes: &[u8]) -> (&str, &[u8], &[u8]) {
    let (text, rest) = bytes.split_at(utf8_len(bytes));
    let wrong_len = std::str::from_utf8(rest).err().map_or(0, |error| error.error_len().unwrap_or(rest.len()));
    let (wrong, rest) = rest.split_at(wrong_len);
    (std::str::from_utf8(text).unwrap_or_default(), wrong, rest)
}

/// How many bytes of UTF-8 a text begins with.
fn utf8_len(text: &[u8]) -> usize {
    std::str::from_utf8(text).map_or_else(|error| error.valid_up_to(), str::len)
}

/// Decodes UTF-16 without its byte order mark.
fn utf16(input: &[u8], is_big: bool) -> Vec<u8> {
    let units = input.chunks(2).map(|pair| match pair {
        [first, second] if is_big => u16::from_be_bytes([*first, *second]),
        [first, second] => u16::from_le_bytes([*first, *second]),
        _ => 0xDC00, // half a unit, which is no character either
    });
    char::decode_utf16(units).map(|unit| unit.unwrap_or(char::REPLACEMENT_CHARACTER)).collect::<String>().into_bytes()
}

/// The length of the line break that a text begins with, or 0 when it begins with none.
pub fn break_len(text: &[u8]) -> usize {
    match text {
        [b'\r', b'\n', ..] | [0xC2, 0x85, ..] => 2,
        [b'\r' | b'\n', ..] => 1,
        [0xE2, 0x80, 0xA8 | 0xA9, ..] => 3,
        _ => 0,
    }
}

/// Where the first line break of a text is, and its length.
pub fn find_break(text: &[u8]) -> Option<(usize, usize)> {
    (0..text.len()).map(|at| (at, break_len(&text[at..]))).find(|(_, len)| *len > 0)
}

/// The length of the character that a text begins with; 1 when it begins with none, 0 when it is empty.
pub fn character_len(text: &[u8]) -> usize {
    (1..=text.len().min(4)).find(|len| std::str::from_utf8(&text[..*len]).is_ok()).unwrap_or(text.len().min(1))
}
