//! The scanner for Rust: safe, with no crate. `ffi/build` makes the library and says what to link.
//!
//! ```ignore
//! mod scanner;
//! for token in scanner::Scanner::new(b"a: 1") {
//!     let token = token?;
//!     println!("{:?} at {:?}", token.data, token.start);
//! }
//! ```
//!
//! The tokens come one by one, and borrow from the input the texts that it has as they are. [`Scanner::next_batch`] lends
//! many at once, with no copy of any text. [`Pieces`] reads its input from a pipe or a file, and [`Feed`] is given it.
#![allow(dead_code)]

use std::borrow::Cow;
use std::error::Error;
use std::ffi::{c_void, CStr};
use std::fmt;
use std::io::{self, ErrorKind, Read};
use std::iter::FusedIterator;
use std::ops::Deref;
use std::os::raw::c_char;

/// A place in the text. The index counts bytes of the text in UTF-8.
#[repr(C)]
#[derive(Clone, Copy, Debug, Default, PartialEq, Eq)]
pub struct Mark {
    /// How many bytes come before it.
    pub index: u64,
    /// How many line breaks end before it.
    pub line: u64,
    /// How many characters come between the last of these breaks and it.
    pub column: u64,
}

// `struct bogzhami_token`, `struct bogzhami_answer` and `struct bogzhami_handle` of bogzhami.h.
#[repr(C)]
#[derive(Clone, Copy, Default)]
pub(crate) struct Record {
    pub(crate) token_type: u32,
    pub(crate) detail: u32,
    pub(crate) major: i32,
    pub(crate) minor: i32,
    pub(crate) text_at: u64,
    pub(crate) first_len: u64,
    pub(crate) second_len: u64,
    pub(crate) start_mark: Mark,
    pub(crate) end_mark: Mark,
    pub(crate) input_at: u64,
}

#[repr(C)]
#[derive(Clone, Copy, Default)]
pub(crate) struct Answer {
    pub(crate) token_count: u64,
    pub(crate) text_len: u64,
    pub(crate) error: u32,
    pub(crate) problem_value: i32,
    pub(crate) problem_offset: u64,
    pub(crate) problem_mark: Mark,
    pub(crate) context_mark: Mark,
    pub(crate) problem_len: u64,
    pub(crate) context_len: u64,
}

#[repr(C)]
pub(crate) struct Handle {
    pub(crate) live: bool,
    pub(crate) held: *mut c_void,
}

impl Default for Handle {
    /// `BOGZHAMI_CLOSED`.
    fn default() -> Handle {
        Handle { live: false, held: std::ptr::null_mut() }
    }
}

impl Handle {
    fn close(&mut self) {
        // SAFETY: the handle is used only here. If it holds nothing, nothing happens.
        unsafe { bogzhami_close(self) };
    }
}

impl Drop for Handle {
    fn drop(&mut self) {
        self.close();
    }
}

// `enum bogzhami_status` of bogzhami.h.
const DONE: u32 = 0;
const FAULT: u32 = 1;
const WRONG: u32 = 2;
const NO_ROOM: u32 = 5;
const MORE: u32 = 7;
const WHOLE: u32 = 8;

// `enum bogzhami_error` of bogzhami.h.
const READER_ERROR: u32 = 2;
const SCANNER_ERROR: u32 = 3;

extern "C" {
    fn bogzhami_open(handle: *mut Handle, input: *const u8, input_len: usize, encoding: u32, key_limit: u32) -> u32;
    fn bogzhami_next(
        handle: *mut Handle,
        input: *const u8,
        input_len: usize,
        tokens: *mut Record,
        tokens_len: usize,
        texts: *mut u8,
        texts_len: usize,
        answer: *mut Answer,
    ) -> u32;
    fn bogzhami_open_pieces(handle: *mut Handle, encoding: u32, key_limit: u32) -> u32;
    fn bogzhami_next_piece(
        handle: *mut Handle,
        from: u64,
        window: *const u8,
        window_len: usize,
        last: bool,
        tokens: *mut Record,
        tokens_len: usize,
        texts: *mut u8,
        texts_len: usize,
        answer: *mut Answer,
        needed_from: *mut u64,
    ) -> u32;
    fn bogzhami_reach(handle: *mut Handle, mark: *mut Mark) -> u32;
    fn bogzhami_encoding(handle: *mut Handle) -> u32;
    fn bogzhami_close(handle: *mut Handle) -> u32;
    fn bogzhami_place(input: *const u8, input_len: usize, encoding: u32, offset: u64, mark: *mut Mark) -> u32;
    fn bogzhami_version() -> *const c_char;
}

/// The version of the library that is linked.
///
/// ```
/// assert_eq!(bogzhami::library_version().split('.').count(), 3);
/// ```
pub fn library_version() -> &'static str {
    // SAFETY: the text is a constant of the library, and ends with a 0.
    unsafe { CStr::from_ptr(bogzhami_version()) }.to_str().unwrap_or_default()
}

/// How bytes spell a text. `Any` is for a setting only: a byte order mark decides; without one it is UTF-8.
#[derive(Clone, Copy, Debug, PartialEq, Eq)]
pub enum Encoding {
    Any,
    Utf8,
    Utf16Le,
    Utf16Be,
}

/// How a scalar is written.
#[derive(Clone, Copy, Debug, PartialEq, Eq)]
pub enum Style {
    Plain,
    SingleQuoted,
    DoubleQuoted,
    Literal,
    Folded,
}

/// A text of a token: bytes that are UTF-8, except what a tag or a `%TAG` directive writes by `%`.
///
/// It is displayed as text, with U+FFFD in the place of bytes that are no UTF-8.
///
/// A [`Scanner`] as an iterator borrows it from the input if it stands there as it is, and otherwise copies it.
#[derive(Clone, PartialEq, Eq, Hash)]
pub struct Text<'a>(pub Cow<'a, [u8]>);

impl Text<'_> {
    /// The text, or `None` if its bytes are no UTF-8.
    pub fn as_str(&self) -> Option<&str> {
        std::str::from_utf8(&self.0).ok()
    }

    /// The same text in memory of its own.
    pub fn into_owned(self) -> Text<'static> {
        Text(Cow::Owned(self.0.into_owned()))
    }
}

impl Deref for Text<'_> {
    type Target = [u8];

    fn deref(&self) -> &[u8] {
        &self.0
    }
}

impl fmt::Display for Text<'_> {
    fn fmt(&self, f: &mut fmt::Formatter<'_>) -> fmt::Result {
        String::from_utf8_lossy(&self.0).fmt(f)
    }
}

impl fmt::Debug for Text<'_> {
    fn fmt(&self, f: &mut fmt::Formatter<'_>) -> fmt::Result {
        match self.as_str() {
            Some(text) => text.fmt(f),
            None => self.0.fmt(f),
        }
    }
}

/// What a token says. A later version may have more kinds.
#[derive(Clone, Debug, PartialEq, Eq)]
#[non_exhaustive]
pub enum Data<'a> {
    StreamStart { encoding: Encoding },
    StreamEnd,
    VersionDirective { major: i32, minor: i32 },
    TagDirective { handle: Text<'a>, prefix: Text<'a> },
    DocumentStart,
    DocumentEnd,
    BlockSequenceStart,
    BlockMappingStart,
    BlockEnd,
    FlowSequenceStart,
    FlowSequenceEnd,
    FlowMappingStart,
    FlowMappingEnd,
    BlockEntry,
    FlowEntry,
    Key,
    Value,
    Alias { name: Text<'a> },
    Anchor { name: Text<'a> },
    Tag { handle: Text<'a>, suffix: Text<'a> },
    Scalar { value: Text<'a>, style: Style },
}

impl Data<'_> {
    /// The same with texts in memory of their own.
    pub fn into_owned(self) -> Data<'static> {
        match self {
            Data::StreamStart { encoding } => Data::StreamStart { encoding },
            Data::StreamEnd => Data::StreamEnd,
            Data::VersionDirective { major, minor } => Data::VersionDirective { major, minor },
            Data::TagDirective { handle, prefix } => {
                Data::TagDirective { handle: handle.into_owned(), prefix: prefix.into_owned() }
            }
            Data::DocumentStart => Data::DocumentStart,
            Data::DocumentEnd => Data::DocumentEnd,
            Data::BlockSequenceStart => Data::BlockSequenceStart,
            Data::BlockMappingStart => Data::BlockMappingStart,
            Data::BlockEnd => Data::BlockEnd,
            Data::FlowSequenceStart => Data::FlowSequenceStart,
            Data::FlowSequenceEnd => Data::FlowSequenceEnd,
            Data::FlowMappingStart => Data::FlowMappingStart,
            Data::FlowMappingEnd => Data::FlowMappingEnd,
            Data::BlockEntry => Data::BlockEntry,
            Data::FlowEntry => Data::FlowEntry,
            Data::Key => Data::Key,
            Data::Value => Data::Value,
            Data::Alias { name } => Data::Alias { name: name.into_owned() },
            Data::Anchor { name } => Data::Anchor { name: name.into_owned() },
            Data::Tag { handle, suffix } => Data::Tag { handle: handle.into_owned(), suffix: suffix.into_owned() },
            Data::Scalar { value, style } => Data::Scalar { value: value.into_owned(), style },
        }
    }
}

/// A token, with the mark of its start and the mark after its last character.
#[derive(Clone, Debug, PartialEq, Eq)]
pub struct Token<'a> {
    pub data: Data<'a>,
    pub start: Mark,
    pub end: Mark,
}

impl Token<'_> {
    /// The same token with texts in memory of their own.
    pub fn into_owned(self) -> Token<'static> {
        Token { data: self.data.into_owned(), start: self.start, end: self.end }
    }
}

/// Why an input was refused. A later version may have more reasons.
#[derive(Clone, Debug, PartialEq, Eq)]
#[non_exhaustive]
pub enum Fault {
    /// Memory was refused: the tokens are a beginning of all tokens.
    Memory,
    /// The bytes are no text. The offset counts bytes of the input, and the mark is that of the character they should
    /// spell; the value is the octet, unit or code point that is wrong, or -1.
    #[non_exhaustive]
    Reader { problem: String, offset: u64, value: i32, mark: Mark },
    /// No token can be read there. The context is what was being read, from its mark on.
    Scanner { problem: String, mark: Mark, context: Option<String>, context_mark: Mark },
}

impl fmt::Display for Fault {
    fn fmt(&self, f: &mut fmt::Formatter<'_>) -> fmt::Result {
        match self {
            Fault::Memory => write!(f, "out of memory"),
            Fault::Reader { problem, offset, mark, .. } => {
                write!(f, "{problem} at line {} column {} (offset {offset})", mark.line + 1, mark.column + 1)
            }
            Fault::Scanner { problem, mark, context, .. } => {
                if let Some(context) = context {
                    write!(f, "{context}: ")?;
                }
                write!(f, "{problem} at line {} column {}", mark.line + 1, mark.column + 1)
            }
        }
    }
}

impl Error for Fault {}

/// How an input is scanned.
#[derive(Clone, Copy, Debug, PartialEq, Eq)]
pub struct Settings {
    /// The encoding of the input.
    pub encoding: Encoding,
    /// The key limit in bytes, 1 to 65,536: how far a simple key may reach. 1,024 is that of YAML 1.1 and of libyaml.
    pub key_limit: u32,
    /// How many tokens are read at once, at most; 0 counts as 1.
    pub batch_len: usize,
}

impl Default for Settings {
    /// Any encoding, a key limit of 1,024 bytes, and 256 tokens at once.
    fn default() -> Settings {
        Settings { encoding: Encoding::Any, key_limit: 1024, batch_len: 256 }
    }
}

/// A key limit, in bytes, that is not from 1 to 65,536.
#[derive(Clone, Copy, Debug, PartialEq, Eq)]
pub struct WrongKeyLimit(pub u32);

impl fmt::Display for WrongKeyLimit {
    fn fmt(&self, f: &mut fmt::Formatter<'_>) -> fmt::Result {
        write!(f, "a key limit of {} bytes, which is not from 1 to 65536", self.0)
    }
}

impl Error for WrongKeyLimit {}

/// How many bytes the room for texts has at first.
const FIRST_TEXTS: usize = 1 << 14;

/// The rooms, which each batch uses again, and what of the last batch was not given yet.
struct Rooms {
    records: Vec<Record>,
    texts: Vec<u8>,
    /// How many records of the batch were given, and how many it has.
    given: usize,
    count: usize,
    /// The fault that comes after the batch.
    fault: Option<Fault>,
}

impl Rooms {
    fn new(batch_len: usize) -> Rooms {
        let records = vec![Record::default(); batch_len.max(1)];
        Rooms { records, texts: vec![0; FIRST_TEXTS], given: 0, count: 0, fault: None }
    }

    /// Whether all of the batch was given, and no fault waits.
    fn is_used_up(&self) -> bool {
        self.given == self.count && self.fault.is_none()
    }

    /// The records of the batch that were not given yet.
    fn left(&self) -> &[Record] {
        &self.records[self.given..self.count]
    }

    /// Keeps how many records a call put in place of the last batch.
    fn begin_batch(&mut self, answer: &Answer) {
        (self.given, self.count) = (0, answer.token_count as usize); // at most the length of the room, and 0 if there is none
    }

    /// Makes the room for texts as long as that, or returns false if memory is refused.
    fn grow(&mut self, text_len: u64) -> bool {
        let text_len = usize::try_from(text_len).unwrap_or(usize::MAX);
        let has_room = self.texts.try_reserve_exact(text_len.saturating_sub(self.texts.len())).is_ok();
        if has_room {
            self.texts.resize(text_len, 0);
        }
        has_room
    }

    /// Keeps the fault of an answer until it is given. The input is what the call was given.
    fn put_fault(&mut self, answer: &Answer, input: &[u8], encoding: Encoding) {
        let place = place_of(answer, input, encoding);
        self.fault = Some(place.map_or(Fault::Memory, |mark| fault_of(answer, &self.texts, mark)));
    }
}

/// The mark of the problem of a fault, or `None` if memory is refused. The reader tells an offset in its place.
fn place_of(answer: &Answer, input: &[u8], encoding: Encoding) -> Option<Mark> {
    let mut mark = answer.problem_mark;
    let (offset, encoding) = (answer.problem_offset, encoding as u32);
    if answer.error != READER_ERROR {
        return Some(mark);
    }
    // SAFETY: pointer and length are those of one live slice. `mark` is a value of its own.
    let status = unsafe { bogzhami_place(input.as_ptr(), input.len(), encoding, offset, &mut mark) };
    (status == DONE).then_some(mark)
}

/// A scanner of an input, which reads as much of it as the tokens need that were asked for.
///
/// As an iterator it gives the tokens in order, up to the stream end or the first fault. The fault comes once, as the
/// last item. A scanner may be dropped at any time, and frees all that it holds.
///
/// These tokens may outlive the scanner. They borrow from the input each text that stands in it as it is, if it is UTF-8:
/// names of anchors and aliases, and plain and quoted scalars that no escape, doubled quote or line break changes. They have
/// copies of other texts.
pub struct Scanner<'a> {
    input: &'a [u8],
    /// The encoding that was set.
    encoding: Encoding,
    handle: Handle,
    rooms: Rooms,
}

impl<'a> Scanner<'a> {
    /// A scanner with the usual [`Settings`]: any encoding, and a key limit of 1,024 bytes.
    pub fn new(input: &'a [u8]) -> Scanner<'a> {
        Scanner::with_settings(input, Settings::default()).expect("1,024 is a key limit")
    }

    /// A scanner with settings of the caller's. Refused memory is no error here: it is the fault, and comes first.
    pub fn with_settings(input: &'a [u8], settings: Settings) -> Result<Scanner<'a>, WrongKeyLimit> {
        let (handle, rooms) = (Handle::default(), Rooms::new(settings.batch_len));
        let mut scanner = Scanner { input, encoding: settings.encoding, handle, rooms };
        match scanner.open(settings.key_limit) {
            DONE => (),
            WRONG => return Err(WrongKeyLimit(settings.key_limit)),
            _ => scanner.rooms.fault = Some(Fault::Memory),
        }
        Ok(scanner)
    }

    /// The next tokens at once, or the fault if it is next, or `None` if all was given.
    ///
    /// The tokens borrow their texts from the scanner. All of them count as taken, whether they are looked at or not.
    pub fn next_batch(&mut self) -> Option<Result<Batch<'_>, Fault>> {
        self.fill();
        let rooms = &mut self.rooms;
        if rooms.given == rooms.count {
            return rooms.fault.take().map(Err);
        }
        let records = rooms.records[rooms.given..rooms.count].iter();
        rooms.given = rooms.count;
        Some(Ok(Batch { records, texts: &rooms.texts }))
    }

    /// What the next item will be. Nothing is taken.
    pub fn peek(&mut self) -> Option<Result<Token<'_>, &Fault>> {
        self.fill();
        match self.rooms.left().first() {
            Some(record) => Some(Ok(lent(record, &self.rooms.texts))),
            None => self.rooms.fault.as_ref().map(Err),
        }
    }

    /// How far the last step without a fault was read; zeros before the first one.
    ///
    /// Steps are made for a whole batch, so it may be past tokens that were not given yet. With a `batch_len` of 1 it is
    /// that of the last token that was given or shown.
    pub fn reach(&mut self) -> Mark {
        let mut mark = Mark::default();
        // SAFETY: `mark` is a value of its own. The handle is used only here.
        unsafe { bogzhami_reach(&mut self.handle, &mut mark) };
        mark
    }

    /// The encoding of the input: the one that was set, or that of the byte order mark. It is never `Any`, but if memory
    /// was refused when the scanner was made.
    pub fn encoding(&mut self) -> Encoding {
        // SAFETY: the handle is used only here.
        encoding_of(unsafe { bogzhami_encoding(&mut self.handle) })
    }

    /// Reads the next batch if all of the last one was given and no fault waits.
    fn fill(&mut self) {
        if self.rooms.is_used_up() {
            self.read_batch();
        }
    }

    /// Reads the next batch in place of the last one. Most tokens need none.
    #[cold]
    fn read_batch(&mut self) {
        let mut answer = Answer::default();
        let mut status = self.read(&mut answer);
        if status == NO_ROOM && self.rooms.grow(answer.text_len) {
            status = self.read(&mut answer);
        }
        self.rooms.begin_batch(&answer);
        match status {
            FAULT => self.rooms.put_fault(&answer, self.input, self.encoding),
            NO_ROOM => self.stop(),
            _ => (),
        }
    }

    /// Calls `bogzhami_open`, and returns its status.
    fn open(&mut self, key_limit: u32) -> u32 {
        let (input, input_len) = (self.input.as_ptr(), self.input.len());
        // SAFETY: pointer and length are those of one live slice. The handle was made by `Handle::default`.
        unsafe { bogzhami_open(&mut self.handle, input, input_len, self.encoding as u32, key_limit) }
    }

    /// Calls `bogzhami_next`, and returns its status.
    fn read(&mut self, answer: &mut Answer) -> u32 {
        let Rooms { records, texts, .. } = &mut self.rooms;
        // SAFETY: each pointer and length is of one live slice, initialised and apart from the others. The input is that
        // of `bogzhami_open`, and nothing changes it while it is borrowed. `answer` is a value of its own.
        unsafe {
            bogzhami_next(
                &mut self.handle,
                self.input.as_ptr(),
                self.input.len(),
                records.as_mut_ptr(),
                records.len(),
                texts.as_mut_ptr(),
                texts.len(),
                answer,
            )
        }
    }

    /// Ends the scanner with a fault, since it has no room for what comes next.
    fn stop(&mut self) {
        self.rooms.fault = Some(Fault::Memory);
        self.handle.close();
    }
}

impl<'a> Iterator for Scanner<'a> {
    type Item = Result<Token<'a>, Fault>;

    fn next(&mut self) -> Option<Result<Token<'a>, Fault>> {
        self.fill();
        let rooms = &mut self.rooms;
        match rooms.records[rooms.given..rooms.count].first() {
            Some(record) => {
                rooms.given += 1;
                Some(Ok(given(record, self.input, &rooms.texts)))
            }
            None => rooms.fault.take().map(Err),
        }
    }
}

impl FusedIterator for Scanner<'_> {}

impl fmt::Debug for Scanner<'_> {
    fn fmt(&self, f: &mut fmt::Formatter<'_>) -> fmt::Result {
        f.debug_struct("Scanner").field("left", &self.rooms.left().len()).finish_non_exhaustive()
    }
}

/// Tokens in order, which borrow their texts from their [`Scanner`].
#[derive(Clone)]
pub struct Batch<'b> {
    records: std::slice::Iter<'b, Record>,
    texts: &'b [u8],
}

impl<'b> Iterator for Batch<'b> {
    type Item = Token<'b>;

    fn next(&mut self) -> Option<Token<'b>> {
        self.records.next().map(|record| lent(record, self.texts))
    }

    fn size_hint(&self) -> (usize, Option<usize>) {
        self.records.size_hint()
    }
}

impl ExactSizeIterator for Batch<'_> {}

impl FusedIterator for Batch<'_> {}

/// What a [`Feed`] has next.
#[derive(Clone, Debug, PartialEq, Eq)]
pub enum Fed {
    Token(Token<'static>),
    /// All tokens were given that are settled: bytes have to come, by [`Feed::feed`], or the end, by [`Feed::finish`].
    More,
    /// The stream end or the fault was given: nothing comes any more.
    Over,
}

/// A scanner that is given its input in pieces, as they come from a socket.
///
/// It gives each token as soon as no more bytes can change it. A scalar that may go on waits for more, and so does a token
/// that fewer than eight characters follow, since a fault of the reader there would come in its place. Whatever the pieces
/// are, its tokens and its fault are those that a [`Scanner`] gives for the whole input. An input in UTF-16 has to be there
/// as a whole before its tokens come.
///
/// ```
/// use bogzhami::{Data, Fault, Fed, Feed};
///
/// fn main() -> Result<(), Fault> {
///     let mut pieces = [&b"- An"[..], b"na\n- Berta\n-", b" Carla\n"].into_iter();
///     let (mut feed, mut values) = (Feed::new(), Vec::new());
///     loop {
///         match feed.next_token()? {
///             Fed::Token(token) => {
///                 if let Data::Scalar { value, .. } = token.data {
///                     values.push(value.to_string());
///                 }
///             }
///             Fed::More => match pieces.next() {
///                 Some(bytes) => feed.feed(bytes), // an asynchronous program awaits its socket here
///                 None => feed.finish(),
///             },
///             Fed::Over => break,
///         }
///     }
///     assert_eq!(values, ["Anna", "Berta", "Carla"]);
///     Ok(())
/// }
/// ```
///
/// A scalar or a comment that is not whole is read again from its start when more of it came. So that the time grows with
/// the length of the input alone, that is not done for each byte of a long one:
///
/// - While less than 1 MB waits to become a token, it is done at once for each piece of 4,096 bytes or more, and for each
///   smaller one as long as bytes are read no more than 256 times on average. After that one byte in 256 may be held back.
/// - If more waits, it is done when this has grown by a quarter.
///
/// [`Feed::flush`] has it done at once, and so has [`Feed::finish`].
///
/// A feed keeps all that came until its end. It may be dropped at any time, and frees all that it holds. It is [`Send`], so
/// that a task may hold it while it waits.
pub struct Feed {
    /// The encoding that was set.
    encoding: Encoding,
    handle: Handle,
    rooms: Rooms,
    /// What came, and room after it.
    window: Vec<u8>,
    came: usize,
    rest: Rest,
    stage: Stage,
    pace: Pace,
}

/// What may come after what came.
#[derive(PartialEq)]
enum Rest {
    /// More bytes, or the end.
    Open,
    /// Nothing: all came.
    Nothing,
    /// Bytes that had no room, since memory was refused.
    Lost,
}

/// What the library said last.
#[derive(PartialEq)]
enum Stage {
    /// It may have more tokens of what came.
    Ready,
    /// It wants more bytes.
    Waits,
    /// It wants all bytes.
    WaitsForAll,
    Over,
}

// SAFETY: bogzhami.h asks that a handle is used by one thread at a time, and `&mut` sees to that. Nothing that it holds
// belongs to a thread.
unsafe impl Send for Feed {}

impl Feed {
    /// A feed with the usual [`Settings`]: any encoding, and a key limit of 1,024 bytes.
    pub fn new() -> Feed {
        Feed::with_settings(Settings::default()).expect("1,024 is a key limit")
    }

    /// A feed with settings of the caller's. Refused memory is no error here: it is the fault, and comes first.
    pub fn with_settings(settings: Settings) -> Result<Feed, WrongKeyLimit> {
        let mut feed = Feed {
            encoding: settings.encoding,
            handle: Handle::default(),
            rooms: Rooms::new(settings.batch_len),
            window: Vec::new(),
            came: 0,
            rest: Rest::Open,
            stage: Stage::Waits,
            pace: Pace::new(),
        };
        // SAFETY: the handle was made by `Handle::default`.
        match unsafe { bogzhami_open_pieces(&mut feed.handle, settings.encoding as u32, settings.key_limit) } {
            DONE => (),
            WRONG => return Err(WrongKeyLimit(settings.key_limit)),
            _ => feed.stop(),
        }
        Ok(feed)
    }

    /// Adds bytes that came. They are copied, and are looked at by the next [`Feed::next_token`].
    ///
    /// After [`Feed::finish`] or the fault nothing is added. If there is no memory for the bytes, the fault is
    /// [`Fault::Memory`], and comes after the tokens of what came before.
    pub fn feed(&mut self, bytes: &[u8]) {
        if !self.is_open() {
            return;
        }
        match self.room(bytes.len()) {
            Some(room) => room.copy_from_slice(bytes),
            None => return self.lose(),
        }
        self.add(bytes.len());
    }

    /// Says that no more bytes will come. Nothing happens if that was said before, or after the fault.
    pub fn finish(&mut self) {
        if self.is_open() {
            self.rest = Rest::Nothing;
        }
    }

    /// Has all that came looked at by the next [`Feed::next_token`], however few bytes these are: when none are to be
    /// expected for a while, or when a read has failed. Called for each small piece, it makes the time grow faster than the
    /// input.
    pub fn flush(&mut self) {
        self.pace.hurry(self.came);
    }

    /// The next token, or that bytes have to come before it, or that all is over. The fault comes once, as an error, and
    /// then all is over.
    pub fn next_token(&mut self) -> Result<Fed, Fault> {
        if self.rooms.is_used_up() && self.is_due() {
            self.read_batch();
        }
        let rooms = &mut self.rooms;
        if let Some(record) = rooms.records[rooms.given..rooms.count].first() {
            rooms.given += 1;
            return Ok(Fed::Token(copied(record, &rooms.texts)));
        }
        if self.rest == Rest::Lost && self.stage != Stage::Over {
            self.stop();
        }
        match self.rooms.fault.take() {
            Some(fault) => Err(fault),
            None if self.stage == Stage::Over => Ok(Fed::Over),
            None => Ok(Fed::More),
        }
    }

    /// Whether bytes are taken.
    fn is_open(&self) -> bool {
        self.rest == Rest::Open && self.stage != Stage::Over
    }

    /// The room for bytes after those that came, so many; `None` if memory is refused.
    fn room(&mut self, len: usize) -> Option<&mut [u8]> {
        let wanted = self.came.checked_add(len)?;
        if self.window.len() < wanted {
            self.window.try_reserve(wanted - self.window.len()).ok()?;
            self.window.resize(wanted, 0);
        }
        Some(&mut self.window[self.came..wanted])
    }

    /// Counts bytes that were written to the room.
    fn add(&mut self, len: usize) {
        self.came += len;
        self.pace.add(len);
    }

    /// Takes no more bytes, since some had no room.
    fn lose(&mut self) {
        self.rest = Rest::Lost;
        self.flush();
    }

    /// Whether the library is to be asked for tokens now.
    fn is_due(&self) -> bool {
        match self.stage {
            Stage::Ready => true,
            Stage::Waits => self.rest == Rest::Nothing || self.pace.is_due(self.came),
            Stage::WaitsForAll => self.rest == Rest::Nothing,
            Stage::Over => false,
        }
    }

    /// Reads the next batch in place of the last one.
    #[cold]
    fn read_batch(&mut self) {
        let mut answer = Answer::default();
        let mut status = self.read(&mut answer);
        if status == NO_ROOM && self.rooms.grow(answer.text_len) {
            status = self.read(&mut answer);
        }
        self.rooms.begin_batch(&answer);
        if let Some(record) = self.rooms.left().last() {
            self.pace.settle(record.end_mark);
        }
        match status {
            DONE => self.stage = Stage::Ready,
            MORE => self.wait(Stage::Waits),
            WHOLE => self.wait(Stage::WaitsForAll),
            FAULT => {
                self.rooms.put_fault(&answer, &self.window[..self.came], self.encoding);
                self.end();
            }
            NO_ROOM => self.stop(),
            _ => self.end(),
        }
    }

    /// Calls `bogzhami_next_piece` with all that came, and returns its status.
    fn read(&mut self, answer: &mut Answer) -> u32 {
        let (window, is_last) = (&self.window[..self.came], self.rest == Rest::Nothing);
        let Rooms { records, texts, .. } = &mut self.rooms;
        // A window that begins with the input has all that is needed.
        let mut needed_from = 0;
        // SAFETY: each pointer and length is of one live slice, initialised and apart from the others. What came is never
        // changed, and nothing is added once it is all. `answer` and `needed_from` are values of their own.
        unsafe {
            bogzhami_next_piece(
                &mut self.handle,
                0,
                window.as_ptr(),
                window.len(),
                is_last,
                records.as_mut_ptr(),
                records.len(),
                texts.as_mut_ptr(),
                texts.len(),
                answer,
                &mut needed_from,
            )
        }
    }

    fn wait(&mut self, stage: Stage) {
        self.stage = stage;
        self.pace.wait(self.came);
    }

    /// Ends the feed with a fault, since it has no room for what comes next.
    fn stop(&mut self) {
        self.rooms.fault = Some(Fault::Memory);
        self.end();
    }

    /// Frees what no token needs that comes yet.
    fn end(&mut self) {
        self.stage = Stage::Over;
        self.handle.close();
        (self.window, self.came) = (Vec::new(), 0);
    }
}

impl Default for Feed {
    fn default() -> Feed {
        Feed::new()
    }
}

impl fmt::Debug for Feed {
    fn fmt(&self, f: &mut fmt::Formatter<'_>) -> fmt::Result {
        f.debug_struct("Feed").field("came", &self.came).field("left", &self.rooms.left().len()).finish_non_exhaustive()
    }
}

/// When bytes are read again. They are while no token comes of them, from the end of the last token on.
struct Pace {
    /// How many bytes may be read again.
    credit: usize,
    /// Where the last token ends.
    settled: usize,
    /// How many bytes had come when they were read last.
    read: usize,
    /// Whether this is asked for.
    is_hurried: bool,
}

impl Pace {
    /// For each byte that comes, so many may be read again.
    const TIMES: usize = 256;
    /// So many may be at first, and at most. It is for small pieces of a text with lexemes of some kilobytes.
    const MOST: usize = 1 << 26;
    /// From so many bytes on that wait, they have to grow by a quarter. A piece of 4,096 bytes has as many read again.
    const LONG: usize = 1 << 20;

    fn new() -> Pace {
        Pace { credit: Pace::MOST, settled: 0, read: 0, is_hurried: false }
    }

    /// Counts bytes that came.
    fn add(&mut self, len: usize) {
        self.credit = Pace::MOST.min(self.credit.saturating_add(len.saturating_mul(Pace::TIMES)));
    }

    /// Counts the bytes of tokens, up to the mark where the last one ends. It does not count a byte order mark, so these
    /// bytes came. In UTF-16 it is not asked for.
    fn settle(&mut self, end: Mark) {
        self.settled = usize::try_from(end.index).unwrap_or(usize::MAX);
    }

    /// How many of these bytes wait.
    fn waiting(&self, came: usize) -> usize {
        came.saturating_sub(self.settled)
    }

    /// Whether the bytes that wait are to be read again, of so many that came.
    fn is_due(&self, came: usize) -> bool {
        let (waiting, waited) = (self.waiting(came), self.waiting(self.read));
        let is_time = if waiting < Pace::LONG { waiting <= self.credit } else { waiting - waited >= waited / 4 };
        self.is_hurried || came > self.read && is_time
    }

    /// Counts what was read and gave no token.
    fn wait(&mut self, came: usize) {
        self.credit = self.credit.saturating_sub(self.waiting(came));
        (self.read, self.is_hurried) = (came, false);
    }

    /// Asks for the bytes to be read that wait, of so many that came.
    fn hurry(&mut self, came: usize) {
        self.is_hurried = came > self.read;
    }
}

/// Why [`Pieces`] gives no more tokens.
#[derive(Debug)]
pub enum PieceError {
    /// The reader failed.
    Io(io::Error),
    /// The input was refused.
    Fault(Fault),
}

impl fmt::Display for PieceError {
    fn fmt(&self, f: &mut fmt::Formatter<'_>) -> fmt::Result {
        match self {
            PieceError::Io(error) => error.fmt(f),
            PieceError::Fault(fault) => fault.fmt(f),
        }
    }
}

impl Error for PieceError {
    fn source(&self) -> Option<&(dyn Error + 'static)> {
        match self {
            PieceError::Io(error) => Some(error),
            PieceError::Fault(_) => None,
        }
    }
}

impl From<io::Error> for PieceError {
    fn from(error: io::Error) -> PieceError {
        PieceError::Io(error)
    }
}

impl From<Fault> for PieceError {
    fn from(fault: Fault) -> PieceError {
        PieceError::Fault(fault)
    }
}

/// The tokens of what a reader gives, such as a pipe or a file, each as soon as no more bytes can change it.
///
/// As an iterator it gives the tokens in order, up to the stream end, the first fault or the first failure of the reader.
/// These are the tokens that a [`Scanner`] gives for all bytes, and have copies of their texts.
///
/// ```no_run
/// use bogzhami::{PieceError, Pieces};
///
/// fn main() -> Result<(), PieceError> {
///     for token in Pieces::new(std::io::stdin().lock()) {
///         let token = token?;
///         println!("{:?} at {:?}", token.data, token.start);
///     }
///     Ok(())
/// }
/// ```
///
/// It reads when tokens are asked for that what came does not have, as many bytes as came so far, and at least 4,096. A
/// reader that gives fewer, as a pipe does, is not read again before their tokens were given; [`Feed`], which this is over,
/// says when a long scalar waits for more bytes. A read that is interrupted is made again. If a read fails, the tokens come
/// first that are settled by then, and the error after them, once. The reader is not read again after that, after its end,
/// or after the fault. If reads may fail since there is nothing yet, as those of a nonblocking socket, use a [`Feed`].
pub struct Pieces<R> {
    reader: R,
    feed: Feed,
    /// Why the reader failed, if it did.
    error: Option<io::Error>,
}

impl<R: Read> Pieces<R> {
    /// How many bytes the reader is asked for, at least.
    const LEAST: usize = 4096;

    /// The tokens of a reader with the usual [`Settings`]: any encoding, and a key limit of 1,024 bytes.
    pub fn new(reader: R) -> Pieces<R> {
        Pieces { reader, feed: Feed::new(), error: None }
    }

    /// The tokens of a reader with settings of the caller's. Nothing is read yet.
    pub fn with_settings(reader: R, settings: Settings) -> Result<Pieces<R>, WrongKeyLimit> {
        Ok(Pieces { reader, feed: Feed::with_settings(settings)?, error: None })
    }

    /// Reads once.
    fn read(&mut self) {
        let room = match self.feed.room(self.feed.came.max(Self::LEAST)) {
            Some(room) => room,
            None => return self.feed.lose(),
        };
        match self.reader.read(room) {
            Ok(0) => self.feed.finish(),
            Ok(len) => self.feed.add(len),
            Err(error) if error.kind() == ErrorKind::Interrupted => (),
            Err(error) => {
                self.error = Some(error);
                self.feed.flush();
            }
        }
    }
}

impl<R> Pieces<R> {
    /// The reader.
    pub fn get_ref(&self) -> &R {
        &self.reader
    }

    /// The reader. What was read of it and not given as tokens is lost.
    pub fn into_inner(self) -> R {
        self.reader
    }
}

impl<R: Read> Iterator for Pieces<R> {
    type Item = Result<Token<'static>, PieceError>;

    fn next(&mut self) -> Option<Result<Token<'static>, PieceError>> {
        loop {
            match self.feed.next_token() {
                Ok(Fed::Token(token)) => return Some(Ok(token)),
                Ok(Fed::Over) => return None,
                Ok(Fed::More) => (),
                Err(fault) => return Some(Err(fault.into())),
            }
            if let Some(error) = self.error.take() {
                self.feed.end();
                return Some(Err(error.into()));
            }
            self.read();
        }
    }
}

impl<R: Read> FusedIterator for Pieces<R> {}

impl<R: fmt::Debug> fmt::Debug for Pieces<R> {
    fn fmt(&self, f: &mut fmt::Formatter<'_>) -> fmt::Result {
        f.debug_struct("Pieces").field("reader", &self.reader).field("feed", &self.feed).finish_non_exhaustive()
    }
}

fn part(texts: &[u8], at: u64, len: u64) -> &[u8] {
    &texts[at as usize..][..len as usize]
}

fn fault_of(answer: &Answer, texts: &[u8], mark: Mark) -> Fault {
    let word = |at, len| String::from_utf8_lossy(part(texts, at, len)).into_owned();
    let problem = word(answer.text_len, answer.problem_len);
    let context = word(answer.text_len + answer.problem_len, answer.context_len);
    match answer.error {
        READER_ERROR => {
            Fault::Reader { problem, offset: answer.problem_offset, value: answer.problem_value, mark }
        }
        SCANNER_ERROR => Fault::Scanner {
            problem,
            mark,
            context: (!context.is_empty()).then_some(context),
            context_mark: answer.context_mark,
        },
        _ => Fault::Memory,
    }
}

fn encoding_of(number: u32) -> Encoding {
    match number {
        1 => Encoding::Utf8,
        2 => Encoding::Utf16Le,
        3 => Encoding::Utf16Be,
        _ => Encoding::Any,
    }
}

fn style_of(number: u32) -> Style {
    match number {
        2 => Style::SingleQuoted,
        3 => Style::DoubleQuoted,
        4 => Style::Literal,
        5 => Style::Folded,
        _ => Style::Plain,
    }
}

/// The first text of a record in the room for texts.
fn first_of<'t>(record: &Record, texts: &'t [u8]) -> &'t [u8] {
    part(texts, record.text_at, record.first_len)
}

/// The second text of a record in the room for texts, where it follows the first.
fn second_of<'t>(record: &Record, texts: &'t [u8]) -> &'t [u8] {
    part(texts, record.text_at + record.first_len, record.second_len)
}

/// The first text of a record in the input, or `None` if the input does not have it as it is.
fn spelled<'a>(record: &Record, input: &'a [u8]) -> Option<&'a [u8]> {
    let start = usize::try_from(record.input_at).ok()?; // BOGZHAMI_NOWHERE is past the end of every input
    let len = usize::try_from(record.first_len).ok()?;
    input.get(start..start.checked_add(len)?)
}

/// A token that borrows its texts from the room for texts.
fn lent<'t>(record: &Record, texts: &'t [u8]) -> Token<'t> {
    let lent = |text| Text(Cow::Borrowed(text));
    token_of(record, || lent(first_of(record, texts)), || lent(second_of(record, texts)))
}

/// A copy of a text.
fn copy(text: &[u8]) -> Text<'static> {
    Text(Cow::Owned(text.to_vec()))
}

/// A token that has copies of its texts.
fn copied(record: &Record, texts: &[u8]) -> Token<'static> {
    token_of(record, || copy(first_of(record, texts)), || copy(second_of(record, texts)))
}

/// A token that borrows its text from the input, or has copies if the input does not have it as it is.
fn given<'a>(record: &Record, input: &'a [u8], texts: &[u8]) -> Token<'a> {
    let first = || match spelled(record, input) {
        Some(text) => Text(Cow::Borrowed(text)),
        None => copy(first_of(record, texts)),
    };
    token_of(record, first, || copy(second_of(record, texts)))
}

/// The token of a record, whose texts are made if it has them.
fn token_of<'t>(record: &Record, first: impl FnOnce() -> Text<'t>, second: impl FnOnce() -> Text<'t>) -> Token<'t> {
    let data = match record.token_type {
        1 => Data::StreamStart { encoding: encoding_of(record.detail) },
        2 => Data::StreamEnd,
        3 => Data::VersionDirective { major: record.major, minor: record.minor },
        4 => Data::TagDirective { handle: first(), prefix: second() },
        5 => Data::DocumentStart,
        6 => Data::DocumentEnd,
        7 => Data::BlockSequenceStart,
        8 => Data::BlockMappingStart,
        9 => Data::BlockEnd,
        10 => Data::FlowSequenceStart,
        11 => Data::FlowSequenceEnd,
        12 => Data::FlowMappingStart,
        13 => Data::FlowMappingEnd,
        14 => Data::BlockEntry,
        15 => Data::FlowEntry,
        16 => Data::Key,
        17 => Data::Value,
        18 => Data::Alias { name: first() },
        19 => Data::Anchor { name: first() },
        20 => Data::Tag { handle: first(), suffix: second() },
        21 => Data::Scalar { value: first(), style: style_of(record.detail) },
        number => unreachable!("no token has the type {number}"),
    };
    Token { data, start: record.start_mark, end: record.end_mark }
}
