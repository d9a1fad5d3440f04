//! An input that comes in pieces, by a `Feed` and by `Pieces`, has the tokens and the fault that a `Scanner` gives for the
//! whole; they come as soon as they are settled, and the time grows with the length of the input.
#[path = "../examples/list/listing.rs"]
#[allow(dead_code)]
mod listing;
mod worked;

use bogzhami as scanner; // by this name listing.rs calls the crate
use scanner::{Data, Encoding, Fault, Fed, Feed, PieceError, Pieces, Scanner, Settings, Token, WrongKeyLimit};
use std::collections::VecDeque;
use std::error::Error;
use std::io::{self, ErrorKind, Read};
use std::time::{Duration, Instant};
use worked::{rows, Row};

type Item = Result<Token<'static>, Fault>;

/// More than the time of what takes seconds, and less than what it takes if each piece is read with all before it.
const LONG: Duration = Duration::from_secs(120);

/// Lengths of pieces that follow from a seed.
struct Lengths(u64);

impl Lengths {
    /// The next length, from 1 on.
    fn next(&mut self, most: usize) -> usize {
        self.0 ^= self.0 << 13;
        self.0 ^= self.0 >> 7;
        self.0 ^= self.0 << 17;
        1 + (self.0 % most as u64) as usize
    }
}

/// An input in pieces of one length, which is 0 for random ones.
fn parts(input: &[u8], len: usize) -> Vec<&[u8]> {
    let (mut lengths, mut left, mut parts) = (Lengths(0x9E37_79B9_7F4A_7C15), input, Vec::new());
    while !left.is_empty() {
        let len = if len == 0 { lengths.next(20) } else { len };
        let (part, rest) = left.split_at(len.min(left.len()));
        parts.push(part);
        left = rest;
    }
    parts
}

/// What a read is answered with.
enum Answer<'a> {
    Bytes(&'a [u8]),
    Fails(ErrorKind),
}

/// A reader that gives answers one by one. It panics if it is read after its end, or after a failure.
struct Script<'a> {
    answers: VecDeque<Answer<'a>>,
    is_over: bool,
}

impl<'a> Script<'a> {
    fn new(parts: impl IntoIterator<Item = &'a [u8]>) -> Script<'a> {
        Script { answers: parts.into_iter().map(Answer::Bytes).collect(), is_over: false }
    }

    fn then(mut self, answer: Answer<'a>) -> Script<'a> {
        self.answers.push_back(answer);
        self
    }
}

impl Read for Script<'_> {
    fn read(&mut self, room: &mut [u8]) -> io::Result<usize> {
        assert!(!self.is_over, "it is read after its end");
        match self.answers.pop_front() {
            Some(Answer::Bytes(bytes)) => {
                let (now, later) = bytes.split_at(bytes.len().min(room.len()));
                room[..now.len()].copy_from_slice(now);
                if !later.is_empty() {
                    self.answers.push_front(Answer::Bytes(later));
                }
                Ok(now.len())
            }
            Some(Answer::Fails(kind)) => {
                self.is_over = kind != ErrorKind::Interrupted;
                Err(kind.into())
            }
            None => {
                self.is_over = true;
                Ok(0)
            }
        }
    }
}

fn whole(input: &[u8], settings: Settings) -> Vec<Item> {
    let scanner = Scanner::with_settings(input, settings).expect("the key limit is right");
    scanner.map(|item| item.map(Token::into_owned)).collect()
}

/// The tokens and the fault that a feed has now.
fn take(feed: &mut Feed) -> Vec<Item> {
    let mut items = Vec::new();
    loop {
        match feed.next_token() {
            Ok(Fed::Token(token)) => items.push(Ok(token)),
            Ok(Fed::More | Fed::Over) => return items,
            Err(fault) => items.push(Err(fault)),
        }
    }
}

fn fed(parts: &[&[u8]], settings: Settings) -> Vec<Item> {
    let (mut feed, mut items) = (Feed::with_settings(settings).expect("the key limit is right"), Vec::new());
    for part in parts {
        feed.feed(part);
        items.extend(take(&mut feed));
    }
    feed.finish();
    items.extend(take(&mut feed));
    assert_eq!(feed.next_token(), Ok(Fed::Over));
    items
}

/// The items of `Pieces` whose reader does not fail.
fn read(reader: impl Read, settings: Settings) -> Vec<Item> {
    let mut pieces = Pieces::with_settings(reader, settings).expect("the key limit is right");
    let items = pieces.by_ref().map(|item| {
        item.map_err(|error| match error {
            PieceError::Fault(fault) => fault,
            PieceError::Io(error) => panic!("{error}"),
        })
    });
    let items = items.collect();
    assert!(pieces.next().is_none());
    items
}

fn check(input: &[u8], settings: Settings) {
    let wanted = whole(input, settings);
    for len in [1, 2, 3, 7, 4096, 0] {
        let parts = parts(input, len);
        assert_eq!(fed(&parts, settings), wanted, "fed by {len}: {input:02x?}");
        assert_eq!(read(Script::new(parts), settings), wanted, "read by {len}: {input:02x?}");
    }
}

/// A text in UTF-16, with a byte order mark.
fn utf16(text: &str, bytes_of: fn(u16) -> [u8; 2]) -> Vec<u8> {
    format!("\u{FEFF}{text}").encode_utf16().flat_map(bytes_of).collect()
}

fn line(item: &Item) -> String {
    item.as_ref().map_or_else(listing::fault_line, |token| listing::line(token.clone()))
}

#[test]
fn rows_come_in_pieces() {
    for Row { words, input, lines } in rows() {
        let settings = listing::settings(&words).expect("the words are right");
        for batch_len in [0, 2, 256] {
            check(&input, Settings { batch_len, ..settings });
        }
        let listed: Vec<String> = fed(&parts(&input, 5), settings).iter().map(line).collect();
        assert_eq!(listed, lines);
    }
}

#[test]
fn rows_come_in_pieces_of_utf16() {
    let texts: Vec<String> = rows().into_iter().filter_map(|row| String::from_utf8(row.input).ok()).collect();
    assert!(texts.len() > 60);
    for text in texts {
        check(&utf16(&text, u16::to_le_bytes), Settings::default());
        check(&utf16(&text, u16::to_be_bytes), Settings::default());
        let settings = Settings { encoding: Encoding::Utf16Be, ..Settings::default() };
        check(&utf16(&text, u16::to_be_bytes), settings);
    }
}

#[test]
fn many_lines_come_in_random_pieces() {
    let line = "- {name: Anna, 'age': [1, 2]} # a comment\n- |\n  two\n  lines\n- &a \"b\\x63 d\"\n- !e *a\n";
    for end in ["", "...\n", "'open", "\u{1}"] {
        check(format!("{}{end}", line.repeat(50)).as_bytes(), Settings::default());
    }
}

/// The bytes of an input, of which a reader counts those that are given, and tells how many are asked for each time.
struct Counted<'a> {
    left: &'a [u8],
    asked: Vec<usize>,
    given: usize,
}

impl<'a> Counted<'a> {
    fn new(input: &'a str) -> Counted<'a> {
        Counted { left: input.as_bytes(), asked: vec![], given: 0 }
    }
}

impl Read for Counted<'_> {
    fn read(&mut self, room: &mut [u8]) -> io::Result<usize> {
        let given = self.left.read(room)?;
        self.asked.push(room.len());
        self.given += given;
        Ok(given)
    }
}

#[test]
fn no_more_is_read_than_the_tokens_need() {
    let input = "- an item\n".repeat(1 << 20);
    let mut pieces = Pieces::new(Counted::new(&input));
    assert!(pieces.get_ref().asked.is_empty(), "nothing is read before a token is asked for");
    assert!(matches!(pieces.next(), Some(Ok(Token { data: Data::StreamStart { .. }, .. }))));
    assert_eq!(pieces.get_ref().asked, [4096]);
    for number in 0..10_000 {
        let token = pieces.next().expect("there are more").expect("it has no fault");
        let given = pieces.get_ref().given;
        // Eight characters may wait for more of them, behind the token; then as many are read as were before.
        let needed = token.end.index as usize + 2 * "- an item\n".len();
        assert!(given <= (2 * needed).max(4096), "{given} bytes are read for token {number}");
    }
    assert!(pieces.into_inner().given < input.len());
}

#[test]
fn reader_is_asked_for_as_many_bytes_as_came() {
    let input = "- an item\n".repeat(3000);
    let mut pieces = Pieces::new(Counted::new(&input));
    assert!(pieces.by_ref().all(|item| item.is_ok()));
    let Counted { asked, given, .. } = pieces.into_inner();
    assert_eq!((asked, given), (vec![4096, 4096, 8192, 16384, 30000], 30000));
}

/// The values of the scalars of items that have no fault.
fn values(items: Vec<Item>) -> Vec<String> {
    let tokens = items.into_iter().map(|item| item.expect("it has no fault"));
    let values = tokens.filter_map(|token| match token.data {
        Data::Scalar { value, .. } => Some(value.to_string()),
        _ => None,
    });
    values.collect()
}

#[test]
fn lines_are_given_while_others_are_awaited() {
    let mut feed = Feed::new();
    let steps: [(&str, &[&str]); 4] = [
        ("- first\n", &[]), // it may go on in the next line
        ("- the second\n", &["first"]),
        ("---\n'the third'\n--- # nothing\n", &["the second", "the third"]),
        ("the end", &[]),
    ];
    for (line, wanted) in steps {
        feed.feed(line.as_bytes());
        assert_eq!(values(take(&mut feed)), wanted, "after {line:?}");
        assert_eq!(feed.next_token(), Ok(Fed::More));
    }
    feed.finish();
    assert_eq!(values(take(&mut feed)), ["the end"]);
    assert_eq!(feed.next_token(), Ok(Fed::Over));
}

/// Each item of a list is given when its line, the mark of the next item and eight characters came, after a megabyte too.
#[test]
fn small_pieces_of_a_long_text_are_given_at_once() {
    let (line, mut feed) = ("- some words and more\n", Feed::new());
    let before = "- x\n".repeat(1 << 19);
    feed.feed(before.as_bytes());
    let mut count = take(&mut feed).len();
    for number in 1..=20_000 {
        for byte in line.bytes() {
            feed.feed(&[byte]);
            count += take(&mut feed).len();
        }
        let (items, least) = (1 << 19, 2 + 2 * (1 << 19) + 2 * (number - 1));
        assert!(count >= least, "{count} tokens after {items} items and {number} lines");
    }
}

/// A text with a literal scalar that is long, and how many of its bytes have to come for that to be settled.
fn long_literal(len: usize) -> (String, usize) {
    let text = format!("a: |\n{}", "  some words of a text, and more\n".repeat(len / 33));
    let settled = text.len() + "b: c # d".len();
    (text + "b: c # d e f g h\n", settled)
}

/// Six tokens are those up to the literal scalar.
fn check_literal<'a>(parts: impl Iterator<Item = &'a [u8]>, settled: usize) {
    let (mut feed, mut came, mut count) = (Feed::new(), 0, 0);
    for part in parts {
        feed.feed(part);
        came += part.len();
        count += take(&mut feed).len();
        assert!(count >= 6 || came < settled, "{count} tokens of {came} bytes");
    }
    assert!(count >= 6 && came > settled);
}

#[test]
fn literal_below_a_megabyte_is_given_by_the_piece_that_settles_it() {
    let (text, settled) = long_literal(1_000_000);
    check_literal(text.as_bytes().chunks(4096), settled);
    check_literal(text.as_bytes().chunks(1 << 16), settled);
    let (front, rest) = text.as_bytes().split_at(settled - 20);
    check_literal(std::iter::once(front).chain(rest.chunks(1)), settled);
    let (text, settled) = long_literal(5_000);
    check_literal(text.as_bytes().chunks(1), settled);
}

#[test]
fn flush_has_the_last_bytes_of_a_long_scalar_looked_at() {
    let (text, _) = long_literal(5 << 20);
    let (front, rest) = text.as_bytes().split_at(text.len() - 100);
    let mut feed = Feed::new();
    feed.feed(front);
    feed.flush();
    assert_eq!(take(&mut feed).len(), 5, "the literal scalar is not whole");
    feed.feed(rest);
    assert_eq!(feed.next_token(), Ok(Fed::More), "more is waited for");
    feed.flush();
    assert_eq!(values(take(&mut feed)).len(), 3, "the literal scalar, and the key and the value after it");
    assert_eq!(feed.next_token(), Ok(Fed::More));
}

#[test]
fn flush_says_nothing_of_bytes_that_come_after_it() {
    let (text, _) = long_literal(5 << 20);
    let (front, rest) = text.as_bytes().split_at(text.len() - 100);
    let mut feed = Feed::new();
    feed.feed(front);
    assert_eq!(take(&mut feed).len(), 5, "the literal scalar is not whole");
    feed.flush();
    feed.feed(rest);
    assert_eq!(feed.next_token(), Ok(Fed::More), "more is waited for");
}

#[test]
fn time_grows_with_a_long_scalar_of_pieces() {
    let begun = Instant::now();
    for text in [long_literal(20_000_000).0, format!("a: {}", "in lines\n ".repeat(1_000_000))] {
        let wanted = whole(text.as_bytes(), Settings::default());
        let parts = parts(text.as_bytes(), 4096);
        assert!(fed(&parts, Settings::default()) == wanted);
        assert!(read(Script::new(parts), Settings::default()) == wanted);
    }
    assert!(begun.elapsed() < LONG, "{:?}", begun.elapsed());
}

#[test]
fn time_grows_with_a_long_scalar_of_bytes() {
    let begun = Instant::now();
    for text in [format!("a: {}", "x".repeat(1 << 20)), long_literal(1 << 20).0] {
        let wanted = whole(text.as_bytes(), Settings::default());
        let parts = parts(text.as_bytes(), 1);
        assert!(fed(&parts, Settings::default()) == wanted);
        assert!(read(Script::new(parts), Settings::default()) == wanted);
    }
    assert!(begun.elapsed() < LONG, "{:?}", begun.elapsed());
}

/// The tokens of `Pieces` and the kind of its reader's error.
fn failed(reader: Script) -> (Vec<Item>, Option<ErrorKind>) {
    let (mut pieces, mut items, mut kind) = (Pieces::new(reader), Vec::new(), None);
    for item in pieces.by_ref() {
        assert_eq!(kind, None, "the error is the last item");
        match item {
            Ok(token) => items.push(Ok(token)),
            Err(PieceError::Fault(fault)) => items.push(Err(fault)),
            Err(PieceError::Io(error)) => kind = Some(error.kind()),
        }
    }
    assert!(pieces.next().is_none() && pieces.next().is_none());
    (items, kind)
}

#[test]
fn reader_that_fails_has_its_error_after_the_tokens_that_are_settled() {
    let input = "- a\n- b\n- c\n- a longer item\n";
    let all = whole(input.as_bytes(), Settings::default());
    for len in [1, 5, 4096] {
        let reader = Script::new(parts(input.as_bytes(), len)).then(Answer::Fails(ErrorKind::ConnectionReset));
        // These are the stream, the list, three items, and the mark of the fourth.
        assert_eq!(failed(reader), (all[..9].to_vec(), Some(ErrorKind::ConnectionReset)));
    }
    let reader = Script::new([]).then(Answer::Fails(ErrorKind::WouldBlock));
    assert_eq!(failed(reader), (vec![], Some(ErrorKind::WouldBlock)));
    let in_utf16 = utf16(input, u16::to_le_bytes);
    let reader = Script::new([&in_utf16[..]]).then(Answer::Fails(ErrorKind::Other));
    assert_eq!(failed(reader), (vec![], Some(ErrorKind::Other)));
}

#[test]
fn reader_that_fails_behind_a_long_scalar_has_it_given_first() {
    for (len, front) in [(5 << 20, 100), (100_000, 100_000)] {
        let (text, _) = long_literal(len);
        let (front, rest) = text.as_bytes().split_at(text.len() - front);
        let reader = Script::new(std::iter::once(front).chain(rest.chunks(1))).then(Answer::Fails(ErrorKind::TimedOut));
        let (items, kind) = failed(reader);
        assert_eq!((values(items).len(), kind), (4, Some(ErrorKind::TimedOut)));
    }
}

#[test]
fn fault_comes_and_not_the_error_of_a_reader_that_fails_after_it() {
    let input = "a: b: c # some more\n";
    let reader = Script::new([input.as_bytes()]).then(Answer::Fails(ErrorKind::Other));
    assert_eq!(failed(reader), (whole(input.as_bytes(), Settings::default()), None));
}

#[test]
fn interrupted_reads_are_made_again() {
    let input = "- a\n- 'b\n  c'\n";
    let mut reader = Script::new([]).then(Answer::Fails(ErrorKind::Interrupted));
    for part in parts(input.as_bytes(), 1) {
        for _ in 0..2 {
            reader = reader.then(Answer::Fails(ErrorKind::Interrupted));
        }
        reader = reader.then(Answer::Bytes(part));
    }
    let reader = reader.then(Answer::Fails(ErrorKind::Interrupted));
    assert_eq!(read(reader, Settings::default()), whole(input.as_bytes(), Settings::default()));
}

#[test]
fn nothing_comes_after_the_end() {
    let mut feed = Feed::new();
    assert_eq!(feed.next_token(), Ok(Fed::More), "nothing came yet");
    feed.feed(b"");
    assert_eq!(feed.next_token(), Ok(Fed::More), "no bytes are no end");
    feed.feed(b"a");
    feed.finish();
    feed.feed(b": b");
    feed.finish();
    assert_eq!(take(&mut feed), whole(b"a", Settings::default()));
    for _ in 0..2 {
        assert_eq!(feed.next_token(), Ok(Fed::Over));
        feed.feed(b"- c\n- d\n- e\n- f\n");
        feed.flush();
        feed.finish();
    }
}

#[test]
fn nothing_comes_after_the_fault() {
    let mut feed = Feed::new();
    feed.feed(b"a: b: c # some more\n");
    let wanted = whole(b"a: b: c # some more\n", Settings::default());
    assert_eq!(take(&mut feed), wanted);
    assert!(matches!(wanted.last(), Some(Err(Fault::Scanner { .. }))));
    for _ in 0..2 {
        assert_eq!(format!("{feed:?}"), "Feed { came: 0, left: 0, .. }", "nothing is kept");
        assert_eq!(feed.next_token(), Ok(Fed::Over));
        feed.feed(b"- c\n- d\n- e\n- f\n");
        feed.finish();
    }
}

#[test]
fn faults_of_the_reader_have_a_line_and_a_column() {
    let inputs: [(&[u8], &str); 2] = [
        (b"ab: cd\nx: \xFFb", "invalid leading UTF-8 octet at line 2 column 4 (offset 10)"),
        (b"\xEF\xBB\xBFa\r\n\xC3\xA9\x01b", "control characters are not allowed at line 2 column 2 (offset 8)"),
    ];
    for (input, wanted) in inputs {
        let mut feed = Feed::new();
        parts(input, 1).into_iter().for_each(|part| feed.feed(part));
        let told = take(&mut feed).pop().expect("it is there before the end").expect_err("it is a fault");
        assert_eq!(told.to_string(), wanted);
    }
    let (items, _) = failed(Script::new(parts(b"\xFF\xFEa\0\n\0\0\xDC", 1)));
    let told = items.last().expect("there is one").as_ref().expect_err("it is a fault").to_string();
    assert_eq!(told, "unexpected low surrogate area at line 2 column 1 (offset 6)", "UTF-16");
}

#[test]
fn errors_are_told_and_have_their_source() {
    fn boxed<E: Error + Send + Sync + 'static>(error: E) -> Box<dyn Error + Send + Sync> {
        error.into()
    }
    let broken = boxed(PieceError::from(io::Error::new(ErrorKind::Other, "the line is cut")));
    assert_eq!(broken.to_string(), "the line is cut");
    assert!(broken.source().expect("it has one").is::<io::Error>());
    let fault = boxed(Pieces::new(&b"'a"[..]).find_map(Result::err).expect("the quote is open"));
    let told = "while scanning a quoted scalar: found unexpected end of stream at line 1 column 3";
    assert_eq!(fault.to_string(), told);
    assert!(fault.source().is_none());
}

#[test]
fn wrong_key_limits_are_refused() {
    for key_limit in [0, 65_537] {
        let settings = Settings { key_limit, ..Settings::default() };
        assert_eq!(Feed::with_settings(settings).err(), Some(WrongKeyLimit(key_limit)));
        assert_eq!(Pieces::with_settings(&b"a"[..], settings).err(), Some(WrongKeyLimit(key_limit)));
    }
}

/// A task of an asynchronous program may go on in another thread whenever it has waited.
#[test]
fn feed_goes_from_thread_to_thread() {
    let input = "- a\n- {b: 'c d'}\n- |\n  e\n";
    let (mut feed, mut items) = (Feed::default(), Vec::new());
    for part in parts(input.as_bytes(), 5) {
        feed.feed(part);
        let thread = std::thread::spawn(move || {
            let items = take(&mut feed);
            (feed, items)
        });
        let (back, more) = thread.join().expect("the thread ends");
        feed = back;
        items.extend(more);
    }
    feed.finish();
    items.extend(take(&mut feed));
    assert_eq!(items, whole(input.as_bytes(), Settings::default()));
}
