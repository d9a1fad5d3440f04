//! held < INPUTS: checks the iterator, the batches, the peeks and the inputs in pieces of scanner.rs against each other, for
//! tests/ffi.py, which checks the batches by ffi/list.rs, and which texts the iterator borrows from the input. The inputs are
//! packed as held.c says. It stops at the first thing that is wrong, and then the exit status is not 0.
#[path = "../rust/src/scanner.rs"]
mod scanner;

use scanner::{Data, Encoding, Fault, Fed, Feed, PieceError, Pieces};
use scanner::{Scanner, Settings, Style, Text, Token, WrongKeyLimit};
use std::borrow::Cow;
use std::io::{self, Read};
use std::process::ExitCode;

type Item = Result<Token<'static>, Fault>;

/// How many items an iterator may give; no input here has as many.
const MOST: usize = 100_000;

/// The next bytes, so many, if there are as many.
fn take_slice<'a>(from: &mut &'a [u8], len: usize) -> Option<&'a [u8]> {
    let taken = from.get(..len)?;
    *from = &from[len..];
    Some(taken)
}

fn take<const N: usize>(from: &mut &[u8]) -> Option<[u8; N]> {
    take_slice(from, N)?.try_into().ok()
}

/// The next input with its settings.
fn next_input<'a>(from: &mut &'a [u8]) -> Option<(Settings, &'a [u8])> {
    let encoding = match u32::from_ne_bytes(take(from)?) {
        1 => Encoding::Utf8,
        2 => Encoding::Utf16Le,
        3 => Encoding::Utf16Be,
        _ => Encoding::Any,
    };
    let key_limit = u32::from_ne_bytes(take(from)?);
    let len = u64::from_ne_bytes(take(from)?) as usize;
    let input = take_slice(from, len)?;
    Some((Settings { encoding, key_limit, batch_len: 1000 }, input))
}

fn open(input: &[u8], settings: Settings, batch_len: usize) -> Scanner<'_> {
    Scanner::with_settings(input, Settings { batch_len, ..settings }).expect("the key limit is right")
}

/// All items of a scanner, by batches.
fn by_batches(mut scanner: Scanner) -> Vec<Item> {
    let mut items = Vec::new();
    while let Some(batch) = scanner.next_batch() {
        match batch {
            Ok(tokens) => items.extend(tokens.map(|token| Ok(token.into_owned()))),
            Err(fault) => items.push(Err(fault)),
        }
    }
    items
}

/// All items by turns: one alone, then the rest of its batch, or if that is empty the next one.
fn by_turns(mut scanner: Scanner) -> Vec<Item> {
    let mut items = Vec::new();
    while let Some(item) = scanner.next() {
        items.push(item.map(Token::into_owned));
        match scanner.next_batch() {
            Some(Ok(tokens)) => {
                let (len, before) = (tokens.len(), items.len());
                items.extend(tokens.map(|token| Ok(token.into_owned())));
                assert_eq!(items.len() - before, len, "a batch has as many tokens as it says");
            }
            Some(Err(fault)) => items.push(Err(fault)),
            None => (),
        }
    }
    items
}

/// All items one by one, each after two peeks that have to show it.
fn by_peeks(mut scanner: Scanner) -> Vec<Item> {
    let mut items = Vec::new();
    loop {
        let first = scanner.peek().map(|shown| shown.map(Token::into_owned).map_err(Fault::clone));
        let second = scanner.peek().map(|shown| shown.map(Token::into_owned).map_err(Fault::clone));
        let item = scanner.next().map(|item| item.map(Token::into_owned));
        assert_eq!(first, item, "a peek shows what is next");
        assert_eq!(second, item, "a second peek shows the same");
        match item {
            Some(item) => items.push(item),
            None => return items,
        }
    }
}

/// All items of an iterator, which gives nothing more after its end.
fn one_by_one(mut scanner: Scanner) -> Vec<Item> {
    let found = scanner.encoding();
    assert_ne!(found, Encoding::Any, "it is known before anything is read");
    let items: Vec<Item> = scanner.by_ref().take(MOST).map(|item| item.map(Token::into_owned)).collect();
    assert!(scanner.next().is_none() && scanner.next_batch().is_none() && scanner.peek().is_none());
    if let Some(Ok(Token { data: Data::StreamStart { encoding }, .. })) = items.first() {
        assert_eq!((found, scanner.encoding()), (*encoding, *encoding), "the encoding is that of the first token");
    }
    items
}

/// The items that a feed has now.
fn items_now(feed: &mut Feed) -> Vec<Item> {
    let mut items = Vec::new();
    loop {
        match feed.next_token() {
            Ok(Fed::Token(token)) => items.push(Ok(token)),
            Ok(Fed::More | Fed::Over) => return items,
            Err(fault) => items.push(Err(fault)),
        }
    }
}

/// All items of a feed that is given pieces of some length, and is dropped when it has given so many.
fn by_feed(input: &[u8], settings: Settings, len: usize, most: usize) -> Vec<Item> {
    let (mut feed, mut items) = (Feed::with_settings(settings).expect("the key limit is right"), Vec::new());
    for piece in input.chunks(len) {
        feed.feed(piece);
        items.extend(items_now(&mut feed));
        if items.len() >= most {
            return items;
        }
    }
    feed.finish();
    items.extend(items_now(&mut feed));
    assert_eq!(feed.next_token(), Ok(Fed::Over));
    items
}

/// A reader that gives no more at once than a pipe does that holds so much.
struct Pipe<'a>(&'a [u8], usize);

impl Read for Pipe<'_> {
    fn read(&mut self, room: &mut [u8]) -> io::Result<usize> {
        let len = room.len().min(self.1);
        self.0.read(&mut room[..len])
    }
}

/// All items of a reader.
fn by_pieces(input: &[u8], settings: Settings, len: usize) -> Vec<Item> {
    let pieces = Pieces::with_settings(Pipe(input, len), settings).expect("the key limit is right");
    let fault_of = |error| match error {
        PieceError::Fault(fault) => fault,
        PieceError::Io(error) => panic!("{error}"),
    };
    pieces.map(|item| item.map_err(fault_of)).collect()
}

/// Where a borrowed text stands in the input; `None` of a copy.
fn place_of(text: &Text, input: &[u8]) -> Option<usize> {
    match text.0 {
        Cow::Borrowed(bytes) => {
            let at = (bytes.as_ptr() as usize).checked_sub(input.as_ptr() as usize).expect("it is in the input");
            assert!(at + bytes.len() <= input.len(), "it is in the input");
            Some(at)
        }
        Cow::Owned(_) => None,
    }
}

fn is_utf8(input: &[u8], settings: Settings) -> bool {
    let has_utf16_mark = input.starts_with(b"\xFF\xFE") || input.starts_with(b"\xFE\xFF");
    settings.encoding == Encoding::Utf8 || settings.encoding == Encoding::Any && !has_utf16_mark
}

/// How many bytes a token has before its text; `None` if its texts are always copied.
fn sign_len(token: &Token) -> Option<usize> {
    match token.data {
        Data::Scalar { style: Style::Plain, .. } => Some(0),
        Data::Scalar { style: Style::SingleQuoted | Style::DoubleQuoted, .. } => Some(1),
        Data::Alias { .. } | Data::Anchor { .. } => Some(1),
        _ => None,
    }
}

fn texts_of<'t, 'a>(token: &'t Token<'a>) -> Vec<&'t Text<'a>> {
    match &token.data {
        Data::Alias { name } | Data::Anchor { name } => vec![name],
        Data::Scalar { value, .. } => vec![value],
        Data::TagDirective { handle, prefix } => vec![handle, prefix],
        Data::Tag { handle, suffix } => vec![handle, suffix],
        _ => vec![],
    }
}

/// Checks that a token borrows its text from the input if it stands there as it is, behind a quote or an indicator, and
/// has copies if not. The marks do not count a byte order mark that decides the encoding.
fn check_places(token: &Token, input: &[u8], settings: Settings) {
    let skipped = if settings.encoding == Encoding::Any && input.starts_with(b"\xEF\xBB\xBF") { 3 } else { 0 };
    let at = sign_len(token).filter(|_| is_utf8(input, settings)).map(|len| skipped + token.start.index as usize + len);
    for text in texts_of(token) {
        let wanted = at.filter(|at| input[*at..].starts_with(text));
        assert_eq!(place_of(text, input), wanted, "the place of {token:?}");
    }
}

fn check(input: &[u8], settings: Settings) {
    let all = by_batches(open(input, settings, 1000));
    let faults = all.iter().filter(|item| item.is_err()).count();
    let is_ended = matches!(all.last(), Some(Ok(Token { data: Data::StreamEnd, .. }) | Err(_)));
    assert!(is_ended && faults <= 1, "the last item is the stream end or the one fault");
    for batch_len in [0, 1, 2, 7, 256] {
        assert_eq!(one_by_one(open(input, settings, batch_len)), all, "one by one, {batch_len} at once");
        assert_eq!(by_batches(open(input, settings, batch_len)), all, "batches of {batch_len}");
        assert_eq!(by_turns(open(input, settings, batch_len)), all, "by turns, {batch_len} at once");
        assert_eq!(by_peeks(open(input, settings, batch_len)), all, "by peeks, {batch_len} at once");
    }
    for (len, batch_len) in [(1, 256), (7, 3), (4096, 256)] {
        let settings = Settings { batch_len, ..settings };
        assert_eq!(by_feed(input, settings, len, MOST), all, "fed by {len}");
        assert_eq!(by_pieces(input, settings, len), all, "read by {len}");
        let some = by_feed(input, settings, len, 3);
        assert_eq!(some[..], all[..some.len()], "a feed that is dropped");
    }
    open(input, settings, 256).flatten().for_each(|token| check_places(&token, input, settings));
    for count in 0..5 {
        let some: Vec<Item> = open(input, settings, 2).take(count).map(|item| item.map(Token::into_owned)).collect();
        assert_eq!(some[..], all[..count.min(all.len())], "a scanner that is dropped after {count} items");
    }
}

fn check_settings() {
    for key_limit in [0, 65537, u32::MAX] {
        let settings = Settings { key_limit, ..Settings::default() };
        assert_eq!(Scanner::with_settings(b"a", settings).err(), Some(WrongKeyLimit(key_limit)));
        assert_eq!(Feed::with_settings(settings).err(), Some(WrongKeyLimit(key_limit)));
    }
    for key_limit in [1, 65536] {
        assert!(Scanner::with_settings(b"a", Settings { key_limit, ..Settings::default() }).is_ok());
    }
    let longest = vec![b'a'; 100_000];
    let tokens: Vec<Item> = Scanner::new(&longest).map(|item| item.map(Token::into_owned)).collect();
    let is_whole =
        |item: &Item| matches!(item, Ok(Token { data: Data::Scalar { value, .. }, .. }) if **value == *longest);
    assert!(tokens.len() == 3 && is_whole(&tokens[1]), "a text that is longer than the room");
}

/// Compares the places of an input's texts.
fn check_row(input: &[u8], wanted: &[Option<usize>]) {
    let tokens: Vec<Token> = Scanner::new(input).map(|item| item.expect("it has no fault")).collect();
    let places: Vec<Option<usize>> = tokens.iter().flat_map(texts_of).map(|text| place_of(text, input)).collect();
    assert_eq!(places, wanted, "{}", String::from_utf8_lossy(input));
}

fn check_rows() {
    check_row(b"a: b c", &[Some(0), Some(3)]);
    check_row(b"'a': \"b c\"", &[Some(1), Some(6)]);
    check_row(b"- &a !!s b\n- *a", &[Some(3), None, None, Some(9), Some(14)]);
    check_row(b"\xEF\xBB\xBFa: 'b'", &[Some(3), Some(7)]);
    check_row(b"- 'it''s'\n- \"\\x41\"\n- \"\\\nb\"", &[None, None, None]);
    check_row(b"- a\n  b\n- 'a\n\n  b'\n- |\n  a\n- >\n  b\n", &[None, None, None, None]);
    check_row(b"\xFF\xFEa\0:\0 \0'\0b\0'\0", &[None, None]);
}

fn main() -> io::Result<ExitCode> {
    let mut bytes = Vec::new();
    io::stdin().read_to_end(&mut bytes)?;
    let (mut left, mut count) = (&bytes[..], 0);
    check_settings();
    check_rows();
    while let Some((settings, input)) = next_input(&mut left) {
        check(input, settings);
        count += 1;
    }
    println!("rust: {count} inputs");
    Ok(ExitCode::from(if count > 0 && left.is_empty() { 0 } else { 1 }))
}
