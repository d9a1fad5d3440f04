//! Lists the inputs of rows.txt, and compares the lines with those that stand there.
#[path = "../examples/list/listing.rs"]
mod listing;
mod worked;

use bogzhami as scanner; // by this name listing.rs calls the crate
use scanner::{Data, Encoding, Fault, Scanner, Settings, Text, Token};
use std::borrow::Cow;
use std::error::Error;
use worked::{rows, Row};

fn listed(words: &[String], input: &[u8]) -> String {
    let settings = listing::settings(words).expect("the words are right");
    let mut out = Vec::new();
    let mut scanner = Scanner::with_settings(input, settings).expect("the key limit is right");
    listing::list(&mut out, &mut scanner).expect("a list of bytes takes all");
    String::from_utf8(out).expect("lines are text")
}

#[test]
fn rows_are_listed() {
    for Row { words, input, lines } in rows() {
        assert_eq!(listed(&words, &input).lines().collect::<Vec<_>>(), lines, "{words:?} {input:02x?}");
    }
}

/// The items of a scanner one by one are the tokens of its batches, and then its fault, once.
#[test]
fn items_are_those_of_batches() {
    for Row { input, .. } in rows() {
        let (mut scanner, mut wanted) = (Scanner::new(&input), Vec::new());
        while let Some(batch) = scanner.next_batch() {
            match batch {
                Ok(tokens) => wanted.extend(tokens.map(|token| Ok(token.into_owned()))),
                Err(fault) => wanted.push(Err(fault)),
            }
        }
        assert_eq!(Scanner::new(&input).collect::<Vec<Result<Token, Fault>>>(), wanted);
    }
}

/// Where an input has the text of its last scalar; `None` if that is a copy.
fn last_place(input: &[u8]) -> Option<usize> {
    let values = Scanner::new(input).filter_map(|item| match item.expect("it has no fault").data {
        Data::Scalar { value, .. } => Some(value),
        _ => None,
    });
    match values.last() {
        Some(Text(Cow::Borrowed(value))) => Some(value.as_ptr() as usize - input.as_ptr() as usize),
        _ => None,
    }
}

#[test]
fn texts_are_borrowed_from_the_input() {
    assert_eq!(last_place(b"a: plain text"), Some(3));
    assert_eq!(last_place(b"a: 'single'"), Some(4));
    assert_eq!(last_place(b"a: \"double\""), Some(4));
    assert_eq!(last_place(b"\xEF\xBB\xBFa: b"), Some(6), "after a byte order mark");
}

#[test]
fn texts_that_the_input_does_not_have_are_copied() {
    assert_eq!(last_place(b"a: \"\\x62\""), None, "an escape");
    assert_eq!(last_place(b"a: 'it''s'"), None, "a doubled quote");
    assert_eq!(last_place(b"a: b\n c"), None, "a line break");
    assert_eq!(last_place(b"a: |\n b"), None, "a literal scalar");
    assert_eq!(last_place(b"\xFF\xFEa\0:\0 \0b\0"), None, "UTF-16");
}

#[test]
fn faults_are_errors_that_may_be_sent() {
    fn boxed<E: Error + Send + Sync + 'static>(error: E) -> Box<dyn Error + Send + Sync> {
        error.into()
    }
    let fault = Scanner::new(b"'a").find_map(Result::err).expect("the quote is open");
    let told = std::thread::spawn(move || boxed(fault).to_string()).join().expect("the thread ends");
    assert_eq!(told, "while scanning a quoted scalar: found unexpected end of stream at line 1 column 3");
}

/// The words of an input's fault.
fn told(input: &[u8]) -> String {
    Scanner::new(input).find_map(Result::err).expect("the input has a fault").to_string()
}

#[test]
fn faults_of_the_reader_have_a_line_and_a_column() {
    assert_eq!(told(b"ab: cd\nx: \xFFb"), "invalid leading UTF-8 octet at line 2 column 4 (offset 10)");
    assert_eq!(told(b"a\r\n\xC3\xA9\x01"), "control characters are not allowed at line 2 column 2 (offset 5)");
    let after_mark = b"\xFF\xFEa\0\n\0\0\xDC";
    assert_eq!(told(after_mark), "unexpected low surrogate area at line 2 column 1 (offset 6)", "UTF-16");
}

/// With an encoding that is set, a byte order mark is a character.
#[test]
fn faults_of_the_reader_count_a_mark_that_decides_nothing() {
    let input = b"\xEF\xBB\xBFa\x01";
    let settings = Settings { encoding: Encoding::Utf8, ..Settings::default() };
    let columns = [settings, Settings::default()].map(|settings| {
        let mut scanner = Scanner::with_settings(input, settings).expect("the key limit is right");
        match scanner.find_map(Result::err) {
            Some(Fault::Reader { mark, .. }) => mark.column,
            other => panic!("{other:?}"),
        }
    });
    assert_eq!(columns, [2, 1]);
}

#[test]
fn texts_are_displayed() {
    let texts: Vec<String> = Scanner::new(b"!a%ED%A0%80b \xC3\xA9")
        .filter_map(|item| match item.expect("it has no fault").data {
            Data::Tag { suffix, .. } => Some(format!("{suffix}|{suffix:>6}|{:?}", suffix.as_str())),
            Data::Scalar { value, .. } => Some(format!("{value}|{value:>4}|{:?}", value.as_str())),
            _ => None,
        })
        .collect();
    assert_eq!(texts, ["a\u{FFFD}\u{FFFD}\u{FFFD}b| a\u{FFFD}\u{FFFD}\u{FFFD}b|None", "\u{E9}|   \u{E9}|Some(\"\u{E9}\")"]);
}

#[test]
fn library_has_the_version_of_the_crate() {
    assert_eq!(bogzhami::library_version(), env!("CARGO_PKG_VERSION"));
}
