//! A YAML 1.1 scanner that is proved: the tokens of an input, each with its exact marks, and at most one fault, with its
//! place. It is the lower half of libyaml: a parser, a linter or a highlighter can be built on it.
//!
//! ```
//! use bogzhami::{Data, Fault, Scanner};
//!
//! fn main() -> Result<(), Fault> {
//!     let mut values = Vec::new();
//!     for token in Scanner::new(b"name: Anna\nage: 38\n") {
//!         if let Data::Scalar { value, .. } = token?.data {
//!             values.push(value.as_str().unwrap_or("no text").to_string());
//!         }
//!     }
//!     assert_eq!(values, ["name", "Anna", "age", "38"]);
//!     Ok(())
//! }
//! ```
//!
//! [`Scanner`] borrows its input and is an iterator of `Result<Token<'_>, Fault>`. The fault is the last item:
//!
//! ```
//! use bogzhami::{Fault, Scanner};
//!
//! let fault = Scanner::new(b"a: b: c").find_map(Result::err);
//! match fault {
//!     Some(Fault::Scanner { problem, mark, .. }) => {
//!         assert_eq!(problem, "mapping values are not allowed in this context");
//!         assert_eq!((mark.line, mark.column), (0, 4)); // both count from 0
//!     }
//!     other => panic!("{other:?}"),
//! }
//! ```
//!
//! These tokens borrow from the input the texts that it has as they are, and outlive the scanner. Other texts, such as a
//! scalar with an escape, are copies:
//!
//! ```
//! use bogzhami::{Data, Scanner};
//! use std::borrow::Cow;
//!
//! # fn main() -> Result<(), bogzhami::Fault> {
//! let mut borrowed = Vec::new();
//! for token in Scanner::new(br#"[plain, "quoted", "\x65scaped"]"#) {
//!     if let Data::Scalar { value, .. } = token?.data {
//!         borrowed.push(matches!(value.0, Cow::Borrowed(_)));
//!     }
//! }
//! assert_eq!(borrowed, [true, true, false]);
//! # Ok(())
//! # }
//! ```
//!
//! [`Scanner::next_batch`] lends up to 256 tokens at once, with no copy of any text:
//!
//! ```
//! use bogzhami::Scanner;
//!
//! # fn main() -> Result<(), bogzhami::Fault> {
//! let mut scanner = Scanner::new(b"[a, b]");
//! let mut count = 0;
//! while let Some(batch) = scanner.next_batch() {
//!     count += batch?.filter(|token| token.start.index < token.end.index).count();
//! }
//! assert_eq!(count, 5); // the brackets, the comma and the scalars
//! # Ok(())
//! # }
//! ```
//!
//! [`Pieces`] has the tokens of a reader, such as a pipe, each as soon as no more bytes can change it:
//!
//! ```
//! use bogzhami::{Data, PieceError, Pieces};
//!
//! fn main() -> Result<(), PieceError> {
//!     let reader = &b"- Anna\n- Berta\n"[..]; // or a file, or standard input
//!     let mut values = Vec::new();
//!     for token in Pieces::new(reader) {
//!         if let Data::Scalar { value, .. } = token?.data {
//!             values.push(value.to_string());
//!         }
//!     }
//!     assert_eq!(values, ["Anna", "Berta"]);
//!     Ok(())
//! }
//! ```
//!
//! [`Feed`] gives the same, and is given the bytes as they come: it is for programs that await them.
//!
//! [`Settings`] has the encoding, the key limit and the number of tokens of a batch. A scanner is not [`Send`]; a feed, tokens
//! and faults are.
//!
//! When the crate is built, the library is looked for in the folder that the environment variable `BOGZHAMI_LIB_DIR` names, in
//! the `ffi/out` of a checkout of the repository, and where pkg-config says. No other crate is needed.

mod scanner;

pub use scanner::*;

/// The examples of README.md, which run with the others.
#[cfg(doctest)]
#[doc = include_str!("../README.md")]
struct Readme;
