//! The lines of tokens and faults, as `./run scan` writes them, for list.rs and for the crate that is in rust/.
use crate::scanner::{Batch, Data, Encoding, Fault, Mark, Scanner, Settings, Style, Token};
use std::io::{self, Write};

fn mark(m: Mark) -> String {
    format!("{}:{}:{}", m.index, m.line, m.column)
}

fn hex(text: &[u8]) -> String {
    if text.is_empty() {
        return "-".to_string();
    }
    text.iter().map(|byte| format!("{byte:02x}")).collect()
}

fn words(data: Data) -> String {
    match data {
        Data::StreamStart { encoding } => format!("STREAM-START {}", format!("{encoding:?}").to_uppercase()),
        Data::StreamEnd => "STREAM-END".into(),
        Data::VersionDirective { major, minor } => format!("VERSION-DIRECTIVE {major} {minor}"),
        Data::TagDirective { handle, prefix } => format!("TAG-DIRECTIVE {} {}", hex(&handle), hex(&prefix)),
        Data::DocumentStart => "DOCUMENT-START".into(),
        Data::DocumentEnd => "DOCUMENT-END".into(),
        Data::BlockSequenceStart => "BLOCK-SEQUENCE-START".into(),
        Data::BlockMappingStart => "BLOCK-MAPPING-START".into(),
        Data::BlockEnd => "BLOCK-END".into(),
        Data::FlowSequenceStart => "FLOW-SEQUENCE-START".into(),
        Data::FlowSequenceEnd => "FLOW-SEQUENCE-END".into(),
        Data::FlowMappingStart => "FLOW-MAPPING-START".into(),
        Data::FlowMappingEnd => "FLOW-MAPPING-END".into(),
        Data::BlockEntry => "BLOCK-ENTRY".into(),
        Data::FlowEntry => "FLOW-ENTRY".into(),
        Data::Key => "KEY".into(),
        Data::Value => "VALUE".into(),
        Data::Alias { name } => format!("ALIAS {}", hex(&name)),
        Data::Anchor { name } => format!("ANCHOR {}", hex(&name)),
        Data::Tag { handle, suffix } => format!("TAG {} {}", hex(&handle), hex(&suffix)),
        Data::Scalar { value, style } => format!("SCALAR {} {}", style_word(style), hex(&value)),
        #[allow(unreachable_patterns)] // only another crate has to think of kinds of a later version
        _ => "UNKNOWN".into(),
    }
}

fn style_word(style: Style) -> &'static str {
    match style {
        Style::Plain => "plain",
        Style::SingleQuoted => "single",
        Style::DoubleQuoted => "double",
        Style::Literal => "literal",
        Style::Folded => "folded",
    }
}

/// A token's line: its type, the marks of its start and end, and what else it says.
pub fn line(token: Token) -> String {
    let words = words(token.data);
    let (name, rest) = words.split_at(words.find(' ').unwrap_or(words.len()));
    format!("{name} {} {}{rest}", mark(token.start), mark(token.end))
}

/// The line of the fault, which is the last.
pub fn fault_line(fault: &Fault) -> String {
    match fault {
        Fault::Memory => "FAULT memory".into(),
        Fault::Reader { problem, offset, value, .. } => format!("FAULT reader {offset} {value} {problem}"),
        Fault::Scanner { problem, mark: at, context, context_mark } => {
            let context = context.as_deref().unwrap_or("-");
            format!("FAULT scanner {} {} {context}; {problem}", mark(*context_mark), mark(*at))
        }
        #[allow(unreachable_patterns)] // as above
        _ => format!("FAULT unknown {fault}"),
    }
}

/// The settings that the words ENC and LIMIT name, or what is wrong with them.
pub fn settings(words: &[String]) -> Result<Settings, String> {
    let encoding = match words.first().map_or("any", String::as_str) {
        "any" => Encoding::Any,
        "utf8" => Encoding::Utf8,
        "utf16le" => Encoding::Utf16Le,
        "utf16be" => Encoding::Utf16Be,
        word => return Err(format!("there is no encoding '{word}'")),
    };
    let key_limit = words.get(1).map_or(Some(1024), |word| key_limit(word));
    match (key_limit, words.get(2)) {
        (_, Some(word)) => Err(format!("there is no use for '{word}'")),
        (None, _) => Err(format!("there is no key limit '{}'", words[1])),
        (Some(key_limit), None) => Ok(Settings { encoding, key_limit, ..Settings::default() }),
    }
}

fn key_limit(word: &str) -> Option<u32> {
    let is_number = word.bytes().all(|byte| byte.is_ascii_digit());
    word.parse().ok().filter(|limit| is_number && (1..=65536).contains(limit))
}

/// Lists all tokens, a batch at a time, and the fault after them, which it returns.
pub fn list(out: &mut dyn Write, scanner: &mut Scanner) -> io::Result<Option<Fault>> {
    while let Some(batch) = scanner.next_batch() {
        match batch {
            Ok(tokens) => list_batch(out, tokens)?,
            Err(fault) => {
                writeln!(out, "{}", fault_line(&fault))?;
                return Ok(Some(fault));
            }
        }
    }
    Ok(None)
}

fn list_batch(out: &mut dyn Write, tokens: Batch) -> io::Result<()> {
    for token in tokens {
        writeln!(out, "{}", line(token))?;
    }
    Ok(())
}
