//! The worked rows of rows.txt that are of `scan`. A line of the file has the words of a command, an input in hexadecimal and
//! the expected lines, with tabs between them.

const ROWS: &str = include_str!("../../../tests/vectors/rows.txt");

pub struct Row {
    /// The words of a scan's settings.
    pub words: Vec<String>,
    pub input: Vec<u8>,
    pub lines: Vec<&'static str>,
}

fn bytes_of(hex: &str) -> Vec<u8> {
    let digits: Vec<u32> = hex.chars().filter_map(|digit| digit.to_digit(16)).collect();
    digits.chunks(2).map(|pair| (pair[0] * 16 + pair[1]) as u8).collect()
}

/// The row of a line; `None` for another command.
fn row_of(line: &'static str) -> Option<Row> {
    let parts: Vec<&str> = line.split('\t').collect();
    let words: Vec<String> = parts[0].split(' ').map(String::from).collect();
    let (input, lines) = (bytes_of(parts[1]), parts[2].split(" / ").collect());
    (words[0] == "scan").then(|| Row { words: words[1..].to_vec(), input, lines })
}

pub fn rows() -> Vec<Row> {
    let rows: Vec<Row> = ROWS.lines().filter_map(row_of).collect();
    assert!(rows.len() > 80);
    rows
}
