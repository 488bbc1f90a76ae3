//! The order form: what its lines mean, and the answer to the whole of it.

use crate::script::{unsigned, LONGEST_LINE};
use std::fmt;
use std::io::{self, Read, Write};

pub const MOST_ROWS: usize = 127;
const HIGHEST_NODE: u32 = 127;
const BYTE_ORDER_MARK: &[u8] = b"\xEF\xBB\xBF";

/// A row, and the number of the line it stands in.
#[derive(Clone, Copy, Debug, PartialEq, Eq)]
struct Row {
    line: usize,
    serial: u32,
    node: u32,
}

/// Each with the line that is named; for a form that is sent back, also with the lowest number that is free.
#[derive(Clone, Copy, Debug, PartialEq, Eq)]
pub enum Answer {
    Accepted { rows: usize },
    SentBack { repeat: Repeat, lowest_free: Option<u32> },
    NodeOutOfRange { line: usize, node: u32 },
    TooManyRows,
    Malformed { line: usize },
}

/// What the row in a line repeats, and the line of the earlier row that has it.
#[derive(Clone, Copy, Debug, PartialEq, Eq)]
pub enum Repeat {
    Serial { line: usize, serial: u32, earlier: usize },
    Node { line: usize, node: u32, earlier: usize },
}

impl Answer {
    pub fn is_accepted(&self) -> bool {
        matches!(self, Answer::Accepted { .. })
    }
}

impl fmt::Display for Answer {
    fn fmt(&self, to: &mut fmt::Formatter) -> fmt::Result {
        match *self {
            Answer::Accepted { rows } => {
                let noun = if rows == 1 { "row" } else { "rows" };
                write!(to, "accepted: {rows} {noun}, all serials and all numbers differ")
            }
            Answer::SentBack { repeat, lowest_free: Some(node) } => {
                write!(to, "{repeat}\nthe lowest free number is {node}")
            }
            Answer::SentBack { repeat, lowest_free: None } => {
                write!(to, "{repeat}\nno number from 1 to {HIGHEST_NODE} is free")
            }
            Answer::NodeOutOfRange { line, node } => {
                write!(to, "refused 7: line {line}: node number {node} is not 1 to {HIGHEST_NODE}")
            }
            Answer::TooManyRows => write!(to, "refused 8: more than {MOST_ROWS} rows"),
            Answer::Malformed { line } => {
                write!(to, "error at line {line}: not a serial and a node number")
            }
        }
    }
}

impl fmt::Display for Repeat {
    fn fmt(&self, to: &mut fmt::Formatter) -> fmt::Result {
        match *self {
            Repeat::Serial { line, serial, earlier } => {
                write!(to, "line {line}: serial {serial} stands already in line {earlier}")
            }
            Repeat::Node { line, node, earlier } => {
                write!(to, "line {line}: node number {node} stands already in line {earlier}")
            }
        }
    }
}

/// Answers a whole form, and gives whether it is accepted.
pub fn run(mut input: impl Read, mut output: impl Write) -> io::Result<bool> {
    let mut form = Vec::new();
    input.read_to_end(&mut form)?;
    let answer = check(&form);
    writeln!(output, "{answer}")?;
    output.flush()?;
    Ok(answer.is_accepted())
}

pub fn check(form: &[u8]) -> Answer {
    // Every line is looked at before anything is said of the rows: a malformed one goes before all else.
    let rows = match rows_of(form) {
        Ok(rows) => rows,
        Err(line) => return Answer::Malformed { line },
    };
    if rows.len() > MOST_ROWS {
        return Answer::TooManyRows;
    }
    if let Some(&Row { line, node, .. }) = rows.iter().find(|row| !(1..=HIGHEST_NODE).contains(&row.node)) {
        return Answer::NodeOutOfRange { line, node };
    }
    let mut repeats = (0..rows.len()).filter_map(|number| repeat(&rows[number], &rows[..number]));
    match repeats.next() {
        Some(repeat) => Answer::SentBack { repeat, lowest_free: lowest_free(&rows) },
        None => Answer::Accepted { rows: rows.len() },
    }
}

/// What a row repeats of those before it. The two repeats may be of different rows; the serial is told.
fn repeat(row: &Row, earlier: &[Row]) -> Option<Repeat> {
    let Row { line, serial, node } = *row;
    if let Some(other) = earlier.iter().find(|other| other.serial == serial) {
        return Some(Repeat::Serial { line, serial, earlier: other.line });
    }
    let other = earlier.iter().find(|other| other.node == node)?;
    Some(Repeat::Node { line, node, earlier: other.line })
}

/// The lowest number that no row has. Those after a repeat count too: the clerk goes on with the whole form.
fn lowest_free(rows: &[Row]) -> Option<u32> {
    (1..=HIGHEST_NODE).find(|&node| rows.iter().all(|row| row.node != node))
}

/// The rows of a form, or the number of its first malformed line.
fn rows_of(form: &[u8]) -> Result<Vec<Row>, usize> {
    let text = form.strip_prefix(BYTE_ORDER_MARK).unwrap_or(form);
    let mut rows = Vec::new();
    let mut may_be_heading = true;
    // What follows the last newline is a line too; if there is nothing, it is blank and changes nothing.
    for (number, line) in text.split(|&byte| byte == b'\n').enumerate() {
        let line_number = number + 1;
        let content = content(line).ok_or(line_number)?;
        if content.is_empty() || content.starts_with(b"#") {
            continue;
        }
        let is_heading = may_be_heading && !content.iter().any(u8::is_ascii_digit);
        may_be_heading = false;
        if !is_heading {
            let (serial, node) = columns(content).ok_or(line_number)?;
            rows.push(Row { line: line_number, serial, node });
        }
    }
    Ok(rows)
}

/// What a line says, without a carriage return and then the spaces at its ends; none if it is too long.
fn content(line: &[u8]) -> Option<&[u8]> {
    let line = line.strip_suffix(b"\r").unwrap_or(line);
    (line.len() <= LONGEST_LINE).then_some(without_spaces(line))
}

fn columns(content: &[u8]) -> Option<(u32, u32)> {
    let columns: Vec<&[u8]> = content.split(|byte| matches!(byte, b',' | b';' | b'\t')).collect();
    match *columns {
        [serial, node] => Some((unsigned(without_spaces(serial))?, unsigned(without_spaces(node))?)),
        _ => None,
    }
}

/// Only spaces: a tab separates, and any other white space is a byte that does not belong there.
fn without_spaces(mut text: &[u8]) -> &[u8] {
    while let [b' ', rest @ ..] | [rest @ .., b' '] = text {
        text = rest;
    }
    text
}
