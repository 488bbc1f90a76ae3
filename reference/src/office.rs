//! The simulator in the office: one head, whole telegrams alone, one a line.

use crate::head::{engine, Head};
use crate::script::{answer_lines, bytes, hex, is_passed_over, words};
use crate::telegram::TELEGRAM_LENGTH;
use std::io::{self, BufRead, Write};

const SERIAL: u32 = 0;
const TIME: u32 = 0;

#[derive(Clone, Copy, Debug, PartialEq, Eq)]
pub enum Meaning {
    PassedOver,
    Telegram([u8; TELEGRAM_LENGTH]),
    Error,
}

/// What a line means, given without its newline. Lines and words are those of a script.
pub fn meaning(line: &[u8]) -> Meaning {
    match words(line) {
        None => Meaning::Error,
        Some(words) if is_passed_over(&words) => Meaning::PassedOver,
        Some(words) => telegram(&words).map_or(Meaning::Error, Meaning::Telegram),
    }
}

fn telegram(words: &[&[u8]]) -> Option<[u8; TELEGRAM_LENGTH]> {
    let &[word] = words else {
        return None;
    };
    bytes(word)?.try_into().ok()
}

/// A fresh head at 31 on a desk: nobody measures, presses keys or looks at the clock.
#[derive(Clone, Debug)]
pub struct Office {
    head: Head,
    lines_read: u64,
}

impl Default for Office {
    fn default() -> Office {
        Office { head: Head::factory(SERIAL), lines_read: 0 }
    }
}

impl Office {
    pub fn new() -> Office {
        Office::default()
    }

    pub fn head(&self) -> &Head {
        &self.head
    }

    /// The answer to the next line; none if it is passed over.
    pub fn answer(&mut self, line: &[u8]) -> Option<String> {
        self.lines_read += 1;
        match meaning(line) {
            Meaning::PassedOver => None,
            Meaning::Telegram(bytes) => Some(match engine::answer(&mut self.head, TIME, bytes) {
                Some(reply) => hex(&reply),
                None => "silence".to_string(),
            }),
            Meaning::Error => Some(format!("error at line {}: not twenty hex digits", self.lines_read)),
        }
    }
}

/// Answers all lines.
pub fn run(input: impl BufRead, output: impl Write) -> io::Result<()> {
    let mut office = Office::new();
    answer_lines(input, output, |line| office.answer(line))
}
