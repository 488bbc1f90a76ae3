//! Makes random office texts: telegrams for one head, most of them at its number and sound, between lines that are
//! none. The reference's own head runs along. As nothing measures there, offset and calibration move the position.

use crate::random::Random;
use crate::telegrams::Author;
use crate::text::Text;
use reference::head::{Head, FACTORY_NODE};
use reference::office::Office;
use reference::rows;
use reference::script::{hex, LONGEST_LINE};
use reference::telegram::{Telegram, BROADCAST, READ, TELEGRAM_LENGTH, WRITE};

const LINES: usize = 150;

/// Of a hundred steps, in one text after the other: a head in mode 3 shows nothing of windows.
const DISPLAY_STEPS: [u32; 3] = [20, 1, 4];

/// Likewise: a locked head refuses most of what there is.
const LOCK_STEPS: [u32; 4] = [1, 12, 2, 5];

const PASSED_OVER: [&[u8]; 9] =
    [b"", b" ", b"\t \t", b"#", b"# desk", b"  #001F200000000000003F", b"#\t\xC3\xA9\0", b"##", b"#\r"];

/// A byte too few or too many, digits that are none, more than one word, a comment behind a word, bytes that separate
/// no words, carriage returns that do not end the line.
const MALFORMED: &[u8] = b"x|0|00|silence|help|office|001F200000000000003|001F200000000000003F0|\
    001F2000000000003F|001F200000000000003F00|001F200000000000003G|001F20000000000000 3F|0x1F200000000000003F|\
    001F200000000000003F #|001F200000000000003F#|001F200000000000003F x|001F 200000000000003F|\
    00 1F 20 00 00 00 00 00 00 3F|001F200000000000003F 001F200000000000003F|001F200000000000003F\t011F2000000000000739|\
    001F200000000000003F,|001F200000000000003F;|+01F200000000000003F|-001F200000000000003F|001F200000000000003Fh|\
    send 0 001F200000000000003F|head 31 0|001F200000000000003F\r\r|001F200000000000003F\r |\r001F200000000000003F|\
    001F200000\r000000003F|\r |\r\r|\r#|\x0B|\x0B#|\x0C001F200000000000003F|001F200000000000003F\x0B|\0|\0#|\
    001F200000000000003F\0|\xA0|\xA0001F200000000000003F|\xEF\xBB\xBF001F200000000000003F|\
    \xEF\xBB\xBF|001F20000000000000\xD9\xA0|\xC2\xA0#|:01F200000000000003F|/01F200000000000003F|@01F200000000000003F|\
    `01F200000000000003F|g01F200000000000003F";

const ODD_BYTES: &[u8] = b"\0\t\x0B\x0C\r  #09afAFgG:/@`-+,\x7F\x80\xA0\xFF";

struct Generator {
    random: Random,
    model: Office,
    /// Of a hundred steps.
    display_steps: u32,
    lock_steps: u32,
    lines: Vec<Vec<u8>>,
}

pub fn office_text(seed: u64, number: u64) -> Text {
    let mut generator = Generator {
        random: Random::new(seed, number),
        model: Office::new(),
        display_steps: DISPLAY_STEPS[(number % 3) as usize],
        lock_steps: LOCK_STEPS[(number % 4) as usize],
        lines: Vec::new(),
    };
    let count = match generator.random.below(20) {
        0 => generator.random.below(3) as usize,
        1..=2 => generator.random.below(20) as usize,
        _ => LINES,
    };
    while generator.lines.len() < count {
        generator.step();
    }
    // A step may give several lines.
    generator.lines.truncate(count);
    let ends_in_newline = generator.random.chance(75);
    Text { lines: generator.lines, ends_in_newline }
}

impl Generator {
    fn step(&mut self) {
        if self.head().number_in_force() != FACTORY_NODE && self.random.chance(12) {
            return self.go_home();
        }
        if self.random.chance(self.display_steps) {
            return self.display();
        }
        if self.random.chance(self.lock_steps) {
            return self.lock();
        }
        match self.random.below(100) {
            0..=39 => self.write_from(|author| author.telegram().to_vec()),
            40..=47 => self.write_from(|author| author.question().bytes().to_vec()),
            48..=58 => self.write_from(|author| author.refused().bytes().to_vec()),
            59..=61 => self.write_from(|author| author.read_functional_values()),
            62 => self.write_from(|author| author.read_error_lists()),
            63 if self.random.chance(30) => self.write_from(|author| author.read_all_rows()),
            64 if self.random.chance(50) => self.write_from(|author| author.write_edges()),
            65..=69 => self.damaged(),
            70..=73 => self.freeze(),
            74..=76 => self.new_number(),
            77..=79 => self.auto_id(),
            80..=85 => self.target(),
            86..=89 => self.malformed(),
            90..=92 => self.spoilt(),
            93..=95 => self.long_line(),
            _ => self.passed_over(),
        }
    }

    fn head(&self) -> &Head {
        self.model.head()
    }

    // Lines and their spelling.

    fn write_line(&mut self, mut line: Vec<u8>) {
        if self.random.chance(5) {
            line.push(b'\r');
        }
        self.model.answer(&line);
        self.lines.push(line);
    }

    fn write_telegrams(&mut self, bytes: &[u8]) {
        for telegram in bytes.chunks(TELEGRAM_LENGTH) {
            let line = self.spelt(hex(telegram));
            self.write_line(line);
        }
    }

    /// The digits in lower or in either case, blanks and tabs around them.
    fn spelt(&mut self, digits: String) -> Vec<u8> {
        let line = match self.random.below(40) {
            0..=3 => digits.to_lowercase(),
            4 => digits.chars().map(|digit| self.in_some_case(digit)).collect(),
            5 => format!(" {digits}"),
            6 => format!("\t  {digits}\t"),
            7 => format!("{digits} "),
            _ => digits,
        };
        line.into_bytes()
    }

    fn in_some_case(&mut self, digit: char) -> char {
        match self.random.chance(50) {
            true => digit.to_ascii_lowercase(),
            false => digit,
        }
    }

    /// What an author writes for the head as it is now.
    fn write_from(&mut self, write: impl FnOnce(&mut Author) -> Vec<u8>) {
        let head = self.head().clone();
        let bytes = write(&mut Author { random: &mut self.random, head: &head });
        self.write_telegrams(&bytes);
    }

    fn put(&mut self, command: u8, parameter: u8, data: u32) {
        let node = match command {
            BROADCAST => self.random.byte(),
            _ => self.head().number_in_force(),
        };
        self.write_telegrams(&Telegram::new(command, node, parameter, 0, data).bytes());
    }

    fn put_any_way(&mut self, parameter: u8, data: u32) {
        let command = self.random.pick(&[WRITE, WRITE, BROADCAST]);
        self.put(command, parameter, data);
    }

    // Telegrams that belong together.

    /// Back to 31, which the reset of the bus parameters brings and the restart takes into force; before it an offer,
    /// which a head that is elsewhere refuses.
    fn go_home(&mut self) {
        self.auto_id();
        self.put_any_way(rows::PROGRAMMING_MODE, 1);
        self.put_any_way(rows::SYSTEM_COMMAND, 5);
        self.put_any_way(rows::SYSTEM_COMMAND, 9);
    }

    /// Into mode 3, set points with all sorts of control words, and mostly out of it again.
    fn display(&mut self) {
        if !self.head().is_alpha_numeric() {
            self.put(WRITE, rows::OPERATING_MODE, 3);
        }
        for _ in 0..1 + self.random.below(4) {
            self.write_from(|author| match author.random.below(2) {
                0 => author.write_set_point_1().bytes().to_vec(),
                _ => author.write_set_point_2().bytes().to_vec(),
            });
            self.put(READ, rows::STATUS_WORD, 0);
        }
        match self.random.below(8) {
            0..=2 => {
                let mode = self.random.below(5);
                self.put(WRITE, rows::OPERATING_MODE, mode);
            }
            3..=4 => {
                let reset = self.random.pick(&[1, 2, 2, 5]);
                self.put_any_way(rows::SYSTEM_COMMAND, reset);
            }
            _ => return,
        }
        self.write_from(|author| author.read_functional_values());
    }

    /// Locks the head, tries what is locked and what is not, and mostly opens it.
    fn lock(&mut self) {
        self.put(WRITE, rows::PROGRAMMING_CONFIGURATION, 1);
        self.put_any_way(rows::PROGRAMMING_MODE, 0);
        for _ in 0..1 + self.random.below(4) {
            self.write_from(|author| author.telegram().to_vec());
        }
        if self.random.chance(40) {
            let command = self.random.pick(&[1, 2, 4, 5, 7, 9]);
            self.put_any_way(rows::SYSTEM_COMMAND, command);
        }
        if self.random.chance(80) {
            self.put_any_way(rows::PROGRAMMING_MODE, 1);
        }
        if self.random.chance(60) {
            self.put(WRITE, rows::PROGRAMMING_CONFIGURATION, 0);
        }
    }

    /// Up to four that were hit, and mostly what is to be seen of them.
    fn damaged(&mut self) {
        for _ in 0..1 + self.random.below(4) {
            self.write_from(|author| author.noisy().to_vec());
        }
        match self.random.below(4) {
            0 => self.put(READ, rows::PENDING_ERROR, 0),
            1 => self.write_from(|author| author.read_error_lists()),
            2 => self.write_from(|author| author.write_set_point_1().bytes().to_vec()),
            _ => {}
        }
    }

    /// Keeps a position, moves on, and reads what was kept and what is shown then.
    fn freeze(&mut self) {
        self.put_any_way(rows::FREEZE, 1);
        for _ in 0..self.random.below(3) {
            let (parameter, highest) = self.random.pick(&[
                (rows::OFFSET_VALUE, 19_999),
                (rows::DISPLAY_DIVISOR, 3),
                (rows::DIVISOR_APPLICATION, 2),
                (rows::FREEZE, 1),
            ]);
            let data = self.random.below(highest + 1);
            self.put(WRITE, parameter, data);
        }
        for _ in 0..1 + self.random.below(2) {
            self.put(READ, rows::POSITION_VALUE, 0);
        }
    }

    /// A number that is taken into force, or not yet.
    fn new_number(&mut self) {
        let old = self.head().number_in_force();
        let new = self.random.pick(&[1, 12, 12, 30, 127, 128, 0]);
        self.put(WRITE, rows::NODE_ADDRESS, new);
        if self.random.chance(60) {
            self.put_any_way(rows::SYSTEM_COMMAND, 9);
        }
        for node in [old, new as u8] {
            self.write_telegrams(&Telegram::new(READ, node, rows::NODE_ADDRESS, 0, 0).bytes());
        }
        if self.random.chance(40) {
            self.auto_id();
        }
    }

    fn auto_id(&mut self) {
        self.write_from(|author| match author.random.below(3) {
            0 => author.idle_auto_id().to_vec(),
            1 => {
                let number = author.illegal_number();
                author.write_auto_id(number).to_vec()
            }
            _ => {
                let number = author.legal_number();
                author.write_auto_id(number).to_vec()
            }
        });
    }

    /// The position near a set point, by offset or calibration, and what the status word says of it.
    fn target(&mut self) {
        self.write_from(|author| author.write_set_point_2().bytes().to_vec());
        let position = self.random.between(-300, 300) as u32;
        match self.random.below(4) {
            0 => self.put(WRITE, rows::OFFSET_VALUE, position),
            1..=2 => {
                self.put(WRITE, rows::CALIBRATION_VALUE, position);
                let (parameter, data) =
                    self.random.pick(&[(rows::CALIBRATION_TRAVEL, 1), (rows::SYSTEM_COMMAND, 7)]);
                self.put_any_way(parameter, data);
            }
            _ => self.write_from(|author| author.write_set_point_2().bytes().to_vec()),
        }
        self.put(READ, rows::STATUS_WORD, 0);
        if self.random.chance(30) {
            self.put(READ, rows::DIFFERENTIAL_VALUE, 0);
        }
    }

    // Lines that are no telegrams, or hardly.

    fn malformed(&mut self) {
        let lines: Vec<&[u8]> = MALFORMED.split(|&byte| byte == b'|').collect();
        let line = self.random.pick(&lines).to_vec();
        self.write_line(line);
    }

    /// A telegram with a few of its bytes changed: it may still be one.
    fn spoilt(&mut self) {
        let head = self.head().clone();
        let mut line = hex(&Author { random: &mut self.random, head: &head }.telegram()).into_bytes();
        for _ in 0..1 + self.random.below(2) {
            let byte = if self.random.chance(30) { self.random.byte() } else { self.random.pick(ODD_BYTES) };
            let place = self.random.below(line.len() as u32 + 1) as usize;
            match self.random.below(3) {
                0 if place < line.len() => line[place] = byte,
                1 if place < line.len() => drop(line.remove(place)),
                _ => line.insert(place, byte),
            }
        }
        // That would be two lines.
        line.retain(|&byte| byte != b'\n');
        self.write_line(line);
    }

    /// A telegram, a comment or a blank line about as long as a line may be, or far longer.
    fn long_line(&mut self) {
        let length = match self.random.below(6) {
            0 => self.random.pick(&[5_000, 8_192, 20_000]),
            _ => LONGEST_LINE - 1 + self.random.below(3) as usize,
        };
        let head = self.head().clone();
        let line = match self.random.below(4) {
            0 => format!("{:<length$}", "#"),
            1 => " ".repeat(length),
            kind => {
                let digits = hex(&Author { random: &mut self.random, head: &head }.telegram());
                if kind == 2 {
                    format!("{digits:<length$}")
                } else {
                    format!("{digits:>length$}")
                }
            }
        };
        self.write_line(line.into_bytes());
    }

    fn passed_over(&mut self) {
        let line = self.random.pick(&PASSED_OVER).to_vec();
        self.write_line(line);
    }
}

#[cfg(test)]
mod tests {
    use super::*;
    use reference::office::{meaning, Meaning};
    use std::collections::BTreeMap;

    /// What kind of answer each line of 100 texts draws, and how often.
    fn answers() -> BTreeMap<String, u32> {
        let mut counts = BTreeMap::new();
        for number in 1..=100 {
            let mut office = Office::new();
            for line in office_text(1, number).lines {
                let kind = match office.answer(&line) {
                    None => "nothing".to_string(),
                    Some(answer) if answer.starts_with("error") => "error".to_string(),
                    Some(answer) if answer.len() == 20 && answer[4..6] == *"FD" => answer[14..18].to_string(),
                    Some(answer) if answer.len() == 20 => "value".to_string(),
                    Some(answer) => answer,
                };
                *counts.entry(kind).or_insert(0) += 1;
            }
        }
        counts
    }

    #[test]
    fn every_answer_is_frequent() {
        let counts = answers();
        let codes = ["0080", "0082", "0182", "0282", "0083", "0084", "0184", "0284", "0085", "0385"];
        for kind in codes.iter().chain(&["silence", "error", "nothing"]) {
            assert!(counts.get(*kind).is_some_and(|&count| count >= 30), "{kind}: {counts:?}");
        }
        let all: u32 = counts.values().sum();
        assert!(counts["value"] * 2 > all, "{counts:?}");
    }

    #[test]
    fn most_telegrams_are_sound_and_at_31() {
        let is_so = |bytes: &[u8; 10]| bytes[1] == 31 && Telegram::received(*bytes).exclusive_or() == 0;
        let telegrams: Vec<[u8; 10]> = (1..=100)
            .flat_map(|number| office_text(1, number).lines)
            .filter_map(|line| match meaning(&line) {
                Meaning::Telegram(bytes) => Some(bytes),
                _ => None,
            })
            .collect();
        let sound = telegrams.iter().filter(|bytes| is_so(bytes)).count();
        assert!(sound * 10 > telegrams.len() * 6, "{sound} of {}", telegrams.len());
        assert!(telegrams.iter().filter(|bytes| bytes[0] == BROADCAST).count() * 20 > telegrams.len());
    }

    /// After how many telegrams of 100 texts the head is in each of these states.
    #[test]
    fn heads_get_into_every_state() {
        let mut counts = [0; 8];
        for number in 1..=100 {
            let mut office = Office::new();
            for line in office_text(1, number).lines {
                office.answer(&line);
                let head = office.head();
                let word = head.status_word();
                let states = [
                    head.is_alpha_numeric(),
                    head.is_locked(),
                    head.number_on_offer().is_some(),
                    head.number_in_force() != FACTORY_NODE,
                    word & 1 << 4 != 0,
                    word & 1 << 7 != 0,
                    word & 1 << 8 != 0,
                    head.is_alpha_numeric() && word & 0x28 != 0,
                ];
                for (count, holds) in counts.iter_mut().zip(states) {
                    *count += u32::from(holds);
                }
            }
        }
        assert!(counts.iter().all(|&count| count >= 300), "{counts:?}");
    }

    #[test]
    fn edges_are_reached() {
        let texts: Vec<Text> = (1..=200).map(|number| office_text(1, number)).collect();
        let some = |is_so: &dyn Fn(&Text) -> bool| texts.iter().any(is_so);
        let some_line =
            |is_so: &dyn Fn(&[u8]) -> bool| some(&|text| text.lines.iter().any(|line| is_so(line)));
        assert!(some(&|text| text.bytes().is_empty()));
        assert!(some(&|text| !text.ends_in_newline && text.lines.len() > 1));
        assert!(some_line(&|line| line.ends_with(b"\r") && matches!(meaning(line), Meaning::Telegram(_))));
        assert!(some_line(&|line| line.iter().any(u8::is_ascii_lowercase) && line.len() == 20));
        for length in [LONGEST_LINE, LONGEST_LINE + 1] {
            let is_telegram = |line: &[u8]| line.len() == length && line.iter().any(u8::is_ascii_digit);
            assert!(some_line(&is_telegram) && some_line(&|line| line.len() == length && line[0] == b'#'));
        }
    }
}
