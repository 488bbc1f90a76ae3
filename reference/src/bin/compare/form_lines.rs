//! Spells the lines of random order forms: rows, headings, what is passed over, and what is malformed.

use crate::form_rows::Row;
use crate::random::Random;
use reference::script::LONGEST_LINE;

pub const BYTE_ORDER_MARK: &[u8] = b"\xEF\xBB\xBF";

// Lines that lists of them keep apart by bars.

const PASSED_OVER: &[u8] = b"||| |    |#|# order of May|#4711,12|  # 1,2|##|#\t\xC3\xA9\0|#\r\r";

/// Without a digit, so that the first of them is passed over and any further is malformed.
const HEADINGS: &[u8] = b"serial,node|serial,node|Serial;Node number|Seriennummer\tKnoten|  serial , node  |\
    serial,node,|x|a b c|-|,|;|\t|\t#|\r |\r\r|\r#|\0|\xFF| \xEF\xBB\xBF|\xEF\xBB\xBFserial|m\xC2\xB2|\
    \xD9\xA1,\xD9\xA2";

/// With a digit, so that they are malformed as first lines too (but for the one with a byte order mark).
const MALFORMED: [&[u8]; 12] = [
    // A column that is missing.
    b"4711|4711,|4711;|4711\t|,12|;12|\t12|0",
    // A separator that is none.
    b"4711 12|4711:12|4711.12|4711/12",
    // One too many between the columns.
    b"4711,,12|4711;;12|4711\t\t12|4711,;12|4711,\t12|4711, ,12",
    // One at an end.
    b"4711,12,|4711;12;|4711\t12\t|4711,12, |4711,12\t |,4711,12|\t4711,12",
    // A third column.
    b"4711,12,13|4711;12;13|4711\t12\t13|4711,12,x",
    // A sign.
    b"+4711,12|-4711,12|4711,+12|4711,-12|-0,1|4711,-0",
    // Spaces in a number.
    b"47 11,12|4711,1 2|0 4711,12|4711,0 12",
    // A number that does not fit, some of them such that their lower 32 or 64 bits do.
    b"4294967296,1|4711,4294967296|4294967297,1|4711,4294967297|42949672950,1|00004294967296,1|9999999999,1|\
        18446744073709551616,1|18446744073709551617,1|4711,18446744073709551617|\
        340282366920938463463374607431768211457,1",
    // What is no decimal digit.
    b"12,x|x,12|l,2|1,O2|serial1,node|serial,node 2|0x12,1|4711,1F|1e3,1|\"4711\",\"12\"|4711,\xD9\xA2",
    // A comment that is not the whole line.
    b"4711,12 #|4711,12#|4711 # x,12|\t# 1",
    // Carriage returns that do not end the line.
    b"4711,12\r |4711,12 \r |4711,12\r\r|\r4711,12|4711\r,12|4711,\r12|4711,12\r4712,13",
    // Bytes that are not to be seen.
    b"4711,12\0|4711\xA0,12|4711,12\x0B|4711\x0C,12|\xEF\xBB\xBF4711,12",
];

/// Bytes that mean something, that stand beside such bytes, or that nobody expects.
const ODD_BYTES: &[u8] = b"\0\t\x0B\x0C\r  ,;##+-.019/:x|\x7F\x80\xA0\xBB\xBF\xEF\xFF";

/// How a form is mostly spelt.
pub struct Speller<'a> {
    pub random: &'a mut Random,
    separator: u8,
    percent_spaces: u32,
    percent_zeros: u32,
    percent_returns: u32,
}

impl Speller<'_> {
    pub fn new(random: &mut Random) -> Speller<'_> {
        let separator = random.pick(b",,;\t");
        let percent_spaces = random.pick(&[0, 0, 5, 40]);
        let percent_zeros = random.pick(&[0, 0, 5, 40]);
        let percent_returns = random.pick(&[0, 0, 0, 10, 100]);
        Speller { random, separator, percent_spaces, percent_zeros, percent_returns }
    }

    /// A line with an ending such as the form mostly has.
    fn ended(&mut self, line: &[u8]) -> Vec<u8> {
        let mut line = line.to_vec();
        if self.random.chance(self.percent_returns) {
            line.push(b'\r');
        }
        line
    }

    fn spaces(&mut self) -> String {
        match self.random.chance(self.percent_spaces) {
            true => " ".repeat(1 + self.random.below(3) as usize),
            false => String::new(),
        }
    }

    fn number(&mut self, number: u32) -> String {
        let width = match self.random.chance(self.percent_zeros) {
            true => self.random.pick(&[2, 3, 5, 10, 11, 20, 40]),
            false => 0,
        };
        format!("{}{number:0width$}{}", self.spaces(), self.spaces())
    }

    pub fn row(&mut self, row: Row) -> Vec<u8> {
        let separator = if self.random.chance(3) { self.random.pick(b",;\t") } else { self.separator };
        let (serial, node) = (self.number(row.serial), self.number(row.node));
        self.ended(&[serial.as_bytes(), &[separator], node.as_bytes()].concat())
    }

    pub fn passed_over(&mut self) -> Vec<u8> {
        self.one_of(PASSED_OVER)
    }

    pub fn heading(&mut self) -> Vec<u8> {
        self.one_of(HEADINGS)
    }

    pub fn malformed(&mut self) -> Vec<u8> {
        let lines = if self.random.chance(8) { HEADINGS } else { self.random.pick(&MALFORMED) };
        self.one_of(lines)
    }

    fn one_of(&mut self, list: &[u8]) -> Vec<u8> {
        let lines: Vec<&[u8]> = list.split(|&byte| byte == b'|').collect();
        let line = self.random.pick(&lines);
        self.ended(line)
    }

    /// A line with a few of its bytes changed: it may still be a row, and most often another.
    pub fn spoil(&mut self, line: &mut Vec<u8>) {
        for _ in 0..1 + self.random.below(2) {
            let place = self.random.below(line.len() as u32 + 1) as usize;
            let byte = if self.random.chance(30) { self.random.byte() } else { self.random.pick(ODD_BYTES) };
            match self.random.below(3) {
                0 if place < line.len() => line[place] = byte,
                1 if place < line.len() => drop(line.remove(place)),
                _ => line.insert(place, byte),
            }
        }
        // That would be two lines.
        line.retain(|&byte| byte != b'\n');
    }

    /// A line made about as long as a line may be, or far longer, in such a way that it means the same.
    pub fn stretch(&mut self, line: &mut Vec<u8>) {
        let length = match self.random.below(10) {
            0..=3 => LONGEST_LINE,
            4..=6 => LONGEST_LINE + 1,
            7..=8 => LONGEST_LINE - 4 + self.random.below(9) as usize,
            _ => self.random.pick(&[5_000, 8_192, 8_193, 65_536, 70_000]),
        };
        // Carriage returns stay at the end, where one of them is not counted.
        let text_length = line.iter().rposition(|&byte| byte != b'\r').map_or(0, |last| last + 1);
        if text_length == line.len() && self.random.chance(40) {
            line.push(b'\r');
        }
        let missing = length.saturating_sub(text_length);
        let (place, byte) = self.place_to_stretch(&line[..text_length]);
        line.splice(place..place, std::iter::repeat_n(byte, missing));
    }

    fn place_to_stretch(&mut self, text: &[u8]) -> (usize, u8) {
        let digit = text.iter().position(u8::is_ascii_digit);
        let separator = text.iter().position(|byte| b",;\t".contains(byte));
        match (self.random.below(5), digit, separator) {
            (0, _, _) => (0, b' '),
            (1, Some(place), _) => (place, b'0'),
            (2, _, Some(place)) => (place + self.random.below(2) as usize, b' '),
            (3, None, _) if !text.is_empty() => (text.len(), b'-'),
            _ => (text.len(), b' '),
        }
    }
}
