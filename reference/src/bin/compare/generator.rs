//! Makes random scripts. The reference itself runs along, so that telegrams can be meant for the numbers in
//! force, set points for the places where the windows end, and ticks for the moments when a timeout is due.

mod ask;
mod auto_id;
mod display;
mod rack;
mod retired;
mod serial;
mod sheet;
mod status_word;

use crate::random::Random;
use crate::telegrams::Author;
use crate::text::Text;
use reference::head::{Head, FACTORY_NODE, HIGHEST_MEASUREMENT};
use reference::line::MOST_HEADS;
use reference::rows;
use reference::script::{hex, Simulation, LONGEST_LINE};
use reference::telegram::{Telegram, WRITE};

pub const LINES: usize = 400;

/// The most that most scripts have: of many heads there is less to be seen of each.
const FEW_HEADS: usize = 8;

/// Of a hundred steps, in one script after the other: a head in mode 3 shows nothing of windows.
const DISPLAY_STEPS: [u32; 3] = [22, 1, 4];

/// Of a hundred of the other steps, likewise: every adoption is a restart, and without some calm heads have no
/// past to show.
const AUTO_ID_STEPS: [u32; 4] = [18, 0, 11, 5];

/// Of a hundred of those that are left, likewise.
const STATUS_WORD_STEPS: [u32; 4] = [5, 14, 8, 9];

/// Of a hundred of those that are left, likewise.
const SHEET_STEPS: [u32; 4] = [11, 14, 10, 16];

/// Of a hundred of those that are left, likewise: the line grows by some of them.
const SERIAL_STEPS: [u32; 5] = [4, 1, 2, 5, 1];

/// Of a hundred of those that are left, likewise.
const RACK_STEPS: [u32; 5] = [10, 14, 9, 12, 11];

/// Of a hundred of those that are left, likewise.
const RETIRED_STEPS: [u32; 4] = [7, 12, 5, 9];

/// Unknown words, missing and extra words, numbers that do not fit, hex digits that are none.
const LINES_THAT_ARE_NONE: &str =
    "heads 1 2|HEAD 1 2|Send 0 00|head|head 1|head 31|head 1 2 3|head -1 2|head +1 2|\
    head 1F 2|head 0x1F 2|head 4294967296 2|head 42949672960 2|head 18446744073709551617 2|head 1# 2|\
    head 1 -2|head 1 +2|head 1 -0|head 1 1F|head 1 0x1F|head 1 4294967296|head 1 4294967297|\
    head 1 18446744073709551617|head 1 2#|head 1,2|send|send 0|send 0 0|send 0 001F2|\
    send 0 0G|send 0 00 00|send 0 0x00|send 4294967296 00|send -1 00|ask|ask 0|ASK 0 0 31 32 0 0|\
    asks 0 0 31 32 0 0|ask0 0 0 31 32 0 0|ask 0 0 31 32 0 0#|rack|rack 0|rack 0 0 0|rack 0 0 0G|rack 0 0 00 00|\
    rack 0 0x0|rack 0 -0|RACK 0 0|racks 0 0|rack0 0|tick|tick 1 2|tick 4294967296|tick -0|\
    measure 0|measure 0 1 2|measure 0 2147483648|measure 0 -2147483649|measure 0 -|measure 0 --1|\
    measure 0 +1|measure -0 1|keys 0|keys 0 -1|keys 0 4 10|power|power 0 0|xor|xor 0 0|xor 0 1|\
    xor -1|xor -0|xor +0|xor x|xor 1F|xor 0x0|xor 0#|xor 4294967296|xor 18446744073709551616|XOR 0|xors 0|\
    xor0|save|save 0 0|save 0 00|save -0|save +0|save x|save 0x0|save 0#|save 4294967296|SAVE 0|saved 0|\
    load|load 0 0|load 0 000|load 0 0G|load 0 00 00|load 0 0x00|load 0 #|load -0 00|load +0|load 4294967296|\
    load 4294967296 00|LOAD 0 00|loads 0 00|load0 00|\
    bring|bring 0 0|bring 0 00|bring -0|bring +0|bring x|bring 0x0|bring 0#|bring 4294967296|BRING 0|brings 0|bring0|\
    space 1025|space 1025|space 4294967296|space 65536|\
    space -1|space|space 10 10";

pub struct Generator {
    random: Random,
    model: Simulation,
    now: u32,
    /// Of a hundred steps.
    display_steps: u32,
    auto_id_steps: u32,
    status_word_steps: u32,
    sheet_steps: u32,
    serial_steps: u32,
    rack_steps: u32,
    retired_steps: u32,
    /// The sheets that were written so far.
    saved: Vec<Vec<u8>>,
    lines: Vec<Vec<u8>>,
}

pub fn script(seed: u64, number: u64) -> Text {
    let mut random = Random::new(seed, number);
    let now = match random.below(4) {
        0 => 0,
        1 => u32::MAX - random.below(3_000),
        _ => random.word(),
    };
    let mut generator = Generator {
        random,
        model: Simulation::new(),
        now,
        display_steps: DISPLAY_STEPS[(number % 3) as usize],
        auto_id_steps: AUTO_ID_STEPS[(number % 4) as usize],
        status_word_steps: STATUS_WORD_STEPS[(number % 4) as usize],
        sheet_steps: SHEET_STEPS[(number % 4) as usize],
        serial_steps: SERIAL_STEPS[(number % 5) as usize],
        rack_steps: RACK_STEPS[(number % 5) as usize],
        retired_steps: RETIRED_STEPS[(number % 4) as usize],
        saved: Vec::new(),
        lines: Vec::new(),
    };
    generator.first_heads();
    while generator.lines.len() < LINES {
        generator.step();
    }
    // A step may give several lines.
    generator.lines.truncate(LINES);
    generator.last_lines();
    let ends_in_newline = generator.random.chance(75);
    Text { lines: generator.lines, ends_in_newline }
}

impl Generator {
    fn first_heads(&mut self) {
        while self.random.chance(15) {
            self.step();
        }
        if self.random.chance(30) {
            self.ask_before_any_head();
        }
        if self.random.chance(20) {
            self.sheet_at_no_head();
        }
        if self.random.chance(30) {
            self.rack_before_any_head();
        }
        if self.random.chance(20) {
            self.bring_no_head();
        }
        let as_delivered = self.random.chance(20).then_some(u32::from(FACTORY_NODE));
        let count = self.head_count();
        self.grow_by(count, as_delivered);
        if self.model.line().heads().len() == MOST_HEADS {
            self.grow_beyond_the_last();
            self.tick_at_the_far_end();
        }
    }

    fn step(&mut self) {
        if self.model.space() < 10 && self.random.chance(75) {
            return self.in_short_space();
        }
        if let (Some(twin), true) = (self.twin(), self.random.chance(20)) {
            return self.part(twin);
        }
        if self.random.chance(self.display_steps) {
            return self.display();
        }
        if self.random.chance(self.auto_id_steps) {
            return self.auto_id();
        }
        if self.random.chance(self.status_word_steps) {
            return self.status_word();
        }
        if self.random.chance(self.sheet_steps) {
            return self.sheet();
        }
        if self.random.chance(self.serial_steps) {
            return self.serial();
        }
        if self.random.chance(self.rack_steps) {
            return self.rack();
        }
        if self.random.chance(self.retired_steps) {
            return self.retired();
        }
        match self.random.below(100) {
            0..=33 => self.send_telegrams(),
            34..=48 => self.ask(),
            49..=54 => self.send_split(),
            55..=57 => self.send_damaged(),
            58..=59 => self.send_stray_bytes(),
            60..=63 => self.read_back(),
            64 => self.write_edges(),
            65..=73 => self.measure(),
            74..=80 => self.keys(),
            81..=88 => self.tick(),
            89..=90 => self.xor(),
            91 => self.power(),
            92 => self.grow(),
            93..=94 => self.refused(),
            95 => self.space(),
            96..=97 => self.malformed(),
            98 => self.odd_bytes(),
            _ => self.passed_over(),
        }
    }

    // Lines and their spelling.

    fn write_line(&mut self, line: String) {
        let spelt = self.spelt(line);
        self.write_raw(spelt.into_bytes());
    }

    fn write_raw(&mut self, mut line: Vec<u8>) {
        if self.random.chance(3) {
            line.push(b'\r');
        }
        self.model.answer(&line);
        self.lines.push(line);
    }

    /// The same words with other blanks, hex digits in lower case, numbers with leading zeros.
    fn spelt(&mut self, line: String) -> String {
        match self.random.below(40) {
            0 => line.replace(' ', "\t"),
            1 => format!("  {} ", line.replace(' ', " \t ")),
            2 | 3 => line.to_lowercase(),
            4 => line.replacen(' ', " 000", 1),
            5 => line.replacen(' ', " 000000000000", 1),
            _ => line,
        }
    }

    fn some_head(&mut self) -> Option<(usize, Head)> {
        let heads = self.model.line().heads();
        if heads.is_empty() {
            return None;
        }
        let number = self.random.below(heads.len() as u32) as usize;
        Some((number, heads[number].clone()))
    }

    /// Where there is no head, telegrams are written for one as delivered.
    fn some_head_or_a_new_one(&mut self) -> Head {
        self.some_head().map_or_else(|| Head::factory(0), |(_, head)| head)
    }

    /// A head whose number another head before it has too.
    fn twin(&self) -> Option<usize> {
        let heads = self.model.line().heads();
        (1..heads.len()).find(|&twin| {
            heads[..twin].iter().any(|head| head.number_in_force() == heads[twin].number_in_force())
        })
    }

    /// Gives heads of one number a new one, and takes it into force in one of them only: replies that
    /// collide show little.
    fn part(&mut self, twin: usize) {
        let node = self.model.line().heads()[twin].number_in_force();
        if node == FACTORY_NODE && self.random.chance(50) {
            return self.part_by_key(twin);
        }
        self.advance();
        let new_node = 1 + self.random.below(127);
        self.send(&Telegram::new(WRITE, node, rows::NODE_ADDRESS, 0, new_node).bytes());
        self.write_line(format!("power {twin}"));
    }

    // Sends.

    /// Moves the clock before a send, mostly so that a telegram begun before it does not spoil it.
    fn advance(&mut self) {
        let has_begun = self.model.line().heads().iter().any(|head| head.gathered_count() > 0);
        let gap = match has_begun && self.random.chance(80) {
            true => self.random.pick(&[11, 11, 12, 20]),
            false => self.random.pick(&[0, 0, 0, 1, 5, 9, 10, 10, 11, 11, 50, 99, 100, 101, 500, 2_000]),
        };
        self.now = self.now.wrapping_add(gap);
        match self.random.below(200) {
            0 => self.now = u32::MAX - self.random.below(300),
            1 => self.now = self.now.wrapping_sub(1),
            2 => self.now = self.random.word(),
            _ => {}
        }
    }

    fn send(&mut self, bytes: &[u8]) {
        if let Some(question) = self.asked_instead(bytes) {
            return self.write_ask(&question);
        }
        match self.racked_instead(bytes) {
            Some(place) => self.write_rack(place, bytes),
            None => self.feed(format!("send {} {}", self.now, hex(bytes))),
        }
    }

    /// What damaged telegrams and restarts leave in a head shows only if it is asked for before the next one;
    /// that nothing else changes it, only if it is asked for after other sends too.
    fn feed(&mut self, line: String) {
        let bits_before = self.bits_hit();
        self.write_line(line);
        let percent = if self.bits_hit() == bits_before { 7 } else { 50 };
        if self.random.chance(percent) {
            self.xor();
        }
    }

    fn bits_hit(&self) -> Vec<u8> {
        self.model.line().heads().iter().map(Head::bits_hit).collect()
    }

    fn telegram(&mut self) -> Vec<u8> {
        let head = self.some_head_or_a_new_one();
        Author { random: &mut self.random, head: &head }.telegram().to_vec()
    }

    fn send_telegrams(&mut self) {
        self.advance();
        let count = self.random.pick(&[1, 1, 1, 1, 1, 2, 3]);
        let bytes: Vec<u8> = (0..count).flat_map(|_| self.telegram()).collect();
        self.send(&bytes);
    }

    /// A telegram in two or three sends with gaps about 10 ms, sometimes with another call in between.
    fn send_split(&mut self) {
        self.advance();
        let telegram = self.telegram();
        let mut rest = telegram.as_slice();
        for _ in 0..1 + self.random.below(2) {
            let (first, second) = rest.split_at(1 + self.random.below(rest.len() as u32 - 1) as usize);
            self.send(first);
            self.call_in_between();
            self.now = self.now.wrapping_add(self.random.pick(&[0, 1, 9, 9, 10, 10, 10, 11, 11, 12]));
            rest = second;
            if rest.len() == 1 {
                break;
            }
        }
        self.send(rest);
    }

    fn call_in_between(&mut self) {
        match self.random.below(13) {
            0 => self.power(),
            1 => self.grow(),
            2 => self.measure(),
            3 => self.keys(),
            4 => self.space(),
            5 => self.xor(),
            6 => self.load_somewhere(),
            7 => self.rack_of_any_sort(),
            8 => self.bring_somewhere(),
            _ => {}
        }
    }

    /// Telegrams that were hit, sometimes with a sound one or a restart after them.
    fn send_damaged(&mut self) {
        self.advance();
        let head = self.some_head_or_a_new_one();
        let mut author = Author { random: &mut self.random, head: &head };
        let count = 1 + author.random.below(4);
        let mut bytes: Vec<u8> = (0..count).flat_map(|_| author.noisy()).collect();
        match author.random.below(10) {
            0..=1 => bytes.extend(author.telegram()),
            2 => bytes.extend(author.restart().bytes()),
            _ => {}
        }
        self.send(&bytes);
        if self.random.chance(10) {
            self.power();
        }
    }

    fn send_stray_bytes(&mut self) {
        self.advance();
        let bytes: Vec<u8> = (0..1 + self.random.below(12)).map(|_| self.random.byte()).collect();
        self.send(&bytes);
    }

    /// Everything that reads tell about a head, in one send.
    fn read_back(&mut self) {
        self.advance();
        let head = self.some_head_or_a_new_one();
        let author = Author { random: &mut self.random, head: &head };
        let bytes = match author.random.below(6) {
            0 => author.read_all_rows(),
            1..=2 => author.read_error_lists(),
            _ => author.read_functional_values(),
        };
        self.send(&bytes);
    }

    fn write_edges(&mut self) {
        self.advance();
        let head = self.some_head_or_a_new_one();
        let bytes = Author { random: &mut self.random, head: &head }.write_edges();
        self.send(&bytes);
    }

    // Telegrams for one head.

    fn head(&self, number: usize) -> Head {
        self.model.line().heads()[number].clone()
    }

    /// What an author writes for this head, in one send.
    fn send_from(&mut self, number: usize, write: impl FnOnce(&mut Author) -> Vec<u8>) {
        self.advance();
        let head = self.head(number);
        let bytes = write(&mut Author { random: &mut self.random, head: &head });
        self.send(&bytes);
    }

    fn write_to(&mut self, number: usize, writes: &[(u8, u32)]) {
        self.send_from(number, |author| {
            let node = author.head.number_in_force();
            let bytes = |&(parameter, data)| Telegram::new(WRITE, node, parameter, 0, data).bytes();
            writes.iter().flat_map(bytes).collect()
        });
    }

    fn keys_of(&mut self, number: usize, states: &[u32]) {
        let state = self.random.pick(states);
        self.write_line(format!("keys {number} {state}"));
    }

    // Calls that name a head.

    fn measure(&mut self) {
        let Some((number, head)) = self.some_head() else {
            return self.refused();
        };
        let measurement = match self.random.below(10) {
            0 => self.random.pick(&[-HIGHEST_MEASUREMENT, HIGHEST_MEASUREMENT, 0, 12_348, -12_345]),
            1 => self.random.between(-2_500_000, 2_500_000) as i32,
            2..=3 => self.random.between(-300, 300) as i32,
            _ => self.measurement_near_set_point(&head),
        };
        self.write_line(format!("measure {number} {measurement}"));
    }

    /// A measurement that takes A to the edge of a window about the set point, or to a half in rounding.
    fn measurement_near_set_point(&mut self, head: &Head) -> i32 {
        let window_1 = i64::from(head.value(rows::TARGET_WINDOW_1));
        let window_2 = i64::from(head.value(rows::TARGET_WINDOW_2));
        let unit = unit(head);
        let edge = self.random.pick(&[0, 0, 1, window_1, window_1 + 1, window_2, window_2 + 1]);
        let rounding = self.random.pick(&[0, unit / 2, unit / 2 - 1, unit / 2 + 1]);
        let distance = (edge * unit + rounding) * self.random.pick(&[1, -1]);
        let position = i64::from(head.set_point_2()) * unit + distance;
        let measurement = position - (head.position() - i64::from(head.measurement()));
        let highest = i64::from(HIGHEST_MEASUREMENT);
        measurement.clamp(-highest, highest) as i32
    }

    fn keys(&mut self) {
        let Some((number, head)) = self.some_head() else {
            return self.refused();
        };
        let state = match self.random.below(3) {
            0 => self.random.below(8),
            1 => u32::from(head.keys() ^ self.random.pick(&[1, 2, 4])),
            _ => self.random.pick(&[0, 1, 4, 5]),
        };
        self.write_line(format!("keys {number} {state}"));
    }

    fn stroke_up(&mut self, number: usize) {
        self.keys_of(number, &[0]);
        self.keys_of(number, &[4]);
        self.keys_of(number, &[0]);
    }

    fn move_by_some(&mut self, number: usize) {
        let measurement = self.random.between(-3_000, 3_000);
        self.write_line(format!("measure {number} {measurement}"));
    }

    fn power(&mut self) {
        let Some((number, _)) = self.some_head() else {
            return self.refused();
        };
        self.write_line(format!("power {number}"));
        if self.random.chance(30) {
            self.write_line(format!("xor {number}"));
        }
    }

    /// Mostly one head; sometimes all, of many the last few, as each hears on its own; or one that is not there.
    fn xor(&mut self) {
        let Some((number, _)) = self.some_head() else {
            return self.refused();
        };
        let count = self.model.line().heads().len();
        let numbers = match self.random.below(25) {
            0 => count..count + 1,
            1..=5 => count.saturating_sub(FEW_HEADS)..count,
            _ => number..number + 1,
        };
        for number in numbers {
            self.write_line(format!("xor {number}"));
        }
    }

    // Calls that name none.

    fn tick(&mut self) {
        let head = self.some_head_or_a_new_one();
        let time = match (head.monitor_started_at(), self.random.below(10)) {
            (Some(started_at), 0..=6) => {
                let timeout = head.value(rows::BUS_TIMEOUT_TIME) as u32 * 100;
                started_at.wrapping_add(timeout).wrapping_add(self.random.pick(&[u32::MAX, 0, 0, 1]))
            }
            _ => {
                self.now.wrapping_add(self.random.pick(&[0, 99, 100, 101, 199, 200, 1_999, 2_000, u32::MAX]))
            }
        };
        self.write_line(format!("tick {time}"));
        if self.random.chance(60) {
            self.now = time;
        }
    }

    fn grow(&mut self) {
        let node = self.node_for_a_head();
        self.grow_at(node);
    }

    fn node_for_a_head(&mut self) -> u32 {
        let heads = self.model.line().heads();
        match (heads.last().map(Head::number_in_force), self.random.below(10)) {
            (Some(number), 0) => u32::from(number),
            // One bit otherwise.
            (Some(number), 1) => u32::from(number ^ 1 << self.random.below(7)).max(1),
            (_, 1..=3) => self.random.pick(&[1, 2, 12, 31, 127]),
            _ => self.node_with_few_others(),
        }
    }

    fn space(&mut self) {
        let size = self.random.pick(&[0, 1, 9, 9, 10, 10, 11, 64, 65, 273, 274, 275, 1_024, 1_025]);
        self.write_line(format!("space {size}"));
    }

    /// Mostly its end, so that heads are heard again; before it keys and questions, which are refused as bytes
    /// are, and sheets and racks, for which there is room or not.
    fn in_short_space(&mut self) {
        match self.random.below(10) {
            0..=1 => self.keys(),
            2 if self.random.chance(50) => self.repeat_a_serial(),
            2 => self.refused(),
            3 => self.ask_one(),
            4 => self.sheet_in_short_space(),
            5 => self.rack_in_short_space(),
            6 if self.random.chance(50) => self.bring_somewhere(),
            _ => self.write_line("space 10".to_string()),
        }
    }

    fn missing_head(&mut self) -> String {
        match self.random.below(4) {
            0 => MOST_HEADS.to_string(),
            // The low bytes of the first two alone would name head 0.
            1 => self.random.pick(&[1 << 8, 1 << 16, u32::MAX]).to_string(),
            _ => self.model.line().heads().len().to_string(),
        }
    }

    /// A call with a number that is refused, in every order of the refusals.
    fn refused(&mut self) {
        let count = self.model.line().heads().len();
        let missing = self.missing_head();
        let present = self.random.below(count.max(1) as u32).to_string();
        let head = if self.random.chance(50) { missing } else { present };
        let far = self.random.pick(&[2_500_001, -2_500_001, 3_000_000, i32::MAX, i32::MIN]);
        let state = self.random.pick(&[8, 9, 255, 256, u32::MAX]);
        let node = self.node_that_is_none();
        let serial = self.free_serial();
        let line = match self.random.below(11) {
            0 => format!("head {node} {serial}"),
            1..=2 => format!("measure {head} {far}"),
            3 => format!("measure {head} 7"),
            4..=5 => format!("keys {head} {state}"),
            6 => format!("keys {head} 1"),
            7 => format!("power {head}"),
            8 => format!("bring {head}"),
            _ => format!("xor {head}"),
        };
        self.write_line(line);
    }

    // Lines that are none of the commands, or hardly.

    fn malformed(&mut self) {
        let line = match self.random.below(10) {
            0 => self.line_of_length(),
            1 => format!("tick {} #", self.now),
            2 => "measure 0 -0".to_string(),
            3 => self.random.pick(&["power\u{b}0", "xor\u{b}0", "bring\u{b}0"]).to_string(),
            _ => {
                let lines: Vec<&str> = LINES_THAT_ARE_NONE.split('|').collect();
                self.random.pick(&lines).to_string()
            }
        };
        self.write_raw(line.into_bytes());
    }

    /// A line about as long as a line may be.
    fn line_of_length(&mut self) -> String {
        let length = LONGEST_LINE - 2 + self.random.below(5) as usize;
        let begun = match self.random.below(4) {
            0 => "#".to_string(),
            1 => String::new(),
            2 => format!("keys {} 0", self.random.below(3)),
            _ => {
                let begun = match self.random.below(10) {
                    0..=4 => format!("send {} ", self.now),
                    5..=7 => format!("rack {} 0 ", self.now),
                    _ => "load 0 ".to_string(),
                };
                let digits = length - begun.len();
                return begun + &"0".repeat(digits);
            }
        };
        format!("{begun:<length$}")
    }

    fn odd_bytes(&mut self) {
        let mut line = match self.random.below(9) {
            0 => Vec::new(),
            1 => format!("head 1 {}", self.random.below(100)).into_bytes(),
            2 => b"xor 0".to_vec(),
            3 => b"save 0".to_vec(),
            4 => b"load 0 00".to_vec(),
            5 => format!("ask {} 0 31 32 0 0", self.now).into_bytes(),
            6 => format!("rack {} 0 00", self.now).into_bytes(),
            7 => b"bring 0".to_vec(),
            _ => format!("send {} 00", self.now).into_bytes(),
        };
        for _ in 0..self.random.below(6) {
            let byte = match self.random.below(2) {
                0 => self.random.byte(),
                _ => self.random.pick(b"\0\t\x0B\x0C\r #-0aAgG:/@`\x7F\x80\xFF"),
            };
            if byte != b'\n' {
                line.insert(self.random.below(line.len() as u32 + 1) as usize, byte);
            }
        }
        self.write_raw(line);
    }

    fn passed_over(&mut self) {
        let line = self.random.pick(&["", " ", "\t \t", "#", "# head 1 2", "  #send 0 00", "#\t\u{e9}"]);
        self.write_raw(line.as_bytes().to_vec());
    }
}

/// By how much a position is divided to give A.
fn unit(head: &Head) -> i64 {
    match head.value(rows::DIVISOR_APPLICATION) {
        2 => 1,
        _ => head.divisor(),
    }
}

#[cfg(test)]
mod tests {
    use super::*;
    use reference::line::Refusal;
    use reference::script::{meaning, Command, Meaning};

    type Bits = Result<u8, Refusal>;

    /// What each `xor` in 200 scripts would have shown a line earlier, and what it shows.
    fn before_and_now() -> Vec<(Bits, Bits)> {
        let mut shown = Vec::new();
        for number in 1..=200 {
            let mut now = Simulation::new();
            for pair in script(1, number).lines.windows(2) {
                let before = now.clone();
                now.answer(&pair[0]);
                if let Meaning::Command(Command::Xor { head }) = meaning(&pair[1]) {
                    shown.push((before.line().bits_hit(head), now.line().bits_hit(head)));
                }
            }
        }
        shown
    }

    #[test]
    fn answers_to_xor_are_frequent_at_the_edges_and_spread_between() {
        let shown = before_and_now();
        let count = |bits: Bits| shown.iter().filter(|(_, now)| *now == bits).count();
        let single_bits = (0..8).map(|bit| Ok(1 << bit));
        for edge in single_bits.chain([Ok(0), Ok(0xFF), Err(Refusal::HeadNumber)]) {
            assert!(count(edge) >= 100, "{edge:?}: {}", count(edge));
        }
        assert!((0..=0xFF).filter(|&bits| count(Ok(bits)) > 0).count() >= 250);
    }

    #[test]
    fn xor_often_follows_what_changes_its_answer_and_what_does_not() {
        let mut counts = [0; 4];
        for pair in before_and_now() {
            let kind = match pair {
                (Err(_), _) | (_, Err(_)) | (Ok(0), Ok(0)) => continue,
                (Ok(0), Ok(_)) => 0,
                (Ok(_), Ok(0)) => 1,
                (Ok(before), Ok(now)) if before != now => 2,
                _ => 3,
            };
            counts[kind] += 1;
        }
        assert!(counts.iter().all(|&count| count >= 200), "{counts:?}");
    }
}
