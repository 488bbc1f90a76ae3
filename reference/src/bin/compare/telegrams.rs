//! Writes telegrams for one head, most of them such that it has something to do.

use crate::random::Random;
use reference::head::Head;
use reference::rows::{self, ROWS};
use reference::telegram::{Telegram, BROADCAST, READ, TELEGRAM_LENGTH, WRITE};

/// The stored parameters that do more than being read back, the busier ones more than once.
const EFFECTIVE_ROWS: [u8; 32] = [
    0x00, 0x01, 0x02, 0x02, 0x02, 0x03, 0x03, 0x03, 0x05, 0x05, 0x0B, 0x0B, 0x0B, 0x0B, 0x0E, 0x0E, 0x0E,
    0x1B, 0x1B, 0x1E, 0x1F, 0x1F, 0x20, 0x20, 0x28, 0x31, 0x31, 0x33, 0x33, 0x33, 0x34, 0x3E,
];
const FUNCTIONAL_VALUES: [u8; 6] = [
    rows::STATUS_WORD,
    rows::SET_POINT_1,
    rows::DIFFERENTIAL_VALUE,
    rows::PENDING_ERROR,
    rows::POSITION_VALUE,
    rows::SET_POINT_2,
];
const READ_ONLY: [u8; 12] = [0x65, 0x67, 0x80, 0x81, 0x85, 0x8A, 0x96, 0xFA, 0xFC, 0xFD, 0xFE, 0xFE];
const WRITE_ONLY: [u8; 5] = [0xA0, 0xA7, 0xA8, 0xAA, 0xD2];
const UNKNOWN: [u8; 15] =
    [0x10, 0x1A, 0x1D, 0x23, 0x36, 0x41, 0x63, 0x66, 0x7F, 0x8B, 0xA1, 0xC5, 0xD1, 0xD3, 0xF9];

/// A set point of four characters, JOB1.
const CHARACTERS: u32 = u32::from_be_bytes(*b"JOB1");

pub struct Author<'a> {
    pub random: &'a mut Random,
    pub head: &'a Head,
}

impl Author<'_> {
    pub fn telegram(&mut self) -> [u8; TELEGRAM_LENGTH] {
        // A locked head refuses most of what follows; open it before long.
        let telegram = if self.head.is_locked() && self.random.chance(10) {
            self.sound(WRITE, rows::PROGRAMMING_MODE, 0, 1)
        } else {
            self.any_telegram()
        };
        if self.random.chance(6) {
            self.hit(telegram)
        } else {
            telegram.bytes()
        }
    }

    /// A sound telegram, more often than others one that is refused.
    pub fn question(&mut self) -> Telegram {
        match self.random.below(20) {
            0..=1 => self.wrong_access(),
            2 => self.unknown_parameter(),
            3 => self.auto_id(),
            4..=6 => self.value_beside_the_range(),
            _ => self.any_telegram(),
        }
    }

    /// A sound telegram that is refused or silent, in most heads.
    pub fn refused(&mut self) -> Telegram {
        match self.random.below(6) {
            0 => self.wrong_access(),
            1 => self.unknown_parameter(),
            2 => self.other_command(),
            3 => self.auto_id(),
            4 => self.broadcast(),
            _ => self.value_beside_the_range(),
        }
    }

    /// Below, above, and between without being listed.
    fn value_beside_the_range(&mut self) -> Telegram {
        let (parameter, data) = self.random.pick(&[
            (rows::NODE_ADDRESS, 0),
            (rows::NODE_ADDRESS, 128),
            (rows::OFFSET_VALUE, -20_000),
            (rows::CALIBRATION_VALUE, 100_000),
            (rows::OPERATING_MODE, 4),
            (rows::INCREMENTAL_KEY_ENABLE, 1),
            (rows::INCREMENTAL_KEY_ENABLE, 1),
            (rows::ACKNOWLEDGEMENT_SETTINGS, 1),
            (rows::ACKNOWLEDGEMENT_SETTINGS, 1),
            (rows::ACKNOWLEDGEMENT_SETTINGS, 1),
            (rows::ACKNOWLEDGEMENT_SETTINGS, 3),
            (rows::SYSTEM_COMMAND, 0),
            (rows::SYSTEM_COMMAND, 4),
            (rows::FREEZE, 0),
        ]);
        self.sound(WRITE, parameter, 0, data as u32)
    }

    /// A telegram that was hit on its way: more often than others one that the head would not answer, or that
    /// would restart it.
    pub fn noisy(&mut self) -> [u8; TELEGRAM_LENGTH] {
        let telegram = match self.random.below(10) {
            0..=1 => self.broadcast(),
            2 => self.restart(),
            3..=5 => {
                let telegram = self.any_telegram();
                self.at_any_node(telegram.command(), telegram)
            }
            _ => self.any_telegram(),
        };
        self.hit(telegram)
    }

    fn hit(&mut self, telegram: Telegram) -> [u8; TELEGRAM_LENGTH] {
        let mut bytes = telegram.bytes();
        let place = self.random.below(10) as usize;
        match self.random.below(10) {
            0..=2 => bytes[place] ^= 1 << self.random.below(8),
            3..=4 => bytes[place] = self.random.byte(),
            5 => bytes[place] = !bytes[place],
            // All that the telegram asks for is as it was.
            6..=7 => bytes[9] = self.random.byte(),
            8 => bytes.iter_mut().for_each(|byte| *byte ^= 1 << self.random.below(8)),
            // The same bits of two bytes, which the check does not see.
            _ => {
                let bits = self.random.byte();
                bytes[place] ^= bits;
                bytes[(place + 1 + self.random.below(9) as usize) % 10] ^= bits;
            }
        }
        bytes
    }

    fn any_telegram(&mut self) -> Telegram {
        match self.random.below(100) {
            0..=27 => self.read(),
            28..=49 => self.write_row(),
            50..=65 => self.write_set_point_2(),
            66..=71 => self.write_set_point_1(),
            72..=78 => self.system_command(WRITE),
            79..=84 => self.other_write_only(WRITE),
            85..=91 => self.broadcast(),
            92..=93 => self.wrong_access(),
            94 => self.other_command(),
            95..=96 => self.unknown_parameter(),
            97..=98 => self.auto_id(),
            _ => self.noise(),
        }
    }

    fn sound(&mut self, command: u8, parameter: u8, control_word: u16, data: u32) -> Telegram {
        let node = self.node();
        Telegram::new(command, node, parameter, control_word, data)
    }

    /// Mostly the number in force; sometimes the one that waits for a restart, or another.
    fn node(&mut self) -> u8 {
        match self.random.below(40) {
            0 => self.head.value(rows::NODE_ADDRESS) as u8,
            1 => self.random.byte(),
            2 => self.head.number_in_force() ^ 0x80,
            _ => self.head.number_in_force(),
        }
    }

    // Reads.

    fn read(&mut self) -> Telegram {
        let parameter = match self.random.below(20) {
            0..=9 => self.random.pick(&FUNCTIONAL_VALUES),
            10..=11 => rows::POSITION_VALUE,
            12..=13 => rows::ERROR_COUNT + self.random.below(11) as u8,
            14..=15 => return self.read_input_error(),
            16 => self.random.pick(&READ_ONLY),
            17 => ROWS[self.random.below(39) as usize].address,
            _ => self.random.pick(&EFFECTIVE_ROWS),
        };
        // A read's control word and data are to be ignored.
        let control_word = if self.random.chance(40) { self.control_word() } else { 0 };
        let data = if self.random.chance(20) { self.random.word() } else { 0 };
        self.sound(READ, parameter, control_word, data)
    }

    fn read_input_error(&mut self) -> Telegram {
        let count = self.head.input_error_count() as u32;
        let number = match self.random.below(8) {
            0 => count + 1,
            1 => u32::from(self.random.byte()),
            2..=3 => 0,
            _ => self.random.below(count + 1),
        };
        let other_bytes = if self.random.chance(30) { self.random.word() >> 8 } else { 0 };
        self.sound(READ, rows::INPUT_ERRORS, 0, number << 24 | other_bytes)
    }

    pub fn reads(&self, asked: impl IntoIterator<Item = (u8, u32)>) -> Vec<u8> {
        let node = self.head.number_in_force();
        asked
            .into_iter()
            .flat_map(|(parameter, data)| Telegram::new(READ, node, parameter, 0, data).bytes())
            .collect()
    }

    pub fn read_all_rows(&self) -> Vec<u8> {
        self.reads(ROWS.iter().map(|row| (row.address, 0)))
    }

    pub fn read_error_lists(&self) -> Vec<u8> {
        let memory = (rows::ERROR_COUNT..=rows::LAST_ERROR).map(|parameter| (parameter, 0));
        let numbers = 0..=self.head.input_error_count() as u32;
        self.reads(memory.chain(numbers.map(|number| (rows::INPUT_ERRORS, number << 24))))
    }

    pub fn read_functional_values(&self) -> Vec<u8> {
        self.reads(FUNCTIONAL_VALUES.iter().map(|&parameter| (parameter, 0)))
    }

    // Writes.

    fn write_row(&mut self) -> Telegram {
        let parameter = match self.random.chance(75) {
            true => self.random.pick(&EFFECTIVE_ROWS),
            false => ROWS[self.random.below(39) as usize].address,
        };
        let data = self.row_value(parameter);
        let control_word = if self.random.chance(20) { self.control_word() } else { 0 };
        self.sound(WRITE, parameter, control_word, data)
    }

    fn row_value(&mut self, parameter: u8) -> u32 {
        let (low, high) = rows::limits(parameter).expect("a row has limits");
        let value = match self.random.below(16) {
            0 => low - 1,
            1 => high + 1,
            2 => return self.random.pick(&[u32::MAX, 1 << 31, 1 << 24, 1 << 16, 256]),
            3 => return self.random.word(),
            4 => low,
            5 => high,
            6..=9 => self.random.between(low.max(-20), high.min(20)),
            _ => self.random.between(low, high),
        };
        value as u32
    }

    /// Writes at and just beyond the limits of all the rows that are only stored.
    pub fn write_edges(&mut self) -> Vec<u8> {
        let node = self.head.number_in_force();
        let stored_only = ROWS.iter().filter(|row| !EFFECTIVE_ROWS.contains(&row.address));
        stored_only
            .flat_map(|row| {
                let edges = [row.low - 1, row.low, row.high, row.high + 1, row.high + 1];
                let data = self.random.pick(&edges) as u32;
                Telegram::new(WRITE, node, row.address, 0, data).bytes()
            })
            .collect()
    }

    fn control_word(&mut self) -> u16 {
        let bits = [(2, 50), (4, 25), (5, 40), (6, 30), (7, 40), (9, 75), (10, 30)];
        let mut word = if self.random.chance(15) { self.random.next() as u16 } else { 0 };
        for (bit, percent) in bits {
            word &= !(1 << bit);
            word |= u16::from(self.random.chance(percent)) << bit;
        }
        word
    }

    pub fn write_set_point_1(&mut self) -> Telegram {
        let data = self.random.pick(&[0, 1, 1_234, u32::MAX, 0xDEAD_BEEF, CHARACTERS]);
        let control_word = self.control_word();
        self.sound(WRITE, rows::SET_POINT_1, control_word, data)
    }

    pub fn write_set_point_2(&mut self) -> Telegram {
        let data = match self.random.below(10) {
            0 => self.random.pick(&[0, 0x7FFF_FFFF, 0x8000_0000, u32::MAX, CHARACTERS]),
            1 => self.random.word(),
            2 => self.head.set_point_2() as u32,
            _ => self.set_point_near_actual(),
        };
        let control_word = self.control_word();
        self.sound(WRITE, rows::SET_POINT_2, control_word, data)
    }

    /// A set point from which A lies at the edge of a window, or where the differential value is held.
    fn set_point_near_actual(&mut self) -> u32 {
        let window_1 = i64::from(self.head.value(rows::TARGET_WINDOW_1));
        let window_2 = i64::from(self.head.value(rows::TARGET_WINDOW_2));
        let held = 5_242_880;
        let edges = [0, 1, 2, window_1, window_1, window_1 + 1, window_2, window_2 + 1, held, held + 1];
        let distance = self.random.pick(&edges) * self.random.pick(&[1, -1]);
        (self.head.actual() + distance) as u32
    }

    fn system_command(&mut self, command: u8) -> Telegram {
        // Resets of 00h bring all heads to one number, so they are rarer, above all as broadcasts.
        let data = match self.random.below(20) {
            0..=2 => self.random.pick(&[0, 3, 4, 6, 10, 0x0100_0007, u32::MAX]),
            3 if command == WRITE || self.random.chance(20) => self.random.pick(&[1, 5]),
            4 => 2,
            5..=8 => 8,
            9..=11 => 9,
            _ => 7,
        };
        self.sound(command, rows::SYSTEM_COMMAND, 0, data)
    }

    pub fn restart(&mut self) -> Telegram {
        self.sound(WRITE, rows::SYSTEM_COMMAND, 0, 9)
    }

    fn other_write_only(&mut self, command: u8) -> Telegram {
        let parameter = self.random.pick(&[rows::CALIBRATION_TRAVEL, rows::PROGRAMMING_MODE, rows::FREEZE]);
        let data = match parameter {
            rows::PROGRAMMING_MODE => self.random.pick(&[0, 0, 0, 0, 1, 1, 1, 2]),
            _ => self.random.pick(&[0, 1, 1, 1, 1, 1, 2]),
        };
        let control_word = if self.random.chance(20) { self.control_word() } else { 0 };
        self.sound(command, parameter, control_word, data)
    }

    // Broadcasts and what is refused.

    fn broadcast(&mut self) -> Telegram {
        let mut telegram = match self.random.below(10) {
            0..=3 => self.system_command(BROADCAST),
            4..=7 => self.other_write_only(BROADCAST),
            8 => self.write_row(),
            _ => self.write_set_point_2(),
        };
        if self.random.chance(70) {
            telegram = self.at_any_node(BROADCAST, telegram);
        }
        telegram
    }

    fn at_any_node(&mut self, command: u8, telegram: Telegram) -> Telegram {
        let node = self.random.byte();
        Telegram::new(command, node, telegram.parameter(), telegram.control_word(), telegram.data())
    }

    // Auto-ID.

    fn auto_id(&mut self) -> Telegram {
        let command = self.random.pick(&[READ, WRITE, WRITE, WRITE]);
        let data = self.new_number();
        self.sound(command, rows::AUTO_ID, 0, data)
    }

    fn new_number(&mut self) -> u32 {
        match self.random.chance(50) {
            true => self.legal_number(),
            false => self.illegal_number(),
        }
    }

    pub fn legal_number(&mut self) -> u32 {
        match self.random.below(10) {
            0 => 1,
            1..=2 => 31,
            3..=4 => 5,
            _ => 1 + self.random.below(31),
        }
    }

    /// The low byte of some would be legal.
    pub fn illegal_number(&mut self) -> u32 {
        match self.random.below(4) {
            0 => 0,
            1 => 32,
            2 => self.random.pick(&[127, 128, 255, 256, 256 + 5, 0x0001_0005, 0x0500_0000]),
            _ => self.random.pick(&[0x7FFF_FFFF, 0x8000_0000, 0x8000_0005, u32::MAX, u32::MAX - 30]),
        }
    }

    /// A write of D2h to all heads that have this head's number. Its control word is to be ignored.
    pub fn write_auto_id(&mut self, data: u32) -> [u8; TELEGRAM_LENGTH] {
        let control_word = if self.random.chance(40) { self.control_word() } else { 0 };
        let node = self.head.number_in_force();
        Telegram::new(WRITE, node, rows::AUTO_ID, control_word, data).bytes()
    }

    /// A telegram of D2h, whatever its data, that offers nothing to this head and leaves what is on offer.
    pub fn idle_auto_id(&mut self) -> [u8; TELEGRAM_LENGTH] {
        let node = self.head.number_in_force();
        let data = self.new_number();
        let telegram = |command, node| Telegram::new(command, node, rows::AUTO_ID, 0, data);
        match self.random.below(6) {
            0 => telegram(READ, node).bytes(),
            1 => telegram(BROADCAST, self.random.pick(&[0, node, node ^ 1])).bytes(),
            2 => telegram(WRITE, self.random.pick(&[0, 1, 5, node ^ 0x80, node ^ 1])).bytes(),
            3 => telegram(self.random.pick(&[3, 0x81, 0xFF]), node).bytes(),
            4 => self.hit(telegram(WRITE, node)),
            // All but the check sum is as it was.
            _ => {
                let mut bytes = telegram(self.random.pick(&[WRITE, WRITE, BROADCAST]), node).bytes();
                bytes[9] ^= 1 << self.random.below(8);
                bytes
            }
        }
    }

    fn wrong_access(&mut self) -> Telegram {
        let (command, parameter) = match self.random.below(3) {
            0 => (WRITE, self.random.pick(&READ_ONLY)),
            1 => (READ, self.random.pick(&WRITE_ONLY)),
            _ => (BROADCAST, self.random.pick(&READ_ONLY)),
        };
        let data = self.random.below(3);
        self.sound(command, parameter, 0, data)
    }

    fn other_command(&mut self) -> Telegram {
        let command = match self.random.below(3) {
            0 => self.random.byte(),
            1 => 0xFF,
            _ => 3,
        };
        let parameter = self.random.byte();
        self.sound(command, parameter, 0, 0)
    }

    fn unknown_parameter(&mut self) -> Telegram {
        let command = self.random.pick(&[READ, WRITE, BROADCAST]);
        let parameter = self.random.pick(&UNKNOWN);
        self.sound(command, parameter, 0, 1)
    }

    fn noise(&mut self) -> Telegram {
        let command = self.random.pick(&[READ, WRITE, BROADCAST]);
        let parameter = self.random.byte();
        let data = self.random.word();
        self.sound(command, parameter, 0, data)
    }
}
