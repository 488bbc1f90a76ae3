//! The status word of replies, request (iii): telegrams before and after which the word of a head differs, so
//! that the reply shows which of the two it carries.

use super::{unit, Generator};
use crate::telegrams::Author;
use reference::head::Head;
use reference::rows::{self, ROWS};
use reference::telegram::{Telegram, BROADCAST, READ, TELEGRAM_LENGTH, WRITE};

const CLEAR_STATIC: u16 = 1 << 4;
const ACKNOWLEDGE: u16 = 1 << 5;
const SET_POINT_2_VALID: u16 = 1 << 9;

/// What changes the word of a head near its set point, and the value where it need not be looked for. A0h 1
/// stores 31 as the number, so it is rarer.
const CHANGES: [(u8, u32); 20] = [
    (rows::TARGET_WINDOW_1, 0),
    (rows::TARGET_WINDOW_1, 0),
    (rows::TARGET_WINDOW_2, 0),
    (rows::TARGET_WINDOW_2, 0),
    (rows::OFFSET_VALUE, 0),
    (rows::OFFSET_VALUE, 0),
    (rows::COUNTING_DIRECTION, 0),
    (rows::COUNTING_DIRECTION, 0),
    (rows::DISPLAY_DIVISOR, 0),
    (rows::DISPLAY_DIVISOR, 0),
    (rows::DIVISOR_APPLICATION, 0),
    (rows::DIVISOR_APPLICATION, 0),
    (rows::DIVISOR_APPLICATION, 0),
    (rows::CALIBRATION_TRAVEL, 1),
    (rows::CALIBRATION_TRAVEL, 1),
    (rows::SYSTEM_COMMAND, 7),
    (rows::SYSTEM_COMMAND, 2),
    (rows::SYSTEM_COMMAND, 2),
    (rows::SYSTEM_COMMAND, 1),
    (rows::FREEZE, 1),
];

impl Generator {
    pub(super) fn status_word(&mut self) {
        let Some((number, _)) = self.some_head() else {
            return self.refused();
        };
        self.come_near_the_set_point(number);
        for _ in 0..self.random.below(3) {
            self.give_the_word_a_bit(number);
        }
        match self.random.below(21) {
            0..=7 => self.change_the_word(number),
            8..=11 => self.third_damaged(number),
            12..=13 => self.freeze_and_release(number),
            14..=15 => self.read_the_static_bit(number),
            16..=17 => self.refuse_what_would_change_it(number),
            18 => self.restart_with_keys_down(number),
            19 => self.calibrate_to_the_set_point(number),
            _ => self.send_from(number, |author| author.write_set_point_1().bytes().to_vec()),
        }
        if self.random.chance(40) {
            self.send_from(number, |author| author.read_functional_values());
        }
    }

    // A word with something to show.

    /// Narrow windows, a position that divisor and offset move far, and a valid set point at the edge of a
    /// window, mostly in a mode that has windows.
    pub(super) fn come_near_the_set_point(&mut self, number: usize) {
        if self.head(number).is_alpha_numeric() && self.random.chance(80) {
            self.leave(number);
        }
        let head = self.head(number);
        if self.random.chance(60) {
            self.move_by_some(number);
        }
        if head.is_locked() || self.random.chance(60) {
            let window_1 = self.random.pick(&[0, 1, 5, 20]);
            let window_2 = self.random.pick(&[0, 1, 5, 20]);
            let divisor = self.random.pick(&[0, 1, 1, 2]);
            self.write_to(
                number,
                &[
                    (rows::PROGRAMMING_MODE, 1),
                    (rows::TARGET_WINDOW_1, window_1),
                    (rows::TARGET_WINDOW_2, window_2),
                    (rows::DISPLAY_DIVISOR, divisor),
                ],
            );
        }
        self.send_from(number, |author| set_point_at_an_edge(author).bytes().to_vec());
    }

    pub(super) fn give_the_word_a_bit(&mut self, number: usize) {
        match self.random.below(7) {
            0..=1 => self.write_to(number, &[(rows::FREEZE, 1)]),
            2..=3 => self.send_from(number, |author| three_damaged(author, None)),
            4 => self.send_from(number, |author| author.write_set_point_1().bytes().to_vec()),
            _ => self.keys_of(number, &[0, 2, 2, 3, 4, 6]),
        }
    }

    // Telegrams that change it.

    fn change_the_word(&mut self, number: usize) {
        for _ in 0..1 + self.random.below(4) {
            let change = self.random.pick(&CHANGES);
            self.send_from(number, |author| telling(author, change).bytes().to_vec());
        }
    }

    /// The set point lies where the calibration leads, which sets no static bit.
    fn calibrate_to_the_set_point(&mut self, number: usize) {
        self.send_from(number, |author| {
            let head = author.head;
            let position = head.value(rows::CALIBRATION_VALUE) + head.value(rows::OFFSET_VALUE);
            let set_point = i64::from(position) / unit(head) + author.random.pick(&[-1, 0, 1, 4]);
            let word = SET_POINT_2_VALID | CLEAR_STATIC;
            let node = head.number_in_force();
            let set = Telegram::new(WRITE, node, rows::SET_POINT_2, word, set_point as u32);
            let command = author.random.pick(&[(rows::CALIBRATION_TRAVEL, 1), (rows::SYSTEM_COMMAND, 7)]);
            [set, Telegram::new(WRITE, node, command.0, 0, command.1)]
                .map(|telegram| telegram.bytes())
                .concat()
        });
    }

    /// It raises the error, which shows in its reply unless one is pending already; whatever it looks like, it
    /// is an error reply.
    fn third_damaged(&mut self, number: usize) {
        for _ in 0..1 + self.random.below(3) {
            self.send_from(number, |author| {
                let mut bytes =
                    if author.random.chance(90) { acknowledgement(author.head) } else { Vec::new() };
                let telegram = look_alike(author);
                bytes.extend(three_damaged(author, Some(telegram)));
                bytes
            });
        }
        if self.random.chance(50) {
            self.send_from(number, |author| author.read_functional_values());
        }
    }

    /// Between the two another AAh may come, or what might be taken for the read that releases.
    fn freeze_and_release(&mut self, number: usize) {
        for _ in 0..1 + self.random.below(2) {
            self.send_from(number, |author| freezing(author).bytes().to_vec());
            self.move_by_some(number);
        }
        if self.random.chance(60) {
            self.refuse_what_would_change_it(number);
        }
        self.send_from(number, |author| {
            let read = |&parameter: &u8| read_of(author.head, parameter).bytes();
            [rows::DIFFERENTIAL_VALUE, rows::POSITION_VALUE, rows::POSITION_VALUE]
                .iter()
                .flat_map(read)
                .collect()
        });
    }

    /// The first FAh shows it, the second does not; a refused one or a damaged one leaves it.
    fn read_the_static_bit(&mut self, number: usize) {
        self.send_from(number, |author| {
            let node = author.head.number_in_force();
            let set_point = author.head.actual() as u32;
            Telegram::new(WRITE, node, rows::SET_POINT_2, SET_POINT_2_VALID, set_point).bytes().to_vec()
        });
        if self.random.chance(60) {
            self.refuse_what_would_change_it(number);
        }
        self.send_from(number, |author| read_of(author.head, rows::STATUS_WORD).bytes().repeat(2));
    }

    /// Refused or damaged; the read after it shows whether anything was done.
    fn refuse_what_would_change_it(&mut self, number: usize) {
        if self.random.chance(20) {
            return self.refuse_by_the_lock(number);
        }
        self.send_from(number, |author| {
            let telegram = look_alike(author);
            let refused = match author.random.chance(50) {
                true => with_check_sum_hit(author, telegram),
                false => made_refusable(author, telegram).bytes(),
            };
            [refused, read_of(author.head, rows::DEVICE_IDENTIFICATION).bytes()].concat()
        });
    }

    /// What is locked and what is not; A0h 2, which leaves the lock, comes at times before it is opened for
    /// good.
    fn refuse_by_the_lock(&mut self, number: usize) {
        self.write_to(number, &[(rows::PROGRAMMING_MODE, 0), (rows::PROGRAMMING_CONFIGURATION, 1)]);
        self.send_from(number, writes_to_a_locked_head);
        self.write_to(number, &[(rows::PROGRAMMING_MODE, 1)]);
        if self.random.chance(50) {
            self.write_to(number, &[(rows::SYSTEM_COMMAND, 2)]);
            self.send_from(number, |author| {
                read_of(author.head, rows::PROGRAMMING_CONFIGURATION).bytes().to_vec()
            });
        }
        self.write_to(number, &[(rows::PROGRAMMING_CONFIGURATION, 0)]);
    }

    fn restart_with_keys_down(&mut self, number: usize) {
        self.keys_of(number, &[1, 2, 3, 4, 6, 7]);
        self.send_from(number, |author| author.restart().bytes().to_vec());
    }
}

fn read_of(head: &Head, parameter: u8) -> Telegram {
    Telegram::new(READ, head.number_in_force(), parameter, 0, 0)
}

fn set_point_at_an_edge(author: &mut Author) -> Telegram {
    let edge = edge_of_a_window(author);
    let set_point = author.head.actual() + edge * author.random.pick(&[1, -1]);
    let node = author.head.number_in_force();
    Telegram::new(WRITE, node, rows::SET_POINT_2, SET_POINT_2_VALID, set_point as u32)
}

fn edge_of_a_window(author: &mut Author) -> i64 {
    let window = author.random.pick(&[rows::TARGET_WINDOW_1, rows::TARGET_WINDOW_2]);
    let width = i64::from(author.head.value(window));
    author.random.pick(&[0, 1, width, width, width + 1, width + 1, width + 9])
}

/// A telegram of this sort that changes the head's word, if a few tries find one.
fn telling(author: &mut Author, change: (u8, u32)) -> Telegram {
    for _ in 0..20 {
        let telegram = changing(author, change);
        if word_after(author.head, &telegram) != author.head.status_word() {
            return telegram;
        }
    }
    changing(author, change)
}

fn word_after(head: &Head, telegram: &Telegram) -> u16 {
    let mut head = head.clone();
    for byte in telegram.bytes() {
        head.byte(0, byte);
    }
    head.status_word()
}

fn changing(author: &mut Author, (parameter, only_value): (u8, u32)) -> Telegram {
    let head = author.head;
    let distance = (head.actual() - i64::from(head.set_point_2())).abs();
    let value = match parameter {
        rows::TARGET_WINDOW_1 | rows::TARGET_WINDOW_2 => {
            (distance + author.random.pick(&[-1, 0, 1])).clamp(0, 9_999) as u32
        }
        rows::OFFSET_VALUE => offset_to_an_edge(author),
        rows::COUNTING_DIRECTION => author.random.below(2),
        rows::DISPLAY_DIVISOR => author.random.below(4),
        rows::DIVISOR_APPLICATION => author.random.below(3),
        _ => only_value,
    };
    Telegram::new(WRITE, head.number_in_force(), parameter, 0, value)
}

/// An offset with which A lies at the edge of a window about the set point.
fn offset_to_an_edge(author: &mut Author) -> u32 {
    let edge = edge_of_a_window(author) * author.random.pick(&[1, -1]);
    let head = author.head;
    let position = (i64::from(head.set_point_2()) + edge) * unit(head);
    let offset = i64::from(head.value(rows::OFFSET_VALUE)) + position - head.position();
    offset.clamp(-19_999, 19_999) as u32
}

/// All 39 at once; or A7h, which is not locked, and A0h 9 and others that are.
fn writes_to_a_locked_head(author: &mut Author) -> Vec<u8> {
    let node = author.head.number_in_force();
    let write = |parameter, data| Telegram::new(WRITE, node, parameter, 0, data).bytes();
    if author.random.chance(30) {
        return ROWS.iter().flat_map(|row| write(row.address, row.default as u32)).collect();
    }
    let changes = [author.random.pick(&CHANGES), author.random.pick(&CHANGES)];
    let mut bytes = write(rows::CALIBRATION_TRAVEL, 1).to_vec();
    bytes.extend(author.restart().bytes());
    bytes.extend(changes.into_iter().flat_map(|change| changing(author, change).bytes()));
    bytes
}

fn freezing(author: &mut Author) -> Telegram {
    match author.random.chance(70) {
        true => Telegram::new(WRITE, author.head.number_in_force(), rows::FREEZE, 0, 1),
        false => Telegram::new(BROADCAST, author.random.byte(), rows::FREEZE, 0, 1),
    }
}

/// By two words, so that the second has bit 5 where the one before it had not.
fn acknowledgement(head: &Head) -> Vec<u8> {
    let write = |word| Telegram::new(WRITE, head.number_in_force(), rows::SET_POINT_1, word, 7).bytes();
    [write(0), write(ACKNOWLEDGE)].concat()
}

/// What keeps the old word, and what has an effect on it, before it is damaged or made refusable.
fn look_alike(author: &mut Author) -> Telegram {
    let head = author.head;
    match author.random.below(19) {
        0..=3 => author.write_set_point_1(),
        4..=7 => author.write_set_point_2(),
        8..=10 => read_of(head, rows::STATUS_WORD),
        11..=12 => author.restart(),
        13..=14 => read_of(head, rows::POSITION_VALUE),
        15..=16 => Telegram::new(WRITE, head.number_in_force(), rows::FREEZE, 0, 1),
        _ => Telegram::new(3, head.number_in_force(), rows::SET_POINT_2, SET_POINT_2_VALID, 0),
    }
}

/// The same with a command that there is none of, or the other access. Its word would clear and acknowledge.
fn made_refusable(author: &mut Author, telegram: Telegram) -> Telegram {
    let command = match (telegram.command(), telegram.parameter()) {
        (READ, _) => author.random.pick(&[WRITE, WRITE, 3]),
        (_, rows::SET_POINT_1 | rows::SET_POINT_2) => author.random.pick(&[3, 0x81, 0xFF]),
        _ => author.random.pick(&[READ, READ, 3]),
    };
    let control_word = telegram.control_word() | CLEAR_STATIC | ACKNOWLEDGE;
    Telegram::new(command, telegram.node(), telegram.parameter(), control_word, telegram.data())
}

/// All but the check sum is as it was.
fn with_check_sum_hit(author: &mut Author, telegram: Telegram) -> [u8; TELEGRAM_LENGTH] {
    let mut bytes = telegram.bytes();
    bytes[9] ^= 1 << author.random.below(8);
    bytes
}

/// Two that are for whomever and this one, or a third of the same sort.
fn three_damaged(author: &mut Author, third: Option<Telegram>) -> Vec<u8> {
    let node = author.random.pick(&[author.head.number_in_force(), 0, 0x80]);
    let other = Telegram::new(READ, node, rows::NODE_ADDRESS, 0, 0);
    [other, other, third.unwrap_or(other)]
        .into_iter()
        .flat_map(|telegram| with_check_sum_hit(author, telegram))
        .collect()
}

#[cfg(test)]
mod tests {
    use super::*;
    use crate::generator::script;
    use reference::line::Line;
    use reference::script::{meaning, Command, Meaning};

    /// A telegram that drew one reply, and the word of the head that sent it before and after.
    struct Answered {
        telegram: Telegram,
        before: u16,
        after: u16,
    }

    /// Obeys a script and writes down which telegrams were answered.
    struct Listener {
        line: Line,
        space: Vec<u8>,
        heard: Vec<u8>,
        answered: Vec<Answered>,
    }

    impl Listener {
        fn obey(&mut self, command: Command) {
            // Refusals are no concern of the word.
            match command {
                Command::Head { node, serial } => drop(self.line.grow(node, serial)),
                Command::Send { time, bytes } => {
                    for byte in bytes {
                        let answered = self.hear(time, byte);
                        self.answered.extend(answered);
                    }
                }
                // What comes back is read for its value, so that no word is seen.
                Command::Ask { time, question } => {
                    for byte in question.telegram().into_iter().flatten() {
                        self.hear(time, byte);
                    }
                }
                Command::Rack { time, place, bytes } => self.obey_rack(time, place as usize, &bytes),
                Command::Tick { time } => self.line.tick(time),
                Command::Measure { head, value } => drop(self.line.measure(head, value)),
                Command::Keys { head, state } => drop(self.line.keys(head, state, &mut self.space)),
                Command::Power { head } => drop(self.line.power(head)),
                Command::Space { size } => self.space = vec![0; size],
                Command::Load { head, sheet } => drop(self.line.load(head, &sheet)),
                Command::Bring { head } => drop(self.line.bring(head)),
                Command::Xor { .. } | Command::Save { .. } => {}
            }
        }

        /// Byte by byte, after one without any, if a copy of the line does not refuse it.
        fn obey_rack(&mut self, time: u32, place: usize, bytes: &[u8]) {
            if self.line.clone().rack(time, bytes, place, &mut self.space).is_err() {
                return;
            }
            self.line.rack(time, &[], 0, &mut []).expect("there is room for none");
            for &byte in bytes {
                let answered = self.hear(time, byte);
                self.answered.extend(answered);
            }
        }

        fn hear(&mut self, time: u32, byte: u8) -> Option<Answered> {
            let words = |line: &Line| line.heads().iter().map(Head::status_word).collect::<Vec<_>>();
            let nodes: Vec<u8> = self.line.heads().iter().map(Head::number_in_force).collect();
            let before = words(&self.line);
            let replies = self.line.byte(time, byte, &mut self.space);
            if replies.is_ok() {
                self.heard.push(byte);
            }
            if replies != Ok(1) {
                return None;
            }
            let bytes = *self.heard.last_chunk().expect("a reply takes ten bytes");
            let telegram = Telegram::received(bytes);
            let head = nodes.iter().position(|&node| node == telegram.node()).expect("it replied");
            let after = words(&self.line);
            Some(Answered { telegram, before: before[head], after: after[head] })
        }
    }

    fn answered_in_200_scripts() -> Vec<Answered> {
        let mut answered = Vec::new();
        for number in 1..=200 {
            let space = vec![0; TELEGRAM_LENGTH];
            let mut listener = Listener { line: Line::new(), space, heard: Vec::new(), answered: Vec::new() };
            for line in script(1, number).lines {
                if let Meaning::Command(command) = meaning(&line) {
                    listener.obey(command);
                }
            }
            answered.extend(listener.answered);
        }
        answered
    }

    /// With any data where none are named.
    fn assert_frequent(answered: &[Answered], is_sound: bool, command: u8, parameter: u8, data: Option<u32>) {
        let is_meant = |telegram: &Telegram| {
            (telegram.exclusive_or() == 0) == is_sound
                && (telegram.command(), telegram.parameter()) == (command, parameter)
                && data.is_none_or(|data| telegram.data() == data)
        };
        let count = answered.iter().filter(|answered| is_meant(&answered.telegram)).count();
        assert!(count >= 40, "sound {is_sound}, {command:02X} {parameter:02X}h {data:?}: {count}");
    }

    #[test]
    fn every_sort_of_reply_often_shows_which_word_it_carries() {
        let mut answered = answered_in_200_scripts();
        answered.retain(|answered| answered.before != answered.after);
        for (parameter, value) in CHANGES {
            let data = (value != 0).then_some(value);
            assert_frequent(&answered, true, WRITE, parameter, data);
        }
        for is_sound in [true, false] {
            assert_frequent(&answered, is_sound, WRITE, rows::SET_POINT_1, None);
            assert_frequent(&answered, is_sound, WRITE, rows::SET_POINT_2, None);
            assert_frequent(&answered, is_sound, READ, rows::STATUS_WORD, None);
            assert_frequent(&answered, is_sound, READ, rows::POSITION_VALUE, None);
            assert_frequent(&answered, is_sound, WRITE, rows::SYSTEM_COMMAND, Some(9));
        }
    }
}
