//! Racks, request (x): telegrams for heads that are there and for nobody, up to 64 of them in one call, after bytes that
//! heads have gathered and on lines where heads have one number; and lengths and places on both sides of their limits.

use super::{Generator, FEW_HEADS};
use crate::telegrams::Author;
use reference::head::Head;
use reference::line::LONGEST_RACK;
use reference::rows;
use reference::script::{hex, LARGEST_SPACE};
use reference::sheet::Setting;
use reference::telegram::{Telegram, BROADCAST, READ, TELEGRAM_LENGTH, WRITE};

/// Of a hundred sends of whole telegrams. The heads hear the same.
const SENDS_THAT_RACK: u32 = 4;

/// The sorts of lines that are nearly a rack.
const MISSPELLINGS: u32 = 19;

impl Generator {
    pub(super) fn rack(&mut self) {
        match self.random.below(40) {
            0..=5 => self.rack_some(),
            6..=13 => self.rack_amid_a_telegram(),
            14..=16 => self.rack_at_the_edges(),
            17 => self.rack_in_spaces(),
            18..=20 => self.rack_of_a_wrong_length(),
            21..=24 => self.rack_twins(),
            25..=27 => self.rack_a_new_number(),
            28..=31 => self.rack_and_tick(),
            32..=34 => self.rack_after_some_past(),
            35..=37 => self.rack_many(),
            _ => self.misspell_a_rack(),
        }
    }

    /// Nobody answers and nobody has gathered anything; refusals are the same as with heads.
    pub(super) fn rack_before_any_head(&mut self) {
        for _ in 0..1 + self.random.below(3) {
            self.rack_of_any_sort();
        }
    }

    /// The place of a rack that may stand for a send of these bytes.
    pub(super) fn racked_instead(&mut self, bytes: &[u8]) -> Option<u32> {
        let is_rack = bytes.len().is_multiple_of(TELEGRAM_LENGTH) && bytes.len() <= LONGEST_RACK;
        let has_room = bytes.len() <= self.model.space();
        (is_rack && has_room && self.random.chance(SENDS_THAT_RACK))
            .then(|| self.place_with_room(bytes.len()))
    }

    // Lines.

    pub(super) fn write_rack(&mut self, place: u32, bytes: &[u8]) {
        let zeros = if self.random.chance(5) { "000" } else { "" };
        let line = format!("rack {} {zeros}{place} {}", self.now, hex(bytes));
        self.feed(line.trim_end().to_string());
    }

    /// With so much space that it is not refused.
    fn rack_with_room(&mut self, bytes: &[u8]) {
        if self.model.space() < bytes.len() || self.random.chance(20) {
            let size = bytes.len() + self.random.pick(&[0, 0, 0, 1, 5, 10, 64, LARGEST_SPACE]);
            self.write_line(format!("space {}", size.clamp(TELEGRAM_LENGTH, LARGEST_SPACE)));
        }
        let place = self.place_with_room(bytes.len());
        self.write_rack(place, bytes);
    }

    fn rack_without_room(&mut self, bytes: &[u8]) {
        let place = self.place_without_room(bytes.len());
        self.write_rack(place, bytes);
    }

    // Places.

    /// In a space that has room for so many bytes.
    fn place_with_room(&mut self, length: usize) -> u32 {
        let last = (self.model.space() - length) as u32;
        let any = self.random.below(last + 1);
        self.random.pick(&[0, last, last, any])
    }

    /// The first that leaves too little, the end, those beyond it, and such that they or their sum with the length
    /// would do but for their upper bits.
    fn place_without_room(&mut self, length: usize) -> u32 {
        let size = self.model.space() as u32;
        let length = length as u32;
        let first = (size + 1).saturating_sub(length);
        match self.random.below(10) {
            0..=4 => first,
            5 => size.max(first),
            6 => size + 1 + self.random.pick(&[0, 0, 9]),
            7 => 0_u32.wrapping_sub(length.max(1)),
            8 => (1 << 16) + self.random.below(first.max(1)),
            _ => self.random.pick(&[1 << 31, u32::MAX - 9, u32::MAX]),
        }
    }

    // Telegrams.

    /// Each is written for the line as it is by then, so that numbers are asked for that a restart has just brought
    /// into force.
    fn telegrams_in_turn(&mut self, count: usize) -> Vec<u8> {
        let mut line = self.model.line().clone();
        let mut bytes = Vec::new();
        for _ in 0..count {
            let telegram = self.telegram_on(line.heads());
            line.rack(self.now, &telegram, 0, &mut [0; TELEGRAM_LENGTH]).expect("there is room for a reply");
            bytes.extend(telegram);
        }
        bytes
    }

    fn telegram_on(&mut self, heads: &[Head]) -> [u8; TELEGRAM_LENGTH] {
        let head = match heads {
            [] => Head::factory(0),
            _ => heads[self.random.below(heads.len() as u32) as usize].clone(),
        };
        let mut author = Author { random: &mut self.random, head: &head };
        match author.random.below(20) {
            0..=1 => author.noisy(),
            2 => author.restart().bytes(),
            3 => for_nobody(author.random.pick(&[0, 128, 200])),
            4 => std::array::from_fn(|_| author.random.byte()),
            // Of many telegrams some would be resets, after which there is little to be seen of the heads.
            5..=11 => simple_read(&mut author),
            _ => author.telegram(),
        }
    }

    fn few_telegrams(&mut self) -> Vec<u8> {
        let count = self.random.pick(&[1, 1, 2, 2, 2, 3, 3, 4, 5, 6, 7, 8]);
        self.telegrams_in_turn(count)
    }

    /// Parts of telegrams, a telegram and part of another, more than there may be, or far more.
    fn bytes_of_a_wrong_length(&mut self) -> Vec<u8> {
        let length = match self.random.below(12) {
            0..=2 => 1 + self.random.below(9) as usize,
            3..=5 => 10 * (1 + self.random.below(4) as usize) + self.random.pick(&[1, 1, 5, 9]),
            6..=7 => self.random.pick(&[639, 641, 649]),
            8..=9 => self.random.pick(&[650, 650, 660]),
            10 => self.random.pick(&[700, 1_024, 1_280, 1_281]),
            _ => self.random.pick(&[2_000, 2_040]),
        };
        let telegrams = self.few_telegrams();
        telegrams.into_iter().cycle().take(length).collect()
    }

    // Racks.

    fn rack_some(&mut self) {
        self.advance();
        let bytes = if self.random.chance(8) { Vec::new() } else { self.few_telegrams() };
        self.rack_with_room(&bytes);
        if self.random.chance(20) {
            self.read_back();
        }
    }

    /// One that is taken, with telegrams or without, or one that is refused or is none.
    pub(super) fn rack_of_any_sort(&mut self) {
        if self.random.chance(85) {
            return self.rack_in_vain();
        }
        let bytes = self.few_telegrams();
        self.rack_with_room(&bytes);
    }

    /// Of which comes nothing but that what is gathered is dropped, or not even that.
    fn rack_in_vain(&mut self) {
        match self.random.below(10) {
            0..=3 => self.rack_with_room(&[]),
            4..=6 => {
                let bytes = if self.random.chance(30) { Vec::new() } else { self.few_telegrams() };
                self.rack_without_room(&bytes);
            }
            7..=8 => self.rack_what_is_too_long_or_short(),
            _ => {
                let sort = self.random.below(MISSPELLINGS);
                let line = self.misspelt_rack(sort);
                self.write_line(line);
            }
        }
    }

    fn rack_what_is_too_long_or_short(&mut self) {
        let bytes = self.bytes_of_a_wrong_length();
        // 15 goes before 16.
        match bytes.len() <= LARGEST_SPACE && self.random.chance(60) {
            true => self.rack_with_room(&bytes),
            false => self.rack_without_room(&bytes),
        }
    }

    // Bytes gathered.

    /// What a rack has dropped is not completed by the rest; what is refused or is none has dropped nothing. A head that
    /// was switched off and on in between has gathered less than the others.
    pub(super) fn rack_amid_a_telegram(&mut self) {
        let head = match self.model.line().heads().len() > FEW_HEADS && self.random.chance(60) {
            true => {
                let number = self.far_head();
                self.head(number)
            }
            false => self.some_head_or_a_new_one(),
        };
        let mut author = Author { random: &mut self.random, head: &head };
        let telegram = if author.random.chance(70) { simple_read(&mut author) } else { author.telegram() };
        let (begun, rest) = telegram.split_at(self.random.pick(&[1, 2, 3, 4, 5, 6, 7, 8, 9, 9, 9]));
        self.leave_a_gap();
        self.send(begun);
        if self.random.chance(15) {
            self.power();
        }
        self.now = self.now.wrapping_add(self.random.pick(&[0, 0, 0, 1, 5]));
        for _ in 0..self.random.pick(&[1, 1, 1, 2]) {
            self.rack_of_any_sort();
        }
        self.now = self.now.wrapping_add(self.random.pick(&[0, 0, 1, 5]));
        self.send(rest);
    }

    /// What a head has of its past, but for bytes gathered, is no concern of a rack.
    fn rack_after_some_past(&mut self) {
        let Some((number, head)) = self.some_head() else {
            return self.rack_before_any_head();
        };
        if self.random.chance(60) {
            return self.rack_after_two_damaged(&head);
        }
        let past = self.some_past(number);
        self.rack_twice_in_vain();
        self.look_for(past, number);
        self.read_at(number, head.number_in_force());
    }

    /// The third shows whether it is one, as it raises the error.
    fn rack_after_two_damaged(&mut self, head: &Head) {
        let mut read = simple_read(&mut Author { random: &mut self.random, head });
        read[9] ^= 1 << self.random.below(8);
        self.leave_a_gap();
        self.send(&[read, read].concat());
        if self.random.chance(40) {
            let begun = 1 + self.random.below(9) as usize;
            self.send(&read[..begun]);
        }
        self.rack_twice_in_vain();
        self.leave_a_gap();
        self.send(&read);
    }

    fn rack_twice_in_vain(&mut self) {
        self.rack_in_vain();
        self.rack_in_vain();
    }

    // Limits.

    fn rack_at_the_edges(&mut self) {
        self.advance();
        let count = self.random.pick(&[0, 0, 1, 1, 2, 3, 8]);
        for _ in 0..2 + self.random.below(3) {
            let bytes = self.telegrams_in_turn(count);
            match self.random.chance(40) {
                true => self.rack_with_room(&bytes),
                false => self.rack_without_room(&bytes),
            }
        }
        self.read_back();
    }

    fn rack_of_a_wrong_length(&mut self) {
        self.advance();
        for _ in 0..1 + self.random.below(3) {
            self.rack_what_is_too_long_or_short();
        }
        if self.random.chance(50) {
            self.read_back();
        }
    }

    /// As many as there may be, or one more. Writes of 0, 1, 2 and so on show their order.
    fn rack_many(&mut self) {
        self.advance();
        let count = self.random.pick(&[9, 32, 33, 63, 64, 64, 64, 64, 65]);
        let node = self.some_head_or_a_new_one().number_in_force();
        let bytes = match self.random.chance(40) {
            true => self.telegrams_in_turn(count),
            false => {
                let write =
                    |value| Telegram::new(WRITE, node, rows::TARGET_WINDOW_1, 0, value as u32).bytes();
                (0..count).flat_map(write).collect()
            }
        };
        match self.random.chance(80) {
            true => self.rack_with_room(&bytes),
            false => self.rack_without_room(&bytes),
        }
    }

    /// Most of them have no room for a telegram.
    fn rack_in_spaces(&mut self) {
        for _ in 0..1 + self.random.below(3) {
            let size = self.random.pick(&[0, 1, 9, 9, 10, 11]);
            self.write_line(format!("space {size}"));
            for _ in 0..1 + self.random.below(3) {
                self.rack_in_short_space();
            }
        }
        let size = self.random.pick(&[10, 64, 640]);
        self.write_line(format!("space {size}"));
    }

    /// Without a telegram there is always room for it up to the end.
    pub(super) fn rack_in_short_space(&mut self) {
        let telegram = self.telegram();
        let length = self.random.pick(&[0, 0, 0, 1, 9, 10, 10]);
        let place = self.random.below(self.model.space() as u32 + 2);
        self.write_rack(place, &telegram[..length]);
    }

    // Numbers.

    /// Heads of one number, brought there by a sheet, and telegrams for others among theirs. A lone head mostly stays
    /// alone: of more heads there is less to be seen of each.
    fn rack_twins(&mut self) {
        let Some((first, head)) = self.some_head() else {
            return self.rack_before_any_head();
        };
        if self.model.line().heads().len() == 1 && self.random.chance(75) {
            return self.rack_some();
        }
        let node = head.number_in_force();
        for _ in 0..self.random.pick(&[1, 1, 2]) {
            let other = self.another_head(first);
            let number = Setting { address: rows::NODE_ADDRESS, value: u32::from(node) };
            self.load_settings(other, &[number]);
            self.write_line(format!("power {other}"));
        }
        self.advance();
        for _ in 0..1 + self.random.below(2) {
            let heads = self.model.line().heads().to_vec();
            let (twins, others): (Vec<Head>, Vec<Head>) =
                heads.into_iter().partition(|head| head.number_in_force() == node);
            let mut bytes = Vec::new();
            for _ in 0..1 + self.random.below(6) {
                let meant = if self.random.chance(50) { &twins } else { &others };
                bytes.extend(self.telegram_on(meant));
            }
            self.rack_with_room(&bytes);
        }
    }

    /// Stored and brought into force in one rack, which asks at both numbers before and after.
    fn rack_a_new_number(&mut self) {
        let Some((number, head)) = self.some_head() else {
            return self.rack_before_any_head();
        };
        self.open(number);
        let node = head.number_in_force();
        let other = self.some_head_or_a_new_one().number_in_force();
        let any = 1 + self.random.below(127) as u8;
        let new_node = self.random.pick(&[1, 127, other, any, any]);
        let read = |node| Telegram::new(READ, node, rows::NODE_ADDRESS, 0, 0);
        let mut telegrams = vec![
            Telegram::new(WRITE, node, rows::NODE_ADDRESS, 0, u32::from(new_node)),
            read(node),
            read(new_node),
            Telegram::new(self.random.pick(&[WRITE, WRITE, BROADCAST]), node, rows::SYSTEM_COMMAND, 0, 9),
            read(node),
            read(new_node),
        ];
        telegrams.retain(|_| self.random.chance(90));
        self.advance();
        let bytes: Vec<u8> = telegrams.iter().flat_map(Telegram::bytes).collect();
        self.rack_with_room(&bytes);
    }

    // Time.

    /// The monitor starts at the time of the rack if it is taken and a sound telegram is in it after the last restart.
    fn rack_and_tick(&mut self) {
        let Some((number, head)) = self.some_head() else {
            return self.rack_before_any_head();
        };
        self.open(number);
        let timeout = self.random.pick(&[1, 1, 2]);
        self.write_to(number, &[(rows::BUS_TIMEOUT_TIME, timeout)]);
        self.now = self.now.wrapping_add(self.random.pick(&[11, 50, 99]));
        let restart = Telegram::new(WRITE, head.number_in_force(), rows::SYSTEM_COMMAND, 0, 9).bytes();
        let bytes = match self.random.below(6) {
            0 => Vec::new(),
            1 => for_nobody(0).to_vec(),
            2 => damaged_for_nobody().to_vec(),
            3 => [restart, for_nobody(0)].concat(),
            4 => [for_nobody(0), restart, damaged_for_nobody()].concat(),
            _ => self.few_telegrams(),
        };
        match self.random.chance(50) {
            true => self.rack_with_room(&bytes),
            false => self.rack_twice_in_vain(),
        }
        self.tick_when_due(number);
        self.send_from(number, |author| author.read_functional_values());
    }

    // Lines that are none of the commands.

    /// Perhaps amid a telegram, of which they drop nothing.
    fn misspell_a_rack(&mut self) {
        let head = self.some_head_or_a_new_one();
        let telegram = simple_read(&mut Author { random: &mut self.random, head: &head });
        let begun = self.random.pick(&[0, 0, 1, 5, 9]);
        self.leave_a_gap();
        if begun > 0 {
            self.send(&telegram[..begun]);
        }
        for sort in 0..MISSPELLINGS {
            if self.random.chance(40) {
                let line = self.misspelt_rack(sort);
                self.write_line(line);
            }
        }
        self.send(&telegram[begun..]);
    }

    fn misspelt_rack(&mut self, sort: u32) -> String {
        let time = self.now;
        let place = self.random.pick(&[0, 0, 1, 10]);
        let digits = hex(&self.telegram());
        let beyond = (1_u64 << 32) + u64::from(self.random.pick(&[0, 0, place, time]));
        match sort {
            0 => self
                .random
                .pick(&["rack", "RACK 0 0", "racks 0 0", "racked 0 0", "rac 0 0", "rack0 0"])
                .to_string(),
            1 => format!("rack {time}"),
            2 => format!("rack {time} {digits}"),
            3 => format!("rack {time} {place} {digits} {}", self.random.pick(&["0", "00", "#", "001F20"])),
            4 => format!("rack {time} {place} {}", &digits[1..]),
            5 => format!("rack {time} {place} {digits}0"),
            6 => {
                let (before, after) = digits.split_at(self.random.below(20) as usize);
                let digit = self.random.pick(&["G", "g", "x", "-", "/", ":", "@", "`"]);
                format!("rack {time} {place} {before}{digit}{}", &after[1..])
            }
            7 => format!("rack {time} -{place}"),
            8 => format!("rack {time} -{place} {digits}"),
            9 => format!("rack {time} +{place}"),
            10 => format!("rack {time} +{place} {digits}"),
            11 => format!("rack {}{time} {place}", self.random.pick(&["-", "+"])),
            12 => format!("rack {beyond} {place}"),
            13 => format!("rack {beyond} {place} {digits}"),
            14 => format!("rack {time} {beyond}"),
            15 => format!("rack {time} {beyond} {digits}"),
            16 => format!("rack {time} {place},{digits}"),
            17 => {
                let places = ["x", "0x0", "1F", "0#", "1.0", "-", "18446744073709551616"];
                format!("rack {time} {}", self.random.pick(&places))
            }
            _ => format!("rack {time} {place} {}", self.random.pick(&["-0", "0x00", "#", "0", "00h", "-"])),
        }
    }
}

/// Sound, at a number that no head can have.
fn for_nobody(node: u8) -> [u8; TELEGRAM_LENGTH] {
    Telegram::new(READ, node, rows::NODE_ADDRESS, 0, 0).bytes()
}

fn damaged_for_nobody() -> [u8; TELEGRAM_LENGTH] {
    let mut bytes = for_nobody(0);
    bytes[9] = 0x40;
    bytes
}

/// Answered by every head of the number.
fn simple_read(author: &mut Author) -> [u8; TELEGRAM_LENGTH] {
    let node = author.head.number_in_force();
    let parameter = author.random.pick(&[
        rows::NODE_ADDRESS,
        rows::TARGET_WINDOW_1,
        rows::DEVICE_IDENTIFICATION,
        rows::ERROR_COUNT,
        rows::STATUS_WORD,
        rows::POSITION_VALUE,
    ]);
    Telegram::new(READ, node, parameter, 0, 0).bytes()
}

#[cfg(test)]
mod tests {
    use super::{FEW_HEADS, TELEGRAM_LENGTH};
    use crate::generator::script;
    use reference::head::Head;
    use reference::script::{meaning, Command, Meaning, Simulation};

    /// A rack, the answer to it, and what there was before it and after it.
    struct Step {
        length: usize,
        place: usize,
        space: usize,
        answer: String,
        before: Vec<Head>,
        after: Vec<Head>,
        /// Whether the next line is a send that would have completed what was gathered.
        is_completed: bool,
    }

    impl Step {
        fn is_taken(&self) -> bool {
            self.answer.starts_with("racked ")
        }

        fn number(&self, word: usize) -> usize {
            self.answer.split(' ').nth(word).and_then(|word| word.parse().ok()).unwrap_or(0)
        }

        fn replies(&self) -> usize {
            if self.is_taken() {
                self.number(1)
            } else {
                0
            }
        }

        fn collisions(&self) -> usize {
            if self.is_taken() {
                self.number(2)
            } else {
                0
            }
        }

        fn has_room(&self) -> bool {
            self.place <= self.space && self.length <= self.space - self.place
        }

        fn has_gathered(&self) -> bool {
            self.before.iter().any(|head| head.gathered_count() > 0)
        }

        fn brings_into_force(&self) -> bool {
            let numbers = |heads: &[Head]| heads.iter().map(Head::number_in_force).collect::<Vec<_>>();
            numbers(&self.before) != numbers(&self.after)
        }
    }

    fn steps_of_200_scripts() -> Vec<Step> {
        (1..=200).flat_map(|number| steps_of(&script(1, number).lines)).collect()
    }

    fn steps_of(lines: &[Vec<u8>]) -> Vec<Step> {
        let mut simulation = Simulation::new();
        let mut steps = Vec::new();
        for (number, line) in lines.iter().enumerate() {
            let before = simulation.line().heads().to_vec();
            let space = simulation.space();
            let answer = simulation.answer(line).unwrap_or_default();
            if let Meaning::Command(Command::Rack { place, bytes, .. }) = meaning(line) {
                let gathered = before.iter().map(Head::gathered_count).max().unwrap_or(0);
                let is_completed = lines.get(number + 1).is_some_and(|next| match meaning(next) {
                    Meaning::Command(Command::Send { bytes, .. }) => {
                        gathered > 0 && bytes.len() == TELEGRAM_LENGTH - gathered
                    }
                    _ => false,
                });
                let after = simulation.line().heads().to_vec();
                let (length, place) = (bytes.len(), place as usize);
                steps.push(Step { length, place, space, answer, before, after, is_completed });
            }
        }
        steps
    }

    fn assert_frequent(what: &str, least: usize, is_meant: impl Fn(&Step) -> bool, steps: &[Step]) {
        let count = steps.iter().filter(|step| is_meant(step)).count();
        assert!(count >= least, "{what}: {count}");
    }

    #[test]
    fn every_answer_is_frequent() {
        let steps = steps_of_200_scripts();
        assert_frequent("without HEX", 250, |step| step.is_taken() && step.length == 0, &steps);
        assert_frequent("silent", 100, |step| step.length > 0 && step.answer == "racked 0 0", &steps);
        for (replies, least) in [(1, 450), (2, 150), (3, 80), (4, 60), (5, 15), (64, 8)] {
            assert_frequent(&format!("{replies} replies"), least, |step| step.replies() == replies, &steps);
        }
        for (collisions, least) in [(1, 120), (2, 50), (3, 15)] {
            let is_meant = |step: &Step| step.collisions() == collisions;
            assert_frequent(&format!("{collisions} collisions"), least, is_meant, &steps);
        }
        let has_both = |step: &Step| step.replies() > 1 && step.collisions() > 0;
        assert_frequent("replies and collisions", 50, has_both, &steps);
        let is_15 = |step: &Step| step.answer == "refused 15";
        assert_frequent("15", 120, |step| is_15(step) && step.has_room(), &steps);
        assert_frequent("15 before 16", 80, |step| is_15(step) && !step.has_room(), &steps);
        assert_frequent("16", 250, |step| step.answer == "refused 16", &steps);
        assert_frequent("no head", 70, |step| step.before.is_empty(), &steps);
    }

    #[test]
    fn lengths_and_places_are_often_at_their_limits() {
        let steps = steps_of_200_scripts();
        for (length, least) in [(630, 2), (639, 12), (640, 18), (641, 8), (650, 20)] {
            assert_frequent(&format!("{length} bytes"), least, |step| step.length == length, &steps);
        }
        assert_frequent("far too long", 15, |step| step.length > 1_024, &steps);
        let ends_at = |beyond: usize, is_empty: bool| {
            move |step: &Step| {
                (step.length == 0) == is_empty && step.place + step.length == step.space + beyond
            }
        };
        for is_empty in [true, false] {
            assert_frequent("the last place", 120, ends_at(0, is_empty), &steps);
            assert_frequent("one beyond it", 35, ends_at(1, is_empty), &steps);
        }
        let is_amid = |step: &Step| step.replies() > 0 && step.place > 0;
        assert_frequent("not from 0 on", 500, is_amid, &steps);
        let is_far = |step: &Step| step.place > 65_535;
        assert_frequent("far beyond", 70, is_far, &steps);
    }

    #[test]
    fn bytes_are_often_gathered_before_a_rack() {
        let mut steps = steps_of_200_scripts();
        steps.retain(Step::has_gathered);
        let completed =
            |answer: &'static str| move |step: &Step| step.is_completed && step.answer.starts_with(answer);
        assert_frequent("dropped", 200, Step::is_taken, &steps);
        assert_frequent("dropped and completed", 90, completed("racked"), &steps);
        assert_frequent("refused 15 and completed", 20, completed("refused 15"), &steps);
        assert_frequent("refused 16 and completed", 20, completed("refused 16"), &steps);
        let beyond_the_eighth =
            |step: &Step| step.before.iter().skip(FEW_HEADS).any(|head| head.gathered_count() > 0);
        assert_frequent("many heads", 25, beyond_the_eighth, &steps);
        let is_out_of_step = |step: &Step| step.before.iter().any(|head| head.gathered_count() == 0);
        assert_frequent("out of step", 40, is_out_of_step, &steps);
    }

    #[test]
    fn numbers_often_come_into_force_within_a_rack() {
        let steps = steps_of_200_scripts();
        assert_frequent("a new number", 90, Step::brings_into_force, &steps);
        let is_asked = |step: &Step| step.brings_into_force() && step.replies() > 2;
        assert_frequent("and replies", 60, is_asked, &steps);
    }
}
