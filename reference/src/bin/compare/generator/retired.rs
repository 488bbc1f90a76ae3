//! Incremental measurement, which is retired, request (xii): up is pressed where it once switched, 35h gets what it
//! once took, over the line and on sheets, and heads are brought over, of which no script can have an older one.

use super::Generator;
use crate::sheets;
use crate::telegrams::Author;
use reference::rows;
use reference::sheet::Setting;
use reference::telegram::{Telegram, BROADCAST, WRITE};

/// Some of their bytes alone would be 0.
const VALUES_OF_35H: [u32; 12] = [0, 0, 0, 1, 1, 1, 1, 2, 256, 1 << 16, 1 << 24, u32::MAX];

/// What shows whether up has done anything, and whether 35h is 0.
const TELLING: [u8; 4] =
    [rows::POSITION_VALUE, rows::STATUS_WORD, rows::INCREMENTAL_KEY_ENABLE, rows::DIFFERENTIAL_VALUE];

impl Generator {
    pub(super) fn retired(&mut self) {
        let Some((number, _)) = self.some_head() else {
            return self.bring_no_head();
        };
        match self.random.below(20) {
            0..=5 => self.press_up_away_from_zero(number),
            6..=8 => self.write_35h(number),
            9 => self.refuse_35h_by_the_lock(number),
            10..=11 => self.load_35h(number),
            12 => self.reset_35h(number),
            13..=16 => self.bring_amid(number),
            17 => self.bring_after_an_offer(),
            18 => self.bring_no_head(),
            _ => self.misspell_a_bring(number),
        }
    }

    // Up.

    /// Sometimes in mode 3, and sometimes with a number on offer, so that it adopts.
    fn press_up_away_from_zero(&mut self, number: usize) {
        if self.random.chance(25) && !self.head(number).is_alpha_numeric() {
            self.enter(number);
        }
        if self.random.chance(40) {
            self.come_near_the_set_point(number);
        }
        self.move_by_some(number);
        if self.random.chance(15) {
            self.offer(number);
        }
        for _ in 0..1 + self.random.below(3) {
            self.stroke_or_press_up(number);
            if self.random.chance(60) {
                self.move_by_some(number);
            }
            self.send_from(number, telling_reads);
        }
    }

    fn stroke_or_press_up(&mut self, number: usize) {
        match self.random.chance(30) {
            true => self.stroke_up(number),
            false => self.press_up(number),
        }
    }

    // 35h over the line.

    fn write_35h(&mut self, number: usize) {
        if self.random.chance(70) {
            self.open(number);
        }
        self.send_from(number, |author| {
            let mut bytes = writes_of_35h(author);
            bytes.extend(author.reads([(rows::INCREMENTAL_KEY_ENABLE, 0), (rows::INPUT_ERRORS, 0)]));
            bytes
        });
        if self.random.chance(40) {
            self.move_by_some(number);
            self.stroke_or_press_up(number);
            self.send_from(number, telling_reads);
        }
    }

    /// The lock goes before the range, also for the one value that it has.
    fn refuse_35h_by_the_lock(&mut self, number: usize) {
        self.write_to(number, &[(rows::PROGRAMMING_MODE, 0), (rows::PROGRAMMING_CONFIGURATION, 1)]);
        self.send_from(number, writes_of_35h);
        self.write_to(number, &[(rows::PROGRAMMING_MODE, 1), (rows::PROGRAMMING_CONFIGURATION, 0)]);
    }

    fn reset_35h(&mut self, number: usize) {
        self.open(number);
        let command = self.random.pick(&[1, 2, 2, 5, 9]);
        let node = u32::from(self.head(number).number_in_force());
        self.write_to(number, &[(rows::SYSTEM_COMMAND, command), (rows::NODE_ADDRESS, node)]);
        self.move_by_some(number);
        self.stroke_or_press_up(number);
        self.send_from(number, telling_reads);
    }

    // 35h on sheets.

    /// 0 and 1 are loaded as 0, all else is refused and so is the rest of the sheet.
    fn load_35h(&mut self, number: usize) {
        for _ in 0..1 + self.random.below(3) {
            let value = self.random.pick(&[0, 1, 1, 1, 2, 2, 3, 257, 1 << 24, 1 << 31 | 1, u32::MAX]);
            let settings = match self.random.chance(50) {
                true => vec![Setting { address: rows::INCREMENTAL_KEY_ENABLE, value }],
                false => sheets::with(&mut self.random, rows::INCREMENTAL_KEY_ENABLE, &[value]),
            };
            self.load_settings(number, &settings);
            if self.random.chance(50) {
                self.send_from(number, telling_reads);
            }
        }
        self.look_at_rows(number);
        if self.random.chance(50) {
            self.stroke_or_press_up(number);
            self.send_from(number, telling_reads);
        }
    }

    // Bringing heads over.

    fn bring(&mut self, head: impl std::fmt::Display) {
        self.write_line(format!("bring {head}"));
    }

    /// All that a head has is there afterwards too.
    fn bring_amid(&mut self, number: usize) {
        match self.random.below(10) {
            0..=2 => self.come_near_the_set_point(number),
            3..=5 if !self.head(number).is_alpha_numeric() => self.enter(number),
            _ => {}
        }
        for _ in 0..self.random.below(3) {
            self.give_the_word_a_bit(number);
        }
        let node = self.head(number).number_in_force();
        let past = self.past_of_a_call(number);
        for _ in 0..self.random.pick(&[1, 1, 1, 2]) {
            self.bring(number);
        }
        self.look_for(past, number);
        self.read_at(number, node);
        if self.random.chance(30) {
            self.look_at_rows(number);
        }
    }

    /// Up shows whether offer and keys are what they were.
    fn bring_after_an_offer(&mut self) {
        let Some(number) = self.head_for_auto_id() else {
            return;
        };
        if self.random.chance(30) {
            self.keys_of(number, &[2, 4, 6]);
        }
        self.offer(number);
        let node = self.head(number).number_in_force();
        self.bring(number);
        self.keys_of(number, &[4, 4, 5, 6]);
        self.read_at(number, node);
    }

    /// Between the bytes of a telegram, or where there is no space.
    pub(super) fn bring_somewhere(&mut self) {
        match self.some_head() {
            Some((number, _)) => self.bring(number),
            None => self.bring_no_head(),
        }
    }

    pub(super) fn bring_no_head(&mut self) {
        for _ in 0..1 + self.random.below(3) {
            let head = self.missing_head();
            self.bring(head);
        }
    }

    /// A word too few, a word too many, a number that does not fit or has a sign.
    fn misspell_a_bring(&mut self, number: usize) {
        for _ in 0..1 + self.random.below(3) {
            let line = self.misspelt_bring(number);
            self.write_line(line);
        }
    }

    fn misspelt_bring(&mut self, number: usize) -> String {
        let beyond = (1_u64 << 32) + number as u64;
        match self.random.below(8) {
            0 => "bring".to_string(),
            1 => format!("bring {number} {}", self.random.pick(&["0", "00", "#", "35"])),
            2 => format!("bring {beyond}"),
            3 => format!("bring -{number}"),
            4 => format!("bring +{number}"),
            5 => format!("bring {number}{}", self.random.pick(&["#", "h", ",", ".0"])),
            6 => format!("bring{number}"),
            _ => format!("{} {number}", self.random.pick(&["Bring", "BRING", "brings", "brin", "brought"])),
        }
    }
}

fn telling_reads(author: &mut Author) -> Vec<u8> {
    let first = author.random.pick(&TELLING);
    let asked = [first, author.random.pick(&TELLING), author.random.pick(&TELLING)];
    author.reads(asked.map(|parameter| (parameter, 0)))
}

/// Mostly at the head's own number; some are broadcast, which is silent.
fn writes_of_35h(author: &mut Author) -> Vec<u8> {
    let node = author.head.number_in_force();
    (0..1 + author.random.below(4))
        .flat_map(|_| {
            let command = if author.random.chance(20) { BROADCAST } else { WRITE };
            let value = author.random.pick(&VALUES_OF_35H);
            Telegram::new(command, node, rows::INCREMENTAL_KEY_ENABLE, 0, value).bytes()
        })
        .collect()
}

#[cfg(test)]
mod tests {
    use super::*;
    use crate::generator::script;
    use reference::head::{Head, KEY_UP};
    use reference::script::{meaning, Command, Meaning, Simulation};
    use reference::sheet::Reader;
    use reference::telegram::{READ, TELEGRAM_LENGTH};

    const STATIC: u16 = 1 << 4;
    const FROZEN: u16 = 1 << 8;

    /// A command of a script that names a head, the answer to it, and the head before it.
    struct Step {
        command: Command,
        answer: String,
        before: Option<Head>,
    }

    fn steps_of_200_scripts() -> Vec<Step> {
        (1..=200).flat_map(|number| steps_of(&script(1, number).lines)).collect()
    }

    fn steps_of(lines: &[Vec<u8>]) -> Vec<Step> {
        let mut simulation = Simulation::new();
        let mut steps = Vec::new();
        for line in lines {
            let before = simulation.clone();
            let answer = simulation.answer(line).unwrap_or_default();
            let Meaning::Command(command) = meaning(line) else {
                continue;
            };
            let (Command::Bring { head } | Command::Keys { head, .. } | Command::Load { head, .. }) = command
            else {
                continue;
            };
            let before = before.line().heads().get(head as usize).cloned();
            steps.push(Step { command, answer, before });
        }
        steps
    }

    fn assert_frequent(what: &str, least: usize, is_meant: impl Fn(&Step) -> bool, steps: &[Step]) {
        let count = steps.iter().filter(|step| is_meant(step)).count();
        assert!(count >= least, "{what}: {count}");
    }

    #[test]
    fn heads_of_every_kind_are_often_brought_over() {
        let mut steps = steps_of_200_scripts();
        steps.retain(|step| matches!(step.command, Command::Bring { .. }));
        assert_frequent("refused", 170, |step| step.answer == "refused 3", &steps);
        steps.retain(|step| step.answer == "ok");
        assert_frequent("brought over", 250, |_| true, &steps);
        let of = |is_meant: fn(&Head) -> bool| move |step: &Step| step.before.as_ref().is_some_and(is_meant);
        assert_frequent("amid a telegram", 90, of(|head| head.gathered_count() > 0), &steps);
        assert_frequent("frozen", 50, of(|head| head.status_word() & FROZEN != 0), &steps);
        assert_frequent("static", 35, of(|head| head.status_word() & STATIC != 0), &steps);
        assert_frequent("with keys", 100, of(|head| head.keys() != 0), &steps);
        assert_frequent("with an offer", 35, of(|head| head.number_on_offer().is_some()), &steps);
        assert_frequent("in mode 3", 50, of(Head::is_alpha_numeric), &steps);
        assert_frequent("with a number stored", 40, of(has_another_number), &steps);
    }

    fn has_another_number(head: &Head) -> bool {
        head.value(rows::NODE_ADDRESS) != i32::from(head.number_in_force())
    }

    #[test]
    fn up_is_often_pressed_where_it_once_switched() {
        let mut steps = steps_of_200_scripts();
        steps.retain(|step| match (&step.command, &step.before) {
            (Command::Keys { state, .. }, Some(head)) => {
                let newly_pressed = *state as u8 & !head.keys();
                let is_away_from_zero = head.position() != 0;
                newly_pressed & KEY_UP != 0 && head.number_on_offer().is_none() && is_away_from_zero
            }
            _ => false,
        });
        assert_frequent("in all", 1_500, |_| true, &steps);
        let is_in_mode_3 = |step: &Step| step.before.as_ref().is_some_and(Head::is_alpha_numeric);
        assert_frequent("in mode 3", 300, is_in_mode_3, &steps);
        let is_near = |step: &Step| step.before.as_ref().is_some_and(|head| head.status_word() & 0x0400 != 0);
        assert_frequent("with a set point", 300, is_near, &steps);
    }

    #[test]
    fn sheets_often_have_35h_at_0_at_1_and_above() {
        let mut steps = steps_of_200_scripts();
        let value = |step: &Step| match &step.command {
            Command::Load { sheet, .. } => {
                let row = |setting: &Setting| setting.address == rows::INCREMENTAL_KEY_ENABLE;
                Reader::new(sheet).ok()?.find(row).map(|setting| setting.value)
            }
            _ => None,
        };
        steps.retain(|step| step.before.is_some());
        let loads = |wanted| move |step: &Step| value(step) == Some(wanted) && step.answer == "ok";
        assert_frequent("0", 300, loads(0), &steps);
        assert_frequent("1", 300, loads(1), &steps);
        let is_refused = |step: &Step| step.answer == "refused 13";
        assert_frequent("2", 45, |step| value(step) == Some(2) && is_refused(step), &steps);
        assert_frequent("more", 45, |step| value(step) > Some(2) && is_refused(step), &steps);
    }

    /// The answers to telegrams of 35h: what the head does with each, byte by byte.
    #[test]
    fn every_answer_about_35h_is_frequent() {
        let mut counts = [0; 5];
        for number in 1..=200 {
            let mut simulation = Simulation::new();
            for line in script(1, number).lines {
                if let Meaning::Command(Command::Send { bytes, .. } | Command::Rack { bytes, .. }) =
                    meaning(&line)
                {
                    count_telegrams(&simulation, &bytes, &mut counts);
                }
                simulation.answer(&line);
            }
        }
        let least = [800, 100, 200, 70, 60];
        assert!(counts.iter().zip(least).all(|(&count, least)| count >= least), "{counts:?}");
    }

    /// Reads, writes that are obeyed, those out of range, locked ones and broadcasts, each for a head that is there.
    fn count_telegrams(simulation: &Simulation, bytes: &[u8], counts: &mut [usize; 5]) {
        for telegram in bytes.chunks_exact(TELEGRAM_LENGTH) {
            let telegram = Telegram::received(telegram.try_into().expect("ten bytes"));
            let heads = simulation.line().heads();
            let head = heads.iter().find(|head| head.number_in_force() == telegram.node());
            let (Some(head), 0, rows::INCREMENTAL_KEY_ENABLE) =
                (head, telegram.exclusive_or(), telegram.parameter())
            else {
                continue;
            };
            let kind = match telegram.command() {
                READ => 0,
                WRITE if head.is_locked() => 3,
                WRITE if telegram.data() == 0 => 1,
                WRITE => 2,
                BROADCAST => 4,
                _ => continue,
            };
            counts[kind] += 1;
        }
    }
}
