//! Alpha-numeric display, request (ix): heads go into mode 3 of 28h and out of it in every way, and in between
//! their set points are written and acknowledged, by word and by key.

use super::Generator;
use crate::sheets;
use crate::telegrams::Author;
use reference::rows;
use reference::sheet::{written, Setting};
use reference::telegram::{Telegram, BROADCAST, TELEGRAM_LENGTH, WRITE};

const SET_POINT_1_VALID: u16 = 1 << 2;
const SET_POINT_2_ACKNOWLEDGED: u16 = 1 << 6;
const CHARACTERS: u16 = 1 << 7;
const SET_POINT_2_VALID: u16 = 1 << 9;
const SET_POINT_1_ACKNOWLEDGED: u16 = 1 << 10;

const DISPLAY: [u32; 1] = [3];
const OTHER_MODES: [u32; 3] = [0, 1, 2];

impl Generator {
    /// Mostly the head stays in the mode, so that all else happens to it there too.
    pub(super) fn display(&mut self) {
        let Some((number, _)) = self.some_head() else {
            return self.refused();
        };
        if self.random.chance(12) {
            return self.go_in_and_out(number);
        }
        if !self.head(number).is_alpha_numeric() {
            self.leave_a_trace(number);
            self.enter(number);
        }
        for _ in 0..3 + self.random.below(6) {
            self.in_the_display(number);
        }
        if self.random.chance(15) {
            self.leave(number);
        }
        self.look(number);
    }

    // Into the mode and out of it.

    /// Nothing of what was there may come back. A read of FAh would clear the static bit too, so there is mostly
    /// none in between.
    fn go_in_and_out(&mut self, number: usize) {
        if self.head(number).is_alpha_numeric() {
            self.leave(number);
        }
        self.leave_a_trace(number);
        self.enter(number);
        if self.random.chance(20) {
            self.in_the_display(number);
        }
        self.leave(number);
        self.look(number);
    }

    /// What the step ends, and what it leaves: the word counts as taken in the next mode too.
    fn leave_a_trace(&mut self, number: usize) {
        self.write_valid_set_points(number, &[0, CHARACTERS]);
        if self.random.chance(30) {
            self.give_the_word_a_bit(number);
        }
    }

    /// Both set points, the second at the position, which sets the static bit where there is one. Besides being
    /// valid their words have one of these.
    fn write_valid_set_points(&mut self, number: usize, words: &[u16]) {
        self.send_from(number, |author| {
            let node = author.head.number_in_force();
            let word = SET_POINT_1_VALID | SET_POINT_2_VALID | author.random.pick(words);
            let position = author.head.actual() as u32;
            let write = |parameter, data| Telegram::new(WRITE, node, parameter, word, data).bytes();
            [write(rows::SET_POINT_1, 1_234), write(rows::SET_POINT_2, position)].concat()
        });
    }

    pub(super) fn enter(&mut self, number: usize) {
        if self.random.chance(15) {
            self.refuse_a_mode(number, &DISPLAY);
        }
        match self.random.chance(60) {
            true => self.write_mode(number, &DISPLAY),
            false => self.load_mode(number, &DISPLAY),
        }
    }

    /// Resets lead out, but never in.
    pub(super) fn leave(&mut self, number: usize) {
        match self.random.below(10) {
            0..=3 => self.write_mode(number, &OTHER_MODES),
            4..=6 => self.reset(number),
            _ => self.load_mode(number, &OTHER_MODES),
        }
    }

    pub(super) fn open(&mut self, number: usize) {
        if self.head(number).is_locked() {
            self.write_to(number, &[(rows::PROGRAMMING_MODE, 1)]);
        }
    }

    fn write_mode(&mut self, number: usize, modes: &[u32]) {
        self.open(number);
        let mode = self.random.pick(modes);
        self.write_to(number, &[(rows::OPERATING_MODE, mode)]);
    }

    fn load_mode(&mut self, number: usize, modes: &[u32]) {
        let settings = match self.random.chance(60) {
            true => vec![Setting { address: rows::OPERATING_MODE, value: self.random.pick(modes) }],
            false => sheets::with(&mut self.random, rows::OPERATING_MODE, modes),
        };
        self.load_settings(number, &settings);
    }

    fn reset(&mut self, number: usize) {
        self.open(number);
        match self.random.below(6) {
            0..=2 => self.write_to(number, &[(rows::SYSTEM_COMMAND, 2)]),
            3..=4 => self.write_but_keep_the_number(number, 1),
            // All heads leave together.
            _ => self.send_from(number, |author| {
                let node = author.random.byte();
                Telegram::new(BROADCAST, node, rows::SYSTEM_COMMAND, 0, 2).bytes().to_vec()
            }),
        }
    }

    /// A reset of 00h brings all heads to one number, where little of them is to be seen.
    fn write_but_keep_the_number(&mut self, number: usize, reset: u32) {
        self.write_to(number, &[(rows::SYSTEM_COMMAND, reset)]);
        if self.random.chance(70) {
            let node = u32::from(self.head(number).number_in_force());
            self.write_to(number, &[(rows::NODE_ADDRESS, node)]);
        }
    }

    // In the mode.

    fn in_the_display(&mut self, number: usize) {
        match self.random.below(40) {
            0..=9 => self.write_set_points(number),
            10..=20 => self.press(number),
            21..=23 => self.measure_near_set_point(number),
            24 => self.calibrate(number),
            25..=27 => self.give_the_word_a_bit(number),
            28..=32 => self.stay(number),
            33..=34 => self.send_from(number, set_point_that_is_not_taken),
            35..=36 => self.send_from(number, |author| author.read_functional_values()),
            37 => self.write_line(format!("power {number}")),
            _ => self.go_out_and_in(number),
        }
    }

    fn write_set_points(&mut self, number: usize) {
        self.send_from(number, |author| {
            (0..author.random.pick(&[1, 1, 2, 3])).flat_map(|_| set_point(author).bytes()).collect()
        });
        if self.random.chance(50) {
            self.look(number);
        }
    }

    fn measure_near_set_point(&mut self, number: usize) {
        let head = self.head(number);
        let measurement = self.measurement_near_set_point(&head);
        self.write_line(format!("measure {number} {measurement}"));
        self.look(number);
    }

    fn calibrate(&mut self, number: usize) {
        self.open(number);
        self.move_by_some(number);
        let command = self.random.pick(&[(rows::CALIBRATION_TRAVEL, 1), (rows::SYSTEM_COMMAND, 7)]);
        self.write_to(number, &[command]);
        self.look(number);
    }

    /// Left acknowledges one thing or another, or calibrates, which shows only at another measurement; star
    /// acknowledges or not.
    fn press(&mut self, number: usize) {
        if self.random.chance(40) {
            self.choose_the_keys(number);
        }
        if self.random.chance(40) {
            self.move_by_some(number);
        }
        if self.random.chance(35) {
            self.send_from(number, |author| (0..3).flat_map(|_| author.noisy()).collect());
        }
        if self.random.chance(60) {
            self.write_valid_set_points(number, &[0, 0, SET_POINT_1_ACKNOWLEDGED, SET_POINT_2_ACKNOWLEDGED]);
        }
        if self.random.chance(80) {
            self.keys_of(number, &[0, 0, 0, 0, 1, 2]);
        }
        self.keys_of(number, &[1, 1, 1, 2, 2, 2, 3, 3, 3, 3, 4, 4, 5, 6, 7]);
        self.look(number);
    }

    fn choose_the_keys(&mut self, number: usize) {
        self.open(number);
        let acknowledging = self.random.pick(&[0, 2, 2]);
        let calibrating = self.random.pick(&[0, 1, 1]);
        self.write_to(
            number,
            &[(rows::ACKNOWLEDGEMENT_SETTINGS, acknowledging), (rows::CALIBRATION_KEY_ENABLE, calibrating)],
        );
    }

    /// What was acknowledged must not be so afterwards.
    fn go_out_and_in(&mut self, number: usize) {
        if self.random.chance(70) {
            self.write_valid_set_points(number, &[SET_POINT_1_ACKNOWLEDGED | SET_POINT_2_ACKNOWLEDGED]);
        }
        self.leave(number);
        self.enter(number);
        self.look(number);
    }

    /// What leads neither in nor out, so that set points stay as they are.
    fn stay(&mut self, number: usize) {
        match self.random.below(8) {
            0..=1 => self.write_mode(number, &DISPLAY),
            2 => self.load_mode(number, &DISPLAY),
            3 => self.load_without_a_mode(number),
            4..=5 => {
                self.open(number);
                self.write_but_keep_the_number(number, 5);
            }
            _ => self.refuse_a_mode(number, &OTHER_MODES),
        }
        self.look(number);
    }

    fn load_without_a_mode(&mut self, number: usize) {
        let mut settings = sheets::settings(&mut self.random);
        settings.retain(|setting| setting.address != rows::OPERATING_MODE);
        self.load_settings(number, &settings);
    }

    /// Above the row, at a locked head, on a sheet that is refused, or as a broadcast that is not allowed.
    fn refuse_a_mode(&mut self, number: usize, modes: &[u32]) {
        let mode = self.random.pick(modes);
        match self.random.below(5) {
            0 => self.write_to(number, &[(rows::OPERATING_MODE, 4)]),
            1..=2 => {
                self.write_to(number, &[(rows::PROGRAMMING_MODE, 0), (rows::PROGRAMMING_CONFIGURATION, 1)]);
                self.write_to(number, &[(rows::OPERATING_MODE, mode), (rows::SYSTEM_COMMAND, 2)]);
                self.write_to(number, &[(rows::PROGRAMMING_MODE, 1), (rows::PROGRAMMING_CONFIGURATION, 0)]);
            }
            3 => {
                let mode = Setting { address: rows::OPERATING_MODE, value: mode };
                let refused =
                    self.random.pick(&[(0x31, 10_000), (rows::ACKNOWLEDGEMENT_SETTINGS, 1), (0xD2, 5)]);
                self.load(number, &written(&[mode, Setting { address: refused.0, value: refused.1 }]));
            }
            _ => self.send_from(number, |author| {
                let node = author.head.number_in_force();
                Telegram::new(BROADCAST, node, rows::OPERATING_MODE, 0, mode).bytes().to_vec()
            }),
        }
    }

    /// The word and mostly the position; FAh and FEh also clear the static bit and release a kept value.
    fn look(&mut self, number: usize) {
        self.send_from(number, |author| match author.random.below(5) {
            0 => author.read_functional_values(),
            1 => author.reads([(rows::STATUS_WORD, 0)]),
            2 => author.reads([(rows::POSITION_VALUE, 0)]),
            _ => author.reads([(rows::DIFFERENTIAL_VALUE, 0)]),
        });
    }
}

fn set_point(author: &mut Author) -> Telegram {
    match author.random.chance(50) {
        true => author.write_set_point_1(),
        false => author.write_set_point_2(),
    }
}

/// Damaged, a broadcast, for another node or with a command that there is none of; its word would acknowledge.
fn set_point_that_is_not_taken(author: &mut Author) -> Vec<u8> {
    let telegram = set_point(author);
    let node = author.head.number_in_force();
    let sent = |command, node| {
        Telegram::new(command, node, telegram.parameter(), telegram.control_word(), telegram.data()).bytes()
    };
    let bytes: [u8; TELEGRAM_LENGTH] = match author.random.below(4) {
        0 => sent(BROADCAST, node),
        1 => sent(WRITE, node ^ 1),
        2 => sent(3, node),
        _ => {
            let mut bytes = sent(WRITE, node);
            bytes[9] ^= 1 << author.random.below(8);
            bytes
        }
    };
    [bytes.to_vec(), author.reads([(rows::DEVICE_IDENTIFICATION, 0)])].concat()
}

#[cfg(test)]
mod tests {
    use super::*;
    use crate::generator::script;
    use reference::head::{Head, KEY_LEFT, KEY_STAR};
    use reference::script::{meaning, Command, Meaning, Simulation};

    const ACKNOWLEDGED: u16 = 1 << 3 | 1 << 5;
    const STATIC: u16 = 1 << 4;
    const ERROR: u16 = 1 << 7;
    const VALID: u16 = 1 << 2 | 1 << 10;

    /// A command of a script, and a head before it and after it.
    struct Step {
        command: Command,
        number: u32,
        before: Head,
        after: Head,
    }

    impl Step {
        fn enters(&self) -> bool {
            !self.before.is_alpha_numeric() && self.after.is_alpha_numeric()
        }

        fn leaves(&self) -> bool {
            self.before.is_alpha_numeric() && !self.after.is_alpha_numeric()
        }

        fn stays(&self) -> bool {
            self.before.is_alpha_numeric() && self.after.is_alpha_numeric()
        }

        /// Whether it is nothing but one telegram of this sort, for this head or for all.
        fn is(&self, command: u8, parameter: u8, value: Option<u32>) -> bool {
            let (Command::Send { bytes, .. } | Command::Rack { bytes, .. }) = &self.command else {
                return false;
            };
            let Ok(bytes) = <[u8; TELEGRAM_LENGTH]>::try_from(bytes.as_slice()) else {
                return false;
            };
            let telegram = Telegram::received(bytes);
            (telegram.command(), telegram.parameter()) == (command, parameter)
                && (telegram.is_broadcast() || telegram.node() == self.before.number_in_force())
                && value.is_none_or(|value| telegram.data() == value)
        }

        fn is_load(&self) -> bool {
            matches!(self.command, Command::Load { head, .. } if head == self.number)
        }

        fn is_power(&self) -> bool {
            matches!(self.command, Command::Power { head } if head == self.number)
        }

        fn is_measurement(&self) -> bool {
            matches!(self.command, Command::Measure { head, .. } if head == self.number)
        }

        /// Whether these keys are newly pressed and no other.
        fn presses(&self, keys: u8) -> bool {
            self.after.keys() & !self.before.keys() == keys
        }

        fn acknowledges(&self) -> bool {
            self.stays() && self.after.status_word() & !self.before.status_word() & ACKNOWLEDGED != 0
        }

        fn withdraws(&self) -> bool {
            self.stays() && self.before.status_word() & !self.after.status_word() & ACKNOWLEDGED != 0
        }
    }

    fn steps_of_200_scripts() -> Vec<Step> {
        (1..=200).flat_map(steps_of).collect()
    }

    /// Those of all heads that are there, so that a line may be as many steps.
    fn steps_of(number: u64) -> Vec<Step> {
        let mut simulation = Simulation::new();
        let mut steps = Vec::new();
        for line in script(1, number).lines {
            let heads_before = simulation.line().heads().to_vec();
            simulation.answer(&line);
            if let Meaning::Command(command) = meaning(&line) {
                let pairs = heads_before.into_iter().zip(simulation.line().heads());
                steps.extend((0..).zip(pairs).map(|(number, (before, after))| {
                    let command = command.clone();
                    Step { command, number, before, after: after.clone() }
                }));
            }
        }
        steps
    }

    fn assert_frequent(what: &str, least: usize, is_meant: impl Fn(&Step) -> bool, steps: &[Step]) {
        let count = steps.iter().filter(|step| is_meant(step)).count();
        assert!(count >= least, "{what}: {count}");
    }

    #[test]
    fn a_third_of_the_scripts_is_in_the_mode_for_a_third_of_the_time_and_the_rest_is_not() {
        let is_much = |number: &u64| {
            let steps = steps_of(*number);
            3 * steps.iter().filter(|step| step.after.is_alpha_numeric()).count() >= steps.len()
        };
        let count = (1..=200).filter(is_much).count();
        assert!((60..=100).contains(&count), "{count}");
    }

    #[test]
    fn every_way_into_the_mode_and_out_of_it_is_frequent() {
        let mut steps = steps_of_200_scripts();
        steps.retain(|step| step.before.status_word() & VALID != 0);
        let reset = |value| move |step: &Step| step.is(WRITE, rows::SYSTEM_COMMAND, Some(value));
        let to_all = |step: &Step| step.is(BROADCAST, rows::SYSTEM_COMMAND, Some(2));
        let write = |step: &Step| step.is(WRITE, rows::OPERATING_MODE, None);
        assert_frequent("in by write", 300, |step| step.enters() && write(step), &steps);
        assert_frequent("in by sheet", 200, |step| step.enters() && step.is_load(), &steps);
        assert_frequent("out by write", 120, |step| step.leaves() && write(step), &steps);
        assert_frequent("out by A0h 1", 25, |step| step.leaves() && reset(1)(step), &steps);
        assert_frequent("out by A0h 2", 50, |step| step.leaves() && reset(2)(step), &steps);
        assert_frequent("out by broadcast", 20, |step| step.leaves() && to_all(step), &steps);
        assert_frequent("out by sheet", 120, |step| step.leaves() && step.is_load(), &steps);
        let is_static = |step: &Step| step.before.status_word() & STATIC != 0;
        assert_frequent("static", 500, |step| step.enters() && is_static(step), &steps);
        let is_acknowledged = |step: &Step| step.before.status_word() & ACKNOWLEDGED != 0;
        assert_frequent("acknowledged", 250, |step| step.leaves() && is_acknowledged(step), &steps);
    }

    #[test]
    fn what_leads_neither_in_nor_out_is_frequent() {
        let mut steps = steps_of_200_scripts();
        steps.retain(|step| step.stays() && step.before.status_word() & VALID != 0);
        let is_3 = |step: &Step| step.is(WRITE, rows::OPERATING_MODE, Some(3));
        let is_5 = |step: &Step| step.is(WRITE, rows::SYSTEM_COMMAND, Some(5));
        assert_frequent("3 over 3", 60, is_3, &steps);
        assert_frequent("A0h 5", 50, is_5, &steps);
        assert_frequent("sheets", 250, Step::is_load, &steps);
        assert_frequent("restarts", 100, Step::is_power, &steps);
        assert_frequent("measurements", 400, Step::is_measurement, &steps);
    }

    #[test]
    fn acknowledgements_are_often_given_by_every_means_and_often_withdrawn() {
        let steps = steps_of_200_scripts();
        let of = |parameter| move |step: &Step| step.is(WRITE, parameter, None);
        for parameter in [rows::SET_POINT_1, rows::SET_POINT_2] {
            assert_frequent("by word", 50, |step| of(parameter)(step) && step.acknowledges(), &steps);
            assert_frequent("withdrawn", 50, |step| of(parameter)(step) && step.withdraws(), &steps);
        }
        let has_error = |step: &Step| step.before.status_word() & ERROR != 0;
        let given = |keys| move |step: &Step| step.presses(keys) && step.acknowledges();
        assert_frequent("by left", 100, given(KEY_LEFT), &steps);
        assert_frequent("by star", 80, given(KEY_STAR), &steps);
        assert_frequent("by both", 90, given(KEY_LEFT | KEY_STAR), &steps);
        let is_star = |step: &Step| given(KEY_STAR)(step) || given(KEY_LEFT | KEY_STAR)(step);
        assert_frequent("by star with an error", 50, |step| has_error(step) && is_star(step), &steps);
        let calibrates = |step: &Step| step.stays() && step.before.position() != step.after.position();
        let is_left = |step: &Step| step.presses(KEY_LEFT) || step.presses(KEY_LEFT | KEY_STAR);
        assert_frequent("left calibrates", 30, |step| is_left(step) && calibrates(step), &steps);
    }
}
