//! Auto-ID, section 6.8 of the manual: a number is offered to the heads at 31, up is pressed at one of them, and
//! what came of it is asked for at the old number and at the new one.

use super::Generator;
use crate::telegrams::Author;
use reference::head::{Head, FACTORY_NODE, KEY_UP};
use reference::rows;
use reference::telegram::{Telegram, BROADCAST, READ, TELEGRAM_LENGTH, WRITE};

const ACKNOWLEDGE: u16 = 1 << 5;

/// What a head has of its past when up is pressed; a restart leaves nothing of it.
pub(super) enum Past {
    Damaged,
    /// The bytes that would complete a telegram.
    Begun(Vec<u8>),
    Acknowledged,
    Monitored,
    Frozen,
    Any,
}

impl Generator {
    pub(super) fn auto_id(&mut self) {
        let Some(number) = self.head_for_auto_id() else {
            return self.refused();
        };
        for _ in 0..self.random.below(3) {
            self.set_the_scene(number);
        }
        self.offer(number);
        for _ in 0..self.random.pick(&[0, 1, 1, 1, 2]) {
            self.after_the_offer(number);
        }
        let node = self.head(number).number_in_force();
        let past = self.some_past(number);
        self.press_up(number);
        self.look_for(past, number);
        self.read_at(number, node);
        if let (Some(other), true) = (self.head_with_an_offer(), self.random.chance(70)) {
            self.press_up(other);
        }
    }

    /// Mostly a head at 31: one that is there, or one that is brought there, perhaps to others. A head that is
    /// not there refuses the offer.
    pub(super) fn head_for_auto_id(&mut self) -> Option<usize> {
        let (some, _) = self.some_head()?;
        let at_31 = self.heads_where(|head| head.number_in_force() == FACTORY_NODE);
        match self.random.below(10) {
            0 => Some(some),
            1..=7 if !at_31.is_empty() => Some(self.random.pick(&at_31)),
            _ => {
                self.bring_to_31(some);
                Some(some)
            }
        }
    }

    fn head_with_an_offer(&mut self) -> Option<usize> {
        let offered = self.heads_where(|head| head.number_on_offer().is_some());
        (!offered.is_empty()).then(|| self.random.pick(&offered))
    }

    fn heads_where(&self, is_meant: impl Fn(&Head) -> bool) -> Vec<usize> {
        let heads = self.model.line().heads().iter().enumerate();
        heads.filter(|(_, head)| is_meant(head)).map(|(number, _)| number).collect()
    }

    fn bring_to_31(&mut self, number: usize) {
        let home = match self.random.below(10) {
            0 => (rows::SYSTEM_COMMAND, 1),
            1..=2 => (rows::SYSTEM_COMMAND, 5),
            _ => (rows::NODE_ADDRESS, 31),
        };
        self.write_to(number, &[(rows::PROGRAMMING_MODE, 1), home, (rows::SYSTEM_COMMAND, 9)]);
    }

    /// For heads at 31 that are still together: the number goes to all, and one of them adopts it.
    pub(super) fn part_by_key(&mut self, twin: usize) {
        self.offer(twin);
        self.press_up(twin);
    }

    // Before the offer.

    /// Something that the status word of the reply shows, that the restart keeps, or that might be taken for a
    /// reason to refuse.
    fn set_the_scene(&mut self, number: usize) {
        match self.random.below(14) {
            0..=1 => self.send_from(number, |author| damaged(author, 3)),
            2 => self.send_from(number, |author| author.write_set_point_2().bytes().to_vec()),
            3 => self.send_from(number, |author| author.write_set_point_1().bytes().to_vec()),
            4 => self.write_one_of(number, rows::BUS_TIMEOUT_TIME, &[1, 1, 2, 3]),
            5 => self.write_one_of(number, rows::INCREMENTAL_KEY_ENABLE, &[0, 1]),
            6 => self.stroke_up(number),
            7 => self.write_to(number, &[(rows::PROGRAMMING_MODE, 0), (rows::PROGRAMMING_CONFIGURATION, 1)]),
            8 => self.write_one_of(number, rows::NODE_ADDRESS, &[1, 5, 30, 31, 32, 127]),
            9 => self.write_one_of(number, rows::CALIBRATION_VALUE, &[1, 50, 700, 99_999]),
            // Held when the offer comes.
            10 => self.keys_of(number, &[1, 2, 4, 4, 6]),
            11 => self.write_one_of(number, rows::CALIBRATION_KEY_ENABLE, &[0, 0, 1]),
            12 => self.write_one_of(number, rows::DISPLAY_DIVISOR, &[1, 2, 3]),
            _ => self.move_by_some(number),
        }
    }

    fn write_one_of(&mut self, number: usize, parameter: u8, values: &[u32]) {
        let value = self.random.pick(values);
        self.write_to(number, &[(parameter, value)]);
    }

    // The offer.

    pub(super) fn offer(&mut self, number: usize) {
        if self.random.chance(15) {
            return self.offer_to_monitored(number);
        }
        self.send_from(number, |author| {
            let offer = legal(author);
            // It is sound, so that the damaged ones about it are not three in a row.
            match author.random.below(12) {
                0 => [damaged(author, 2), offer, damaged(author, 1)].concat(),
                1 => [damaged(author, 1), offer, damaged(author, 2)].concat(),
                2 => [offer, author.telegram().to_vec()].concat(),
                3 => [offer, illegal(author)].concat(),
                4 => [offer, idle(author)].concat(),
                _ => offer,
            }
        });
    }

    /// The monitor was started by another telegram some time before, or was stopped by a restart.
    fn offer_to_monitored(&mut self, number: usize) {
        match self.random.chance(50) {
            true => self.write_one_of(number, rows::BUS_TIMEOUT_TIME, &[1, 2]),
            false => self.write_to(number, &[(rows::BUS_TIMEOUT_TIME, 1), (rows::SYSTEM_COMMAND, 9)]),
        }
        self.now = self.now.wrapping_add(self.random.pick(&[11, 60, 99]));
        self.send_from(number, |author| match author.random.chance(75) {
            true => legal(author),
            false => illegal(author),
        });
        self.tick_when_due(number);
    }

    /// About the moment when the timeout is due.
    pub(super) fn tick_when_due(&mut self, number: usize) {
        let head = self.head(number);
        let timeout = head.value(rows::BUS_TIMEOUT_TIME) as u32 * 100;
        let started_at = head.monitor_started_at().unwrap_or(self.now);
        let time = started_at.wrapping_add(timeout).wrapping_add(self.random.pick(&[u32::MAX, 0, 0]));
        self.write_line(format!("tick {time}"));
        self.now = time;
    }

    // Between the offer and the key.

    /// What drops the offer, what replaces it, and much that does neither.
    fn after_the_offer(&mut self, number: usize) {
        match self.random.below(29) {
            0..=3 => self.send_from(number, illegal),
            4..=5 => self.offer(number),
            6..=11 => self.send_from(number, idle),
            12..=14 => self.restart(number),
            15..=16 => self.write_what_leaves_it(number),
            17 => self.set_the_scene(number),
            18..=19 => self.press_others(number),
            20..=22 => self.press_in_short_space(number),
            23 => self.tick_when_due(number),
            24..=25 => self.move_by_some(number),
            26..=27 => self.press_up_somewhere(),
            _ => self.send_telegrams(),
        }
    }

    fn restart(&mut self, number: usize) {
        match self.random.below(4) {
            0 => self.write_to(number, &[(rows::SYSTEM_COMMAND, 9)]),
            1 => {
                let to_all = Telegram::new(BROADCAST, 0, rows::SYSTEM_COMMAND, 0, 9).bytes();
                self.send_from(number, |_| to_all.to_vec());
            }
            // Of whatever head: the others keep their offers.
            2 => self.power(),
            _ => self.write_line(format!("power {number}")),
        }
    }

    fn write_what_leaves_it(&mut self, number: usize) {
        let command = self.random.pick(&[1, 2, 5, 5, 7]);
        let node = self.random.pick(&[1, 12, 31]);
        self.write_to(
            number,
            &[
                (rows::PROGRAMMING_MODE, 1),
                (rows::SYSTEM_COMMAND, command),
                (rows::SYSTEM_COMMAND, 8),
                (rows::NODE_ADDRESS, node),
            ],
        );
    }

    /// Left and star anew, up stays as it was; or a key state that there is none of.
    fn press_others(&mut self, number: usize) {
        let up = u32::from(self.head(number).keys() & KEY_UP);
        self.keys_of(number, &[up, up | 1, up | 2, up | 3, 12]);
    }

    /// Refused, and nothing has changed when there is space again; a missing head and a key state above 7 are
    /// refused before that.
    fn press_in_short_space(&mut self, number: usize) {
        let size = self.random.pick(&[0, 1, 9, 9, 9]);
        self.write_line(format!("space {size}"));
        self.keys_of(number, &[0, 1, 2, 4, 4, 4, 5, 7]);
        if self.random.chance(60) {
            self.keys_of(number, &[8, 9, 12, 255]);
        }
        if self.random.chance(55) {
            let missing = self.model.line().heads().len();
            self.keys_of(missing, &[0, 4, 8]);
        }
        let size = self.random.pick(&[10, 10, 11, 64]);
        self.write_line(format!("space {size}"));
    }

    pub(super) fn some_past(&mut self, number: usize) -> Past {
        match self.random.below(16) {
            0..=1 => self.damage_two(number),
            2..=3 => self.begin_telegram(number),
            4..=5 => {
                self.acknowledge(number);
                Past::Acknowledged
            }
            6..=7 => {
                self.write_one_of(number, rows::BUS_TIMEOUT_TIME, &[1, 2]);
                Past::Monitored
            }
            8 => {
                self.write_to(number, &[(rows::FREEZE, 1)]);
                Past::Frozen
            }
            // An error that left acknowledges, so that it does not calibrate, which would show.
            9..=11 => {
                self.send_from(number, |author| damaged(author, 3));
                self.move_by_some(number);
                Past::Any
            }
            _ => Past::Any,
        }
    }

    pub(super) fn damage_two(&mut self, number: usize) -> Past {
        self.send_from(number, |author| damaged(author, 2));
        Past::Damaged
    }

    /// Of a read at the number that the head has after the key, so that it would answer.
    pub(super) fn begin_telegram(&mut self, number: usize) -> Past {
        let head = self.head(number);
        let node = head.number_on_offer().unwrap_or(head.number_in_force());
        let telegram = Telegram::new(READ, node, rows::NODE_ADDRESS, 0, 0).bytes();
        let (begun, rest) = telegram.split_at(1 + self.random.below(9) as usize);
        self.send_from(number, |_| begun.to_vec());
        Past::Begun(rest.to_vec())
    }

    /// The control word acknowledges only if the last one taken did not.
    pub(super) fn acknowledge(&mut self, number: usize) {
        self.send_from(number, |author| {
            let node = author.head.number_in_force();
            Telegram::new(WRITE, node, rows::SET_POINT_1, ACKNOWLEDGE, 7).bytes().to_vec()
        });
    }

    // The key, and what came of it.

    /// Mostly newly pressed, alone or with others.
    pub(super) fn press_up(&mut self, number: usize) {
        if self.head(number).keys() & KEY_UP != 0 && self.random.chance(70) {
            self.keys_of(number, &[0, 0, 1, 2]);
        }
        self.keys_of(number, &[4, 4, 4, 5, 5, 6, 7]);
    }

    /// Perhaps at a head that has no offer, while another has one.
    fn press_up_somewhere(&mut self) {
        if let Some((number, _)) = self.some_head() {
            self.press_up(number);
        }
    }

    pub(super) fn look_for(&mut self, past: Past, number: usize) {
        match past {
            Past::Damaged => self.send_from(number, |author| damaged(author, 1)),
            Past::Begun(rest) => self.send(&rest),
            Past::Acknowledged => {
                self.send_from(number, |author| damaged(author, 3));
                self.acknowledge(number);
            }
            Past::Monitored => self.tick_when_due_or_not(number),
            Past::Frozen => self.move_by_some(number),
            Past::Any => self.look_for_more(number),
        }
    }

    /// A head that has restarted is monitored no longer.
    fn tick_when_due_or_not(&mut self, number: usize) {
        self.now = self.now.wrapping_add(self.random.pick(&[100, 200, 300]));
        self.write_line(format!("tick {}", self.now));
        self.tick_when_due(number);
    }

    fn look_for_more(&mut self, number: usize) {
        match self.random.below(8) {
            0 => self.write_line(format!("xor {number}")),
            1 => self.write_line(format!("power {number}")),
            // After an adoption keys are 0, so that up is newly pressed though nobody let go of it.
            2..=3 => self.keys_of(number, &[4, 4, 5, 6]),
            _ => {}
        }
    }

    /// The number that is stored, both lists and all values, where the head was and where it is.
    pub(super) fn read_at(&mut self, number: usize, node_before: u8) {
        let node_now = self.head(number).number_in_force();
        let mut bytes = reads_at(node_now);
        if node_before != node_now {
            bytes.extend(reads_at(node_before));
        }
        self.send_from(number, |_| bytes);
    }
}

fn legal(author: &mut Author) -> Vec<u8> {
    let data = author.legal_number();
    author.write_auto_id(data).to_vec()
}

fn illegal(author: &mut Author) -> Vec<u8> {
    let data = author.illegal_number();
    author.write_auto_id(data).to_vec()
}

/// Some are writes out of the range of another parameter, which is no concern of the offer.
fn idle(author: &mut Author) -> Vec<u8> {
    let telegram = |author: &mut Author| match author.random.below(8) {
        0 => Telegram::new(WRITE, author.head.number_in_force(), rows::TARGET_WINDOW_1, 0, 10_000).bytes(),
        _ => author.idle_auto_id(),
    };
    (0..1 + author.random.below(4)).flat_map(|_| telegram(author)).collect()
}

fn damaged(author: &mut Author, count: usize) -> Vec<u8> {
    (0..count).flat_map(|_| author.noisy()).collect()
}

fn reads_at(node: u8) -> Vec<u8> {
    let read =
        |&parameter: &u8| -> [u8; TELEGRAM_LENGTH] { Telegram::new(READ, node, parameter, 0, 0).bytes() };
    let parameters = [
        rows::NODE_ADDRESS,
        rows::POSITION_VALUE,
        rows::STATUS_WORD,
        rows::ERROR_COUNT,
        rows::INPUT_ERRORS,
        rows::PENDING_ERROR,
        rows::SET_POINT_1,
        rows::SET_POINT_2,
    ];
    parameters.iter().flat_map(read).collect()
}

#[cfg(test)]
mod tests {
    use crate::generator::script;
    use reference::head::Head;
    use reference::script::{meaning, Command, Meaning, Simulation};

    /// A command of a script, the answer to it, and what each head had on offer before it and after it.
    struct Step {
        command: Command,
        answer: String,
        before: Vec<Option<u8>>,
        after: Vec<Option<u8>>,
    }

    fn steps_of_200_scripts() -> Vec<Step> {
        let mut steps = Vec::new();
        for number in 1..=200 {
            let mut simulation = Simulation::new();
            for line in script(1, number).lines {
                let before = offers(&simulation);
                let answer = simulation.answer(&line).unwrap_or_default();
                if let Meaning::Command(command) = meaning(&line) {
                    steps.push(Step { command, answer, before, after: offers(&simulation) });
                }
            }
        }
        steps
    }

    fn offers(simulation: &Simulation) -> Vec<Option<u8>> {
        simulation.line().heads().iter().map(Head::number_on_offer).collect()
    }

    fn assert_frequent(what: &str, least: usize, is_meant: impl Fn(&Step) -> bool, steps: &[Step]) {
        let count = steps.iter().filter(|step| is_meant(step)).count();
        assert!(count >= least, "{what}: {count}");
    }

    #[test]
    fn every_answer_of_a_key_call_is_frequent() {
        let mut steps = steps_of_200_scripts();
        steps.retain(|step| matches!(step.command, Command::Keys { .. }));
        assert_frequent("none", 3_000, |step| step.answer == "ok", &steps);
        assert_frequent("a reply", 800, |step| step.answer.starts_with("ok "), &steps);
        for (refusal, least) in [("refused 3", 80), ("refused 5", 80), ("refused 6", 120)] {
            assert_frequent(refusal, least, |step| step.answer == refusal, &steps);
        }
    }

    #[test]
    fn offers_are_often_made_replaced_dropped_and_kept() {
        let mut steps = steps_of_200_scripts();
        steps.retain(|step| step.before.len() == step.after.len());
        let changes = |is_meant: fn(Option<u8>, Option<u8>) -> bool| {
            move |step: &Step| {
                step.before.iter().zip(&step.after).any(|(&before, &after)| is_meant(before, after))
            }
        };
        let is_telegram = |step: &Step| {
            matches!(step.command, Command::Send { .. } | Command::Ask { .. } | Command::Rack { .. })
        };
        let is_power = |step: &Step| matches!(step.command, Command::Power { .. });
        let is_made = changes(|before, after| before.is_none() && after.is_some());
        let is_replaced = changes(|before, after| before.is_some() && after.is_some() && before != after);
        let is_dropped = changes(|before, after| before.is_some() && after.is_none());
        let is_kept = changes(|before, after| before.is_some() && before == after);
        assert_frequent("made", 1_000, is_made, &steps);
        assert_frequent("replaced", 80, is_replaced, &steps);
        assert_frequent("dropped by telegrams", 200, |step| is_telegram(step) && is_dropped(step), &steps);
        assert_frequent("dropped by power", 40, |step| is_power(step) && is_dropped(step), &steps);
        assert_frequent("kept over telegrams", 1_000, |step| is_telegram(step) && is_kept(step), &steps);
        // Another head's, as one adopts its own.
        let is_adoption = |step: &Step| step.answer.starts_with("ok ");
        assert_frequent("kept elsewhere", 80, |step| is_adoption(step) && is_kept(step), &steps);
    }
}
