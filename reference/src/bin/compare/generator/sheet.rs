//! Settings on a sheet, request (vii): sheets that are written from one head and loaded into another, sheets that
//! are refused, and what a head had before a sheet was loaded, which it has to have afterwards too.

use super::auto_id::Past;
use super::Generator;
use crate::sheets;
use reference::rows;
use reference::script::hex;
use reference::sheet::{written, Setting, WRITTEN_LENGTH};

/// What moves the position, the windows or the status word of a head near its set point.
const NEAR_THE_SET_POINT: [u8; 7] = [
    rows::DISPLAY_DIVISOR,
    rows::COUNTING_DIRECTION,
    rows::OFFSET_VALUE,
    rows::CALIBRATION_VALUE,
    rows::TARGET_WINDOW_1,
    rows::TARGET_WINDOW_2,
    rows::DIVISOR_APPLICATION,
];

impl Generator {
    pub(super) fn sheet(&mut self) {
        let Some((number, _)) = self.some_head() else {
            return self.sheet_at_no_head();
        };
        match self.random.below(32) {
            0..=2 => self.save_in_spaces(number),
            3..=8 => self.swap(number),
            9..=11 => self.load_and_restart(number),
            12..=17 => self.load_what_is_refused(number),
            18..=19 => self.sheet_at_no_head(),
            20..=22 => self.load_and_lock(number),
            23..=24 => self.load_after_an_offer(),
            25..=26 => self.load_near_the_set_point(number),
            _ => self.load_amid(number),
        }
    }

    // Lines.

    fn save(&mut self, number: usize) {
        self.write_line(format!("save {number}"));
        let mut sheet = vec![0; self.model.space().min(WRITTEN_LENGTH)];
        if self.head(number).save(&mut sheet).is_ok() {
            self.saved.push(sheet);
        }
    }

    pub(super) fn load(&mut self, head: impl std::fmt::Display, sheet: &[u8]) {
        let line = match sheet {
            [] => format!("load {head}"),
            _ => format!("load {head} {}", hex(sheet)),
        };
        self.write_line(line);
    }

    pub(super) fn load_settings(&mut self, number: usize, settings: &[Setting]) {
        self.load(number, &written(settings));
    }

    fn make_room(&mut self) {
        if self.model.space() < WRITTEN_LENGTH {
            let size = self.random.pick(&[274, 274, 274, 275, 1_024]);
            self.write_line(format!("space {size}"));
        }
    }

    /// Mostly such as can be loaded.
    fn some_sheet(&mut self) -> Vec<u8> {
        match self.random.below(10) {
            0..=1 => sheets::wrong(&mut self.random),
            2 => self.saved_sheet(),
            3..=5 => written(&sheets::with_number(&mut self.random)),
            _ => written(&sheets::settings(&mut self.random)),
        }
    }

    /// Any that was written so far; a new one if there is none.
    fn saved_sheet(&mut self) -> Vec<u8> {
        match self.saved.len() {
            0 => written(&sheets::settings(&mut self.random)),
            count => self.saved[self.random.below(count as u32) as usize].clone(),
        }
    }

    // What is stored.

    /// All stored values, over the line or on a sheet; over the line they show nothing of heads of one number.
    pub(super) fn look_at_rows(&mut self, number: usize) {
        if self.random.chance(60) {
            return self.send_from(number, |author| author.read_all_rows());
        }
        self.make_room();
        self.save(number);
    }

    /// Before the restart the head answers at its old number, and after it at the new one.
    fn restart_and_look(&mut self, number: usize, node_before: u8) {
        match self.random.chance(75) {
            true => self.write_line(format!("power {number}")),
            false => self.write_to(number, &[(rows::SYSTEM_COMMAND, 9)]),
        }
        self.read_at(number, node_before);
    }

    // Sheets that are loaded.

    /// The sheet of one head goes into another, perhaps after the one has changed.
    fn swap(&mut self, number: usize) {
        self.make_room();
        self.save(number);
        if self.random.chance(30) {
            self.send_telegrams();
        }
        let other = if self.random.chance(80) { self.another_head(number) } else { number };
        let node = self.head(other).number_in_force();
        let sheet = match (self.saved.last(), self.random.chance(70)) {
            (Some(sheet), true) => sheet.clone(),
            _ => self.saved_sheet(),
        };
        self.load(other, &sheet);
        self.look_at_rows(other);
        if self.random.chance(50) {
            self.restart_and_look(other, node);
            self.part_twins();
        }
    }

    /// With the sheet of another head comes its number, and replies that collide show little.
    fn part_twins(&mut self) {
        if let (Some(twin), true) = (self.twin(), self.random.chance(70)) {
            self.part(twin);
        }
    }

    fn load_and_restart(&mut self, number: usize) {
        let node = self.head(number).number_in_force();
        let settings = match self.random.chance(60) {
            true => sheets::with_number(&mut self.random),
            false => sheets::settings(&mut self.random),
        };
        self.load_settings(number, &settings);
        self.look_at_rows(number);
        if self.random.chance(30) {
            self.read_at(number, node);
        }
        if self.random.chance(60) {
            self.restart_and_look(number, node);
        }
    }

    /// The lock shows in the writes after it, but not in the rows after its own nor in the next sheet.
    fn load_and_lock(&mut self, number: usize) {
        let is_open = self.random.pick(&[0, 0, 1]);
        self.write_to(number, &[(rows::PROGRAMMING_MODE, is_open)]);
        for values in [&[0, 0, 1], &[1, 1, 0]] {
            let settings = sheets::with(&mut self.random, rows::PROGRAMMING_CONFIGURATION, values);
            self.load_settings(number, &settings);
        }
        self.look_at_rows(number);
        let value = self.random.below(9);
        self.write_to(
            number,
            &[(rows::TARGET_WINDOW_1, value), (rows::SYSTEM_COMMAND, 7), (0x04, 1 + value)],
        );
        let sheet = self.some_sheet();
        self.load(number, &sheet);
        self.look_at_rows(number);
        self.write_to(number, &[(rows::PROGRAMMING_MODE, 1), (rows::PROGRAMMING_CONFIGURATION, 0)]);
    }

    // What a head had before.

    fn load_after_an_offer(&mut self) {
        let Some(number) = self.head_for_auto_id() else {
            return;
        };
        self.offer(number);
        let node = self.head(number).number_in_force();
        let sheet = self.some_sheet();
        self.load(number, &sheet);
        self.press_up(number);
        self.read_at(number, node);
    }

    /// The windows of the sheet decide about the static bit at the next measurement or set point, not before.
    fn load_near_the_set_point(&mut self, number: usize) {
        self.come_near_the_set_point(number);
        if self.random.chance(50) {
            self.give_the_word_a_bit(number);
        }
        if self.random.chance(40) {
            self.write_to(number, &[(rows::SET_POINT_1, 7)]);
            self.send_from(number, |author| author.read_functional_values());
        }
        if self.random.chance(30) {
            self.write_to(number, &[(rows::FREEZE, 1)]);
        }
        let mut settings = sheets::settings(&mut self.random);
        settings.retain(|setting| NEAR_THE_SET_POINT.contains(&setting.address));
        self.load_settings(number, &settings);
        self.send_from(number, |author| author.read_functional_values());
        if self.random.chance(30) {
            self.write_to(number, &[(rows::PROGRAMMING_MODE, 1), (rows::CALIBRATION_TRAVEL, 1)]);
            self.send_from(number, |author| author.read_functional_values());
        }
    }

    fn load_amid(&mut self, number: usize) {
        let node = self.head(number).number_in_force();
        let past = self.past_of_a_call(number);
        let sheet = match self.random.chance(25) {
            true => sheets::wrong(&mut self.random),
            false => self.some_sheet(),
        };
        self.load(number, &sheet);
        self.look_for(past, number);
        self.read_at(number, node);
        if self.random.chance(30) {
            self.send_from(number, |author| author.read_error_lists());
        }
    }

    pub(super) fn past_of_a_call(&mut self, number: usize) -> Past {
        match self.random.below(10) {
            0..=1 => self.begin_telegram(number),
            2..=3 => self.damage_two(number),
            4..=5 => {
                self.acknowledge(number);
                Past::Acknowledged
            }
            6..=7 => {
                self.write_to(number, &[(rows::BUS_TIMEOUT_TIME, 1)]);
                Past::Monitored
            }
            _ => self.some_past(number),
        }
    }

    /// Between the bytes of a telegram.
    pub(super) fn load_somewhere(&mut self) {
        if let Some((number, _)) = self.some_head() {
            let sheet = self.some_sheet();
            self.load(number, &sheet);
        }
    }

    // What is refused.

    fn load_what_is_refused(&mut self, number: usize) {
        for _ in 0..5 + self.random.below(6) {
            let sheet = match self.random.below(6) {
                0 => {
                    let sheet = self.saved_sheet();
                    sheets::hit(&mut self.random, &sheet)
                }
                _ => sheets::wrong(&mut self.random),
            };
            self.load(number, &sheet);
        }
        self.look_at_rows(number);
        if self.random.chance(20) {
            self.send_from(number, |author| author.read_error_lists());
        }
    }

    /// 3 goes before all that may be wrong with the sheet or the space.
    pub(super) fn sheet_at_no_head(&mut self) {
        let head = self.missing_head();
        self.write_line(format!("save {head}"));
        for _ in 0..1 + self.random.below(3) {
            let head = self.missing_head();
            let sheet = match self.random.below(6) {
                0..=2 => written(&sheets::settings(&mut self.random)),
                3 => Vec::new(),
                _ => sheets::wrong(&mut self.random),
            };
            self.load(head, &sheet);
        }
    }

    fn save_in_spaces(&mut self, number: usize) {
        for _ in 0..2 + self.random.below(2) {
            let size = self.random.pick(&[0, 9, 10, 273, 273, 274, 274, 275, 1_024, 1_025]);
            self.write_line(format!("space {size}"));
            self.save(number);
            if self.random.chance(30) {
                self.load_somewhere();
            }
            if self.random.chance(20) {
                let head = self.missing_head();
                self.write_line(format!("save {head}"));
            }
        }
        let size = self.random.pick(&[10, 273, 274, 274, 1_024]);
        self.write_line(format!("space {size}"));
    }

    /// Not even a byte would be heard; a sheet is loaded all the same.
    pub(super) fn sheet_in_short_space(&mut self) {
        let Some((number, _)) = self.some_head() else {
            return self.sheet_at_no_head();
        };
        if self.random.chance(50) {
            self.save(number);
        }
        self.load_somewhere();
    }
}

#[cfg(test)]
mod tests {
    use super::WRITTEN_LENGTH;
    use crate::generator::script;
    use reference::head::Head;
    use reference::rows::ROWS;
    use reference::script::{meaning, Command, Meaning, Simulation};

    /// A sheet that was loaded or written, the answer, and what the head had before it and after it.
    struct Step {
        is_save: bool,
        answer: String,
        before: Option<Head>,
        after: Option<Head>,
        is_reloaded: bool,
    }

    fn steps_of_200_scripts() -> Vec<Step> {
        (1..=200).flat_map(|number| steps_of(&script(1, number).lines)).collect()
    }

    fn steps_of(lines: &[Vec<u8>]) -> Vec<Step> {
        let mut simulation = Simulation::new();
        let mut steps = Vec::new();
        let mut written: Vec<Vec<u8>> = Vec::new();
        for line in lines {
            let (number, loaded) = match meaning(line) {
                Meaning::Command(Command::Save { head }) => (head, None),
                Meaning::Command(Command::Load { head, sheet }) => (head, Some(sheet)),
                _ => {
                    simulation.answer(line);
                    continue;
                }
            };
            let before = head(&simulation, number);
            let answer = simulation.answer(line).unwrap_or_default();
            if answer.starts_with("saved") {
                written.extend(before.as_ref().map(sheet_of));
            }
            let is_save = loaded.is_none();
            let is_reloaded = loaded.is_some_and(|sheet| written.contains(&sheet));
            steps.push(Step { is_save, answer, before, after: head(&simulation, number), is_reloaded });
        }
        steps
    }

    fn head(simulation: &Simulation, number: u32) -> Option<Head> {
        simulation.line().heads().get(number as usize).cloned()
    }

    fn sheet_of(head: &Head) -> Vec<u8> {
        let mut sheet = vec![0; WRITTEN_LENGTH];
        head.save(&mut sheet).expect("the space is long enough");
        sheet
    }

    fn assert_frequent(what: &str, least: usize, is_meant: impl Fn(&Step) -> bool, steps: &[Step]) {
        let count = steps.iter().filter(|step| is_meant(step)).count();
        assert!(count >= least, "{what}: {count}");
    }

    fn stored(head: &Option<Head>) -> Option<Vec<i32>> {
        head.as_ref().map(|head| ROWS.iter().map(|row| head.value(row.address)).collect())
    }

    #[test]
    fn every_answer_is_frequent() {
        let (saves, loads): (Vec<Step>, Vec<Step>) =
            steps_of_200_scripts().into_iter().partition(|step| step.is_save);
        assert_frequent("saved", 650, |step| step.answer.starts_with("saved "), &saves);
        for (refusal, least) in [("refused 3", 80), ("refused 14", 160)] {
            assert_frequent(refusal, least, |step| step.answer == refusal, &saves);
        }
        assert_frequent("loaded", 1_500, |step| step.answer == "ok", &loads);
        for (refusal, least) in
            [("refused 3", 200), ("refused 11", 700), ("refused 12", 300), ("refused 13", 250)]
        {
            assert_frequent(refusal, least, |step| step.answer == refusal, &loads);
        }
    }

    #[test]
    fn sheets_often_change_what_is_stored_and_are_often_those_of_another_head() {
        let mut steps = steps_of_200_scripts();
        steps.retain(|step| !step.is_save && step.answer == "ok");
        let changes = |step: &Step| stored(&step.before) != stored(&step.after);
        assert_frequent("changes", 1_200, changes, &steps);
        assert_frequent("saved before", 240, |step| step.is_reloaded && changes(step), &steps);
        let is_locked = |step: &Step| step.before.as_ref().is_some_and(Head::is_locked);
        assert_frequent("locked", 80, |step| is_locked(step) && changes(step), &steps);
        let has_gathered = |step: &Step| step.before.as_ref().is_some_and(|head| head.gathered_count() > 0);
        assert_frequent("amid a telegram", 100, has_gathered, &steps);
        let has_offer =
            |step: &Step| step.before.as_ref().is_some_and(|head| head.number_on_offer().is_some());
        assert_frequent("with an offer", 60, has_offer, &steps);
    }
}
