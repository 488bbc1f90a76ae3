//! Serials, request (xi): heads are made with serials that are free, near others or taken, on short lines and on
//! full ones, and what a head goes through before its serial is tried again.

use super::{Generator, FEW_HEADS, LINES};
use crate::sheets;
use reference::head::FACTORY_NODE;
use reference::line::MOST_HEADS;
use reference::rows;
use reference::script::hex;
use reference::sheet::{written, WRITTEN_LENGTH};
use reference::telegram::{Telegram, BROADCAST, READ};

const EDGES: [u32; 12] = [0, 0, 1, 127, 255, 256, 65_535, 65_536, 1 << 24, 1 << 31, u32::MAX - 1, u32::MAX];

const NODES_THAT_ARE_NONE: [u32; 8] = [0, 0, 128, 255, 256, 257, 300, u32::MAX];

impl Generator {
    pub(super) fn serial(&mut self) {
        // Of a full line no serial can be refused for itself, so that other steps show more.
        let long_line_steps = match self.model.line().heads().len() {
            MOST_HEADS => 80,
            count if count > FEW_HEADS => 40,
            _ => 0,
        };
        if self.random.chance(long_line_steps) {
            return self.on_a_long_line();
        }
        match self.random.below(20) {
            0..=2 => self.repeat_a_serial(),
            3..=4 => self.repeat_a_serial_at_no_node(),
            5..=7 => self.refuse_and_try_again(),
            8..=10 => self.misspell_a_head(),
            _ => self.repeat_after_a_change(),
        }
    }

    /// How many heads a script begins with; few most of the time.
    pub(super) fn head_count(&mut self) -> usize {
        match self.random.chance(10) {
            true => self.random.pick(&[9, 12, 31, MOST_HEADS, MOST_HEADS, MOST_HEADS]),
            false => self.random.pick(&[1, 1, 1, 2, 2, 2, 3, 3, 4, FEW_HEADS]),
        }
    }

    // Lines.

    /// A new head with a serial of its own, unless the line is full.
    pub(super) fn grow_at(&mut self, node: u32) {
        let serial = self.free_serial();
        self.write_head(node, serial);
    }

    fn write_head(&mut self, node: u32, serial: u32) {
        let line = match self.random.below(20) {
            0 => format!("head {node} 000{serial}"),
            _ => format!("head {node} {serial}"),
        };
        self.write_line(line);
    }

    /// With this serial, whatever comes of it.
    fn try_serial(&mut self, serial: u32) {
        let node = self.node_for_a_head();
        self.write_head(node, serial);
    }

    // Serials.

    pub(super) fn free_serial(&mut self) -> u32 {
        loop {
            let serial = self.some_serial();
            if self.model.line().heads().iter().all(|head| head.serial() != serial) {
                return serial;
            }
        }
    }

    /// At the edges, near that of a head or equal to it in some of its bytes, a head's node number, or any.
    fn some_serial(&mut self) -> u32 {
        let any = self.random.word();
        let Some((_, head)) = self.some_head() else {
            return self.random.pick(&[0, 1, u32::MAX, any, any, any]);
        };
        let serial = head.serial();
        match self.random.below(12) {
            0..=1 => self.random.pick(&EDGES),
            2..=4 => serial ^ 1 << self.random.below(32),
            5 => serial.wrapping_add(self.random.pick(&[1, u32::MAX])),
            6 => serial.wrapping_add(self.random.pick(&[1 << 8, 1 << 16, 1 << 24])),
            7 => serial ^ self.random.pick(&[any << 8, any << 16, any << 24]),
            8 => serial.swap_bytes(),
            9 => u32::from(head.number_in_force()),
            _ => any,
        }
    }

    /// That of the first head, of the last or of any.
    fn taken_serial(&mut self) -> Option<u32> {
        let (_, any) = self.some_head()?;
        let heads = self.model.line().heads();
        let serials = [heads[0].serial(), heads[heads.len() - 1].serial(), any.serial()];
        Some(self.random.pick(&serials))
    }

    // What is refused.

    pub(super) fn repeat_a_serial(&mut self) {
        for _ in 0..self.random.pick(&[1, 1, 2, 3]) {
            let Some(serial) = self.taken_serial() else {
                return self.grow();
            };
            self.try_serial(serial);
        }
    }

    fn repeat_a_serial_at_no_node(&mut self) {
        let Some(serial) = self.taken_serial() else {
            return self.grow();
        };
        let node = self.node_that_is_none();
        self.write_head(node, serial);
    }

    pub(super) fn node_that_is_none(&mut self) -> u32 {
        self.random.pick(&NODES_THAT_ARE_NONE)
    }

    /// A refused head takes no serial: it is free afterwards, and taken once a head has it.
    fn refuse_and_try_again(&mut self) {
        let serial = self.free_serial();
        for _ in 0..self.random.pick(&[1, 1, 2]) {
            let node = self.node_that_is_none();
            self.write_head(node, serial);
        }
        if self.random.chance(20) {
            self.step();
        }
        self.try_serial(serial);
        if self.random.chance(60) {
            self.try_serial(serial);
        }
    }

    /// A word too few, a word too many, a number that does not fit or has a sign; the serial is as free as it was.
    fn misspell_a_head(&mut self) {
        let free = self.free_serial();
        let serial = match (self.taken_serial(), self.random.chance(30)) {
            (Some(taken), true) => taken,
            _ => free,
        };
        let node = self.node_for_a_head();
        for _ in 0..1 + self.random.below(3) {
            let line = self.misspelt_head(node, serial);
            self.write_line(line);
        }
        if self.random.chance(30) {
            self.write_head(node, serial);
        }
    }

    fn misspelt_head(&mut self, node: u32, serial: u32) -> String {
        let beyond = (1_u64 << 32) + u64::from(self.random.pick(&[0, 1, node, serial]));
        match self.random.below(14) {
            0..=1 => format!("head {node}"),
            2 => format!("head {serial}"),
            3 => format!("head {node} {serial} {}", self.random.pick(&["0", "1", "00", "#"])),
            4..=5 => format!("head {node} {beyond}"),
            6 => format!("head {beyond} {serial}"),
            7 => format!("head {node} -{serial}"),
            8 => format!("head {node} +{serial}"),
            9 => format!("head -{node} {serial}"),
            10 => format!("head {node} {serial}{}", self.random.pick(&["#", "h", ",", ".0"])),
            11 => format!("head {node},{serial}"),
            12 => {
                format!("head {node} {}", self.random.pick(&["-0", "x", "0x1", "-", "18446744073709551616"]))
            }
            _ => format!("head{node} {serial}"),
        }
    }

    // What a head keeps its serial through.

    fn repeat_after_a_change(&mut self) {
        let Some((number, _)) = self.some_head() else {
            return self.grow();
        };
        let changed = self.change(number);
        for number in changed {
            let serial = self.head(number).serial();
            self.try_serial(serial);
        }
        if self.random.chance(20) {
            self.repeat_a_serial();
        }
    }

    /// Every kind of reset, restart and sheet; which heads it changed.
    fn change(&mut self, number: usize) -> Vec<usize> {
        match self.random.below(12) {
            0..=1 => self.write_line(format!("power {number}")),
            2..=5 => {
                self.open(number);
                let command = self.random.pick(&[1, 2, 5, 7, 8, 9, 9]);
                self.write_to(number, &[(rows::SYSTEM_COMMAND, command)]);
            }
            6 => return self.restart_all(),
            7..=8 => return self.adopt_a_number().into_iter().collect(),
            9 => {
                let settings = sheets::with_number(&mut self.random);
                self.load(number, &written(&settings));
            }
            10 => return self.load_the_sheet_of_another(number),
            _ => {
                let settings = sheets::settings(&mut self.random);
                self.load(number, &written(&settings));
                self.write_line(format!("power {number}"));
            }
        }
        vec![number]
    }

    /// All heads that are not locked restart; one of them.
    fn restart_all(&mut self) -> Vec<usize> {
        self.broadcast(rows::SYSTEM_COMMAND, 9);
        let last = self.model.line().heads().len() - 1;
        let any = self.random.below(last as u32 + 1) as usize;
        vec![self.random.pick(&[0, last, any])]
    }

    fn broadcast(&mut self, parameter: u8, data: u32) {
        self.advance();
        let node = self.random.byte();
        self.send(&Telegram::new(BROADCAST, node, parameter, 0, data).bytes());
    }

    fn adopt_a_number(&mut self) -> Option<usize> {
        let number = self.head_for_auto_id()?;
        self.offer(number);
        self.press_up(number);
        Some(number)
    }

    /// Neither of the two has the serial of the other then.
    fn load_the_sheet_of_another(&mut self, number: usize) -> Vec<usize> {
        let other = self.another_head(number);
        let mut sheet = vec![0; WRITTEN_LENGTH];
        self.head(other).save(&mut sheet).expect("the space is long enough");
        self.load(number, &sheet);
        vec![number, other]
    }

    // Lines of many heads.

    /// Among many heads some would have one number by chance, and replies that collide show little.
    pub(super) fn node_with_few_others(&mut self) -> u32 {
        let heads = self.model.line().heads();
        if heads.len() <= FEW_HEADS {
            return 1 + self.random.below(127);
        }
        let is_free = |&node: &u32| heads.iter().all(|head| u32::from(head.number_in_force()) != node);
        let free: Vec<u32> = (1..=127).filter(is_free).collect();
        self.random.pick(&free)
    }

    fn on_a_long_line(&mut self) {
        match self.random.below(10) {
            0..=2 => self.fill_the_line(),
            3..=5 => self.tick_at_the_far_end(),
            6..=7 => self.rack_amid_a_telegram(),
            _ => self.broadcast_to_the_far_end(),
        }
    }

    /// Heads at this number, or at any. Once a line is full no serial is refused for itself, so on the way there some
    /// are repeated.
    pub(super) fn grow_by(&mut self, count: usize, node: Option<u32>) {
        for _ in 0..count {
            match node {
                Some(node) => self.grow_at(node),
                None => self.grow(),
            }
            let count = self.model.line().heads().len();
            if count == MOST_HEADS - 1 || count > FEW_HEADS && self.random.chance(10) {
                self.repeat_a_serial();
            }
        }
    }

    fn fill_the_line(&mut self) {
        let missing = MOST_HEADS - self.model.line().heads().len();
        self.grow_by(missing, None);
        self.grow_beyond_the_last();
    }

    pub(super) fn grow_beyond_the_last(&mut self) {
        for _ in 0..self.random.pick(&[2, 2, 3]) {
            match self.random.below(8) {
                0..=1 => self.repeat_a_serial(),
                2..=3 => self.repeat_a_serial_at_no_node(),
                4..=5 => {
                    let node = self.node_that_is_none();
                    self.grow_at(node);
                }
                _ => self.grow(),
            }
        }
    }

    /// Instead of the last few lines all of many heads are brought to one number: their replies are more than on any
    /// other line, and after that there would be nothing to be seen of any of them.
    pub(super) fn last_lines(&mut self) {
        if self.model.line().heads().len() <= FEW_HEADS {
            return;
        }
        self.lines.truncate(LINES - 3);
        self.write_line("space 10".to_string());
        self.leave_a_gap();
        let to_all = |parameter, data| Telegram::new(BROADCAST, 0, parameter, 0, data).bytes();
        let commands = [(rows::PROGRAMMING_MODE, 1), (rows::SYSTEM_COMMAND, 5), (rows::SYSTEM_COMMAND, 9)];
        let bytes: Vec<u8> =
            commands.into_iter().flat_map(|(parameter, data)| to_all(parameter, data)).collect();
        self.write_line(format!("send {} {}", self.now, hex(&bytes)));
        let read = Telegram::new(READ, FACTORY_NODE, rows::NODE_ADDRESS, 0, 0).bytes();
        self.write_line(format!("send {} {}", self.now, hex(&read)));
    }

    /// One of the last heads, mostly the last.
    pub(super) fn far_head(&mut self) -> usize {
        let count = self.model.line().heads().len();
        count - 1 - self.random.pick(&[0, 0, 0, 0, 1, 7]).min(count - 1)
    }

    pub(super) fn tick_at_the_far_end(&mut self) {
        let number = self.far_head();
        self.open(number);
        self.write_to(number, &[(rows::BUS_TIMEOUT_TIME, 1)]);
        self.tick_when_due(number);
        self.send_from(number, |author| author.read_functional_values());
    }

    fn broadcast_to_the_far_end(&mut self) {
        let (parameter, data) = self.random.pick(&[
            (rows::FREEZE, 1),
            (rows::FREEZE, 1),
            (rows::PROGRAMMING_MODE, 1),
            (rows::SYSTEM_COMMAND, 2),
            (rows::SYSTEM_COMMAND, 7),
            (rows::SYSTEM_COMMAND, 9),
        ]);
        self.broadcast(parameter, data);
        let number = self.far_head();
        self.send_from(number, |author| author.read_functional_values());
    }
}

#[cfg(test)]
mod tests {
    use super::FEW_HEADS;
    use crate::generator::script;
    use reference::head::Head;
    use reference::line::MOST_HEADS;
    use reference::script::{meaning, Command, Meaning, Simulation};

    /// A head that was tried, the answer, and the heads before it.
    struct Tried {
        node: u32,
        serial: u32,
        answer: String,
        heads: Vec<Head>,
        /// Serials of heads that a script has tried in vain before, none of them on the line by then.
        refused: Vec<u32>,
    }

    impl Tried {
        fn is_taken(&self) -> bool {
            self.heads.iter().any(|head| head.serial() == self.serial)
        }

        fn is_node(&self) -> bool {
            (1..=127).contains(&self.node)
        }
    }

    fn tried_in_200_scripts() -> Vec<Tried> {
        let mut tried = Vec::new();
        for number in 1..=200 {
            let mut simulation = Simulation::new();
            let mut refused = Vec::new();
            for line in script(1, number).lines {
                let heads = simulation.line().heads().to_vec();
                let answer = simulation.answer(&line).unwrap_or_default();
                let Meaning::Command(Command::Head { node, serial }) = meaning(&line) else {
                    continue;
                };
                let one = Tried { node, serial, answer, heads, refused: refused.clone() };
                if one.answer != "ok" && !one.is_taken() {
                    refused.push(serial);
                }
                tried.push(one);
            }
        }
        tried
    }

    fn assert_frequent(what: &str, least: usize, is_meant: impl Fn(&Tried) -> bool, tried: &[Tried]) {
        let count = tried.iter().filter(|one| is_meant(one)).count();
        assert!(count >= least, "{what}: {count}");
    }

    #[test]
    fn every_refusal_is_frequent_for_every_reason() {
        let tried = tried_in_200_scripts();
        let is_repeat_of = |place: fn(usize) -> std::ops::Range<usize>| {
            move |one: &Tried| {
                one.answer == "refused 17"
                    && one.heads[place(one.heads.len())].iter().any(|head| head.serial() == one.serial)
            }
        };
        assert_frequent("the first head's", 60, is_repeat_of(|_| 0..1), &tried);
        assert_frequent("the last head's", 70, is_repeat_of(|count| count - 1..count), &tried);
        assert_frequent("one between", 35, is_repeat_of(|count| 1..(count - 1).max(1)), &tried);
        assert_frequent("beyond the eighth", 18, is_repeat_of(|count| FEW_HEADS.min(count)..count), &tried);
        let is_full = |one: &Tried| one.heads.len() == MOST_HEADS;
        let refused_1 = |one: &Tried| one.answer == "refused 1";
        assert_frequent("no node", 45, |one| refused_1(one) && !one.is_taken(), &tried);
        assert_frequent("no node and taken", 20, |one| refused_1(one) && one.is_taken(), &tried);
        assert_frequent("full", 8, |one| is_full(one) && !one.is_taken() && one.is_node(), &tried);
        assert_frequent("full and taken", 10, |one| is_full(one) && one.is_taken(), &tried);
        assert_frequent("full and no node", 4, |one| is_full(one) && !one.is_node(), &tried);
    }

    #[test]
    fn new_serials_are_often_near_others_and_at_the_edges() {
        let mut tried = tried_in_200_scripts();
        tried.retain(|one| one.answer == "ok");
        let is_like = |like: fn(u32, u32) -> bool| {
            move |one: &Tried| one.heads.iter().any(|head| like(head.serial(), one.serial))
        };
        assert_frequent("modulo 2^8", 200, is_like(|one, other| one as u8 == other as u8), &tried);
        assert_frequent("modulo 2^16", 150, is_like(|one, other| one as u16 == other as u16), &tried);
        assert_frequent("modulo 2^24", 80, is_like(|one, other| one << 8 == other << 8), &tried);
        assert_frequent("neighbours", 60, is_like(|one, other| one.abs_diff(other) == 1), &tried);
        for serial in [0, 1, u32::MAX - 1, u32::MAX] {
            assert_frequent(&format!("{serial}"), 10, |one| one.serial == serial, &tried);
        }
        let is_node_of_another =
            |one: &Tried| one.heads.iter().any(|head| u32::from(head.number_in_force()) == one.serial);
        assert_frequent("a node number", 40, is_node_of_another, &tried);
        let shares_a_node =
            |one: &Tried| one.heads.iter().any(|head| u32::from(head.number_in_force()) == one.node);
        assert_frequent("a shared node number", 120, shares_a_node, &tried);
        assert_frequent("refused before", 20, |one| one.refused.contains(&one.serial), &tried);
    }

    #[test]
    fn most_lines_are_short_and_some_are_full() {
        let mut counts = [0; 3];
        for number in 1..=200 {
            let mut simulation = Simulation::new();
            for line in script(1, number).lines {
                simulation.answer(&line);
            }
            match simulation.line().heads().len() {
                MOST_HEADS => counts[2] += 1,
                count if count > FEW_HEADS => counts[1] += 1,
                _ => counts[0] += 1,
            }
        }
        assert!(counts[0] >= 140 && counts[1] >= 10 && counts[2] >= 8, "{counts:?}");
    }
}
