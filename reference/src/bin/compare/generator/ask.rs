//! The other end of the wire, request (vi): questions that the heads answer, refuse or do not hear, and bytes
//! gathered before a question, so that what it draws is the reply to something else.

use super::Generator;
use crate::telegrams::Author;
use reference::master::Question;
use reference::rows::{self, access, Access};
use reference::script::hex;
use reference::telegram::{Telegram, BROADCAST, READ, TELEGRAM_LENGTH, WRITE};

/// Of a hundred sends of one sound telegram. The heads hear the same, but no status word is seen.
const SENDS_THAT_ASK: u32 = 6;

/// The first number that does not fit: TIME, COMMAND, NODE, PARAMETER, WORD, DATA.
const BEYOND: [u64; 6] = [1 << 32, 1 << 8, 1 << 8, 1 << 8, 1 << 16, 1 << 32];

impl Generator {
    pub(super) fn ask(&mut self) {
        match self.random.below(40) {
            0..=5 => self.ask_one(),
            6 => self.ask_a_locked_head(),
            7..=8 => self.ask_for_another_value(),
            9..=14 => self.ask_for_the_error(),
            15..=16 => self.ask_amid_a_refusal(),
            17..=24 => self.ask_amid_a_telegram(),
            25..=26 => self.ask_after_much_the_same(),
            27..=30 => self.ask_heads_out_of_step(),
            31..=34 => self.ask_at_the_limits(),
            35..=36 => self.ask_in_short_space(),
            _ => self.ask_malformed(),
        }
    }

    /// Nobody answers, and refusals are the same as with heads.
    pub(super) fn ask_before_any_head(&mut self) {
        self.ask_in_short_space();
        for _ in 0..2 {
            self.ask_at_the_limits();
        }
    }

    /// The question that may stand for a send of these bytes.
    pub(super) fn asked_instead(&mut self, bytes: &[u8]) -> Option<Question> {
        let telegram = Telegram::received(bytes.try_into().ok()?);
        let question = question_of(&telegram);
        let is_the_same = question.telegram() == Ok(telegram.bytes());
        (is_the_same && self.random.chance(SENDS_THAT_ASK)).then_some(question)
    }

    pub(super) fn write_ask(&mut self, question: &Question) {
        let mut words = self.words_of(question);
        if self.random.chance(5) {
            words.iter_mut().skip(1).for_each(|word| *word = format!("00{word}"));
        }
        self.feed(words.join(" "));
    }

    fn words_of(&self, question: &Question) -> Vec<String> {
        let Question { command, node, parameter, control_word, data } = question;
        let numbers = format!("{} {command} {node} {parameter} {control_word} {data}", self.now);
        ["ask"].into_iter().chain(numbers.split(' ')).map(String::from).collect()
    }

    fn question(&mut self) -> Question {
        let head = self.some_head_or_a_new_one();
        question_of(&Author { random: &mut self.random, head: &head }.question())
    }

    fn question_to(&mut self, number: usize) -> Question {
        let head = self.head(number);
        question_of(&Author { random: &mut self.random, head: &head }.question())
    }

    pub(super) fn ask_one(&mut self) {
        self.advance();
        for _ in 0..self.random.pick(&[1, 1, 2]) {
            let question = self.question();
            self.write_ask(&question);
        }
    }

    /// What a write of FFh is answered with, as 03h chooses.
    fn ask_for_another_value(&mut self) {
        let Some((number, _)) = self.some_head() else {
            return self.ask_one();
        };
        let choice = self.random.pick(&[1, 2, 2]);
        self.write_to(number, &[(rows::PROGRAMMING_MODE, 1), (rows::SET_POINT_RESPONSE, choice)]);
        let head = self.head(number);
        let telegram = Author { random: &mut self.random, head: &head }.write_set_point_2();
        self.write_ask(&question_of(&telegram));
    }

    fn ask_a_locked_head(&mut self) {
        let Some((number, _)) = self.some_head() else {
            return self.ask_one();
        };
        self.write_to(number, &[(rows::PROGRAMMING_MODE, 0), (rows::PROGRAMMING_CONFIGURATION, 1)]);
        for _ in 0..2 {
            let question = self.question_to(number);
            self.write_ask(&Question { command: WRITE, ..question });
        }
        self.write_to(number, &[(rows::PROGRAMMING_MODE, 1), (rows::PROGRAMMING_CONFIGURATION, 0)]);
    }

    // FDh, which is a value to those who read it and an error to all others.

    fn ask_for_the_error(&mut self) {
        let Some((number, _)) = self.some_head() else {
            return self.ask_one();
        };
        match self.random.below(6) {
            0..=1 => self.send_from(number, |author| (0..3).flat_map(|_| author.noisy()).collect()),
            // Left acknowledges.
            2 => {
                self.keys_of(number, &[0]);
                self.keys_of(number, &[1]);
            }
            _ => {}
        }
        self.advance();
        for _ in 0..1 + self.random.below(2) {
            let question = self.question_of_the_error(number);
            self.write_ask(&question);
        }
    }

    /// Of FDh, or of a parameter beside it.
    fn question_of_the_error(&mut self, number: usize) -> Question {
        let command = self.random.pick(&[READ, READ, READ, WRITE, WRITE, BROADCAST]);
        let node = self.head(number).number_in_force();
        let parameter = self.random.pick(&[0xFD, 0xFD, 0xFD, 0xFD, 0xFD, 0xFC, 0xFE, 0xFF]);
        let data = self.random.pick(&[0, 0, 1, u32::MAX]);
        Question { command, node, parameter, control_word: 0, data }
    }

    // Bytes gathered.

    /// The reply to a telegram that was begun comes at one of the question's first bytes, and its last bytes
    /// stay gathered for what comes next.
    fn ask_amid_a_telegram(&mut self) {
        let Some((number, head)) = self.some_head() else {
            return self.ask_one();
        };
        self.leave_a_gap();
        if matches!(head.number_in_force(), WRITE | BROADCAST) && self.random.chance(30) {
            return self.ask_after_one_byte(number);
        }
        let mut question = self.question_amid_a_telegram(number);
        let begun = self.telegram_before(&question);
        self.begin(&begun, &mut question);
        if self.random.chance(15) {
            self.now = self.now.wrapping_add(self.random.pick(&[1, 9, 10, 11]));
        }
        self.write_ask(&question);
        self.after_such_a_question(&question);
    }

    /// With one byte gathered the question's command becomes a node number, and its node a parameter.
    fn ask_after_one_byte(&mut self, number: usize) {
        let command = self.head(number).number_in_force();
        let node = self.random.pick(&[0x00, 0x01, 0x20, 0x65]);
        let mut question = Question { command, node, ..self.question_to(number) };
        let mut begun = [self.random.pick(&[READ, WRITE])];
        join(&mut begun, &mut question);
        self.write_line(format!("send {} {}", self.now, hex(&begun)));
        self.write_ask(&question);
    }

    /// More often than others a broadcast at any node, or a read with data, which are to be sent though the heads
    /// ignore them.
    fn question_amid_a_telegram(&mut self, number: usize) -> Question {
        let question = self.question_to(number);
        match self.random.below(10) {
            0 => Question { command: BROADCAST, node: self.random.byte() >> 1, ..question },
            1..=3 => Question { command: READ, data: self.random.word(), ..question },
            _ => question,
        }
    }

    /// So that all heads begin anew.
    pub(super) fn leave_a_gap(&mut self) {
        self.now = self.now.wrapping_add(self.random.pick(&[11, 11, 12, 50]));
    }

    /// Sends the first bytes of a telegram, mostly such that with the question's first bytes they are a sound one.
    fn begin(&mut self, telegram: &Telegram, question: &mut Question) {
        let length = self.random.pick(&[1, 1, 2, 2, 3, 3, 4, 4, 5, 6, 7, 8, 9, 9]);
        let mut begun = telegram.bytes()[..length].to_vec();
        if self.random.chance(60) {
            join(&mut begun, question);
        }
        self.write_line(format!("send {} {}", self.now, hex(&begun)));
    }

    /// A question when so many bytes of a telegram are gathered that its three fields are among them, and with
    /// the question's first bytes it is sound.
    fn ask_after(&mut self, command: u8, node: u8, parameter: u8, question: &Question) {
        self.leave_a_gap();
        let mut question = *question;
        let length = 3 + self.random.below(7) as usize;
        let mut begun = Telegram::new(command, node, parameter, 0, 0).bytes()[..length].to_vec();
        join(&mut begun, &mut question);
        self.write_line(format!("send {} {}", self.now, hex(&begun)));
        self.write_ask(&question);
    }

    /// The question itself, one that differs from it in one byte, or any other.
    fn telegram_before(&mut self, question: &Question) -> Telegram {
        let Question { command, node, parameter, data, .. } = *question;
        // A broadcast has no reply.
        let command = if command == BROADCAST { READ } else { command };
        let (command, node, parameter) = match self.random.below(12) {
            0..=4 => (command, node, parameter),
            5 => (command, node, self.random.pick(&[0x00, 0x20, 0x65, 0x63, 0xFB, 0xFD, 0xFE])),
            6 => (command ^ 1, node, parameter),
            // Those above 02h are answered with an error, which has the command too.
            7 => (3, node, parameter),
            8 => (command ^ 4 << self.random.below(6), node, parameter),
            9 => (command, self.some_number(), parameter),
            _ => return telegram_of(&self.question()),
        };
        Telegram::new(command, node, parameter, 0, data)
    }

    /// A read that is the question itself or differs from it in one bit, for all bits of its node or its
    /// parameter.
    fn ask_after_much_the_same(&mut self) {
        let node = self.some_number();
        let is_at_the_node = self.random.chance(50);
        for bit in [0, 1, 2, 4, 8, 16, 32, 64, 128] {
            if is_at_the_node {
                self.ask_after(READ, node, 0x20, &read_of(node ^ bit, 0x20));
            } else {
                let parameter = self.parameter_with_a_neighbour(bit);
                self.ask_after(READ, node, parameter, &read_of(node, parameter ^ bit));
            }
        }
    }

    /// A readable one such that the one that differs from it in this bit can be read too.
    fn parameter_with_a_neighbour(&mut self, bit: u8) -> u8 {
        let is_readable = |address| matches!(access(address), Access::ReadAndWrite | Access::ReadOnly);
        let found: Vec<u8> =
            (0..=255).filter(|&address| is_readable(address) && is_readable(address ^ bit)).collect();
        self.random.pick(&found)
    }

    /// What answers is a refusal, and FDh does not tell what it is for: to a read of FDh it is a value. The other
    /// way round, the answer to a read of FDh is an error to others.
    fn ask_amid_a_refusal(&mut self) {
        let node = self.some_number();
        let fdh = rows::PENDING_ERROR;
        let refused = self.random.pick(&[0x63, 0x8B, rows::SYSTEM_COMMAND, rows::AUTO_ID]);
        self.ask_after(READ, node, refused, &read_of(node, fdh));
        self.ask_after(READ, node, fdh, &read_of(node, 0x20));
        let command = self.random.pick(&[WRITE, WRITE, WRITE, BROADCAST]);
        let question = Question { command, ..read_of(node, self.random.pick(&[fdh, 0x20])) };
        let begun = self.random.pick(&[READ, WRITE, 3, 3]);
        self.ask_after(begun, node, fdh, &question);
    }

    fn some_number(&mut self) -> u8 {
        self.some_head().map_or(1, |(_, head)| head.number_in_force())
    }

    /// Its own last bytes are gathered now; they are of use to another question at once.
    fn after_such_a_question(&mut self, question: &Question) {
        match self.random.below(4) {
            0 => self.write_ask(question),
            1 => {
                let question = self.question();
                self.write_ask(&question);
            }
            _ => {}
        }
    }

    /// A head that was switched off and on has gathered nothing, so that two heads reply to one question, each in
    /// its turn.
    fn ask_heads_out_of_step(&mut self) {
        let Some((first, _)) = self.some_head() else {
            return self.ask_one();
        };
        self.leave_a_gap();
        let second = self.another_head(first);
        let mut question = self.question_to(second);
        let node = self.head(first).number_in_force();
        let begun = match self.random.below(10) {
            0..=5 => read_of(node, self.random.pick(&[0x20, 0x63, 0x65, question.parameter])),
            6..=7 => self.question_to(first),
            _ => question,
        };
        self.begin(&telegram_of(&begun), &mut question);
        self.write_line(format!("power {second}"));
        self.write_ask(&question);
        self.after_such_a_question(&question);
    }

    /// Where there is no other, a new one.
    pub(super) fn another_head(&mut self, first: usize) -> usize {
        let count = self.model.line().heads().len();
        if count == 1 {
            self.grow();
            return 1;
        }
        (first + 1 + self.random.below(count as u32 - 1) as usize) % count
    }

    // What is refused.

    /// Nodes and commands about the limits of refusal 10, perhaps amid a telegram that is then completed, so
    /// that it shows whether they were heard.
    fn ask_at_the_limits(&mut self) {
        if self.random.chance(60) {
            self.advance();
            let question = self.question_at_the_limits();
            self.write_ask(&question);
        }
        let question = self.question_at_the_limits();
        let telegram = self.telegram();
        let (begun, rest) = telegram.split_at(1 + self.random.below(9) as usize);
        self.leave_a_gap();
        self.send(begun);
        self.write_ask(&question);
        self.send(rest);
    }

    fn question_at_the_limits(&mut self) -> Question {
        let number = self.some_number();
        let any = self.random.byte();
        let command = self.random.pick(&[3, 3, 4, 0x80, 0x81, 0xFF, any]);
        let node = self.random.pick(&[0, 0, 127, 127, 128, 128, number | 0x80, 255, any]);
        let question = self.question();
        match self.random.below(8) {
            0..=2 => Question { command, node: number, ..question },
            3 => Question { command, node, ..question },
            4 => Question { command: BROADCAST, node, ..question },
            _ => Question { command: question.command.min(BROADCAST), node, ..question },
        }
    }

    /// Refused, and nothing of it is heard; 10 goes before 6.
    fn ask_in_short_space(&mut self) {
        let telegram = self.telegram();
        let (begun, rest) = telegram.split_at(1 + self.random.below(9) as usize);
        self.leave_a_gap();
        self.send(begun);
        let size = self.random.pick(&[0, 1, 9, 9, 9]);
        self.write_line(format!("space {size}"));
        for _ in 0..1 + self.random.below(3) {
            let question = match self.random.chance(60) {
                true => self.question(),
                false => self.question_at_the_limits(),
            };
            self.write_ask(&question);
        }
        let size = self.random.pick(&[10, 10, 11, 64]);
        self.write_line(format!("space {size}"));
        self.send(rest);
    }

    // Lines that are none of the commands.

    /// A word too few, a word too many, and numbers that do not fit.
    fn ask_malformed(&mut self) {
        self.advance();
        let question = self.question();
        let place = 1 + self.random.below(6) as usize;
        let mut words = self.words_of(&question);
        words.remove(place);
        self.write_line(words.join(" "));
        let mut words = self.words_of(&question);
        words.insert(place + 1, self.random.pick(&["0", "1", "00", "#"]).to_string());
        self.write_line(words.join(" "));
        for field in 0..BEYOND.len() {
            let mut words = self.words_of(&question);
            words[1 + field] = self.misfit(field, &words[1 + field]);
            self.write_line(words.join(" "));
        }
    }

    /// The low bits of some would fit, and a minus sign is what the signed parameters might suggest.
    fn misfit(&mut self, field: usize, word: &str) -> String {
        let number: u64 = word.parse().expect("a field is a number");
        match self.random.below(14) {
            0..=2 => BEYOND[field].to_string(),
            3..=5 => (BEYOND[field] + number).to_string(),
            6 => ((1 << 32) + number).to_string(),
            7 => self.random.pick(&["18446744073709551616", "999999999999", "4294967296"]).to_string(),
            8..=9 => "-0".to_string(),
            10..=11 => format!("-{number}"),
            12 => format!("+{number}"),
            _ => self.random.pick(&["-", "x", "0x1", "1F", "1h", "1.0"]).to_string(),
        }
    }
}

fn read_of(node: u8, parameter: u8) -> Question {
    Question { command: READ, node, parameter, control_word: 0, data: 0 }
}

fn question_of(telegram: &Telegram) -> Question {
    Question {
        command: telegram.command(),
        node: telegram.node(),
        parameter: telegram.parameter(),
        control_word: telegram.control_word(),
        data: telegram.data(),
    }
}

/// The telegram of a question that need not be one that is built.
fn telegram_of(question: &Question) -> Telegram {
    let Question { command, node, parameter, control_word, data } = *question;
    Telegram::new(command, node, parameter, control_word, data)
}

/// Makes the ten bytes sound that begin with these and end with the question's first: by a byte of the control
/// word that stands among them, which few telegrams take.
fn join(begun: &mut [u8], question: &mut Question) {
    let asked = telegram_of(question).bytes();
    let ten = begun.iter().chain(&asked[..TELEGRAM_LENGTH - begun.len()]);
    let bits = ten.fold(0, |sum, byte| sum ^ byte);
    match begun.get_mut(3) {
        Some(byte) => *byte ^= bits,
        None => question.control_word ^= u16::from(bits) << 8,
    }
}

#[cfg(test)]
mod tests {
    use super::*;
    use crate::generator::script;
    use reference::line::Line;
    use reference::master::Finding;
    use reference::script::{meaning, Command, Meaning, Simulation};

    /// A question that was fed, and what its bytes drew: which of the ten, and what was read.
    struct Asked {
        question: Question,
        drawn: Vec<(usize, Finding)>,
        answer: String,
    }

    /// The questions of 200 scripts, also those that were refused.
    fn asked_in_200_scripts() -> Vec<Asked> {
        let mut asked = Vec::new();
        for number in 1..=200 {
            let mut simulation = Simulation::new();
            for line in script(1, number).lines {
                let before = simulation.line().clone();
                let answer = simulation.answer(&line).unwrap_or_default();
                if let Meaning::Command(Command::Ask { time, question }) = meaning(&line) {
                    let is_fed = answer.starts_with("asked");
                    let drawn = if is_fed { drawn(before, time, &question) } else { Vec::new() };
                    asked.push(Asked { question, drawn, answer });
                }
            }
        }
        asked
    }

    fn drawn(mut line: Line, time: u32, question: &Question) -> Vec<(usize, Finding)> {
        let mut space = [0; TELEGRAM_LENGTH];
        let telegram = question.telegram().expect("it was fed");
        let replies = telegram.iter().enumerate().filter_map(|(place, &byte)| {
            let is_one = line.byte(time, byte, &mut space) == Ok(1);
            is_one.then(|| (place + 1, question.finding(&space)))
        });
        replies.collect()
    }

    fn assert_frequent(what: &str, least: usize, is_meant: impl Fn(&Asked) -> bool, asked: &[Asked]) {
        let count = asked.iter().filter(|asked| is_meant(asked)).count();
        assert!(count >= least, "{what}: {count}");
    }

    #[test]
    fn every_answer_is_frequent() {
        let asked = asked_in_200_scripts();
        assert_frequent("none", 400, |asked| asked.answer == "asked", &asked);
        for (part, least) in [(" value", 1_000), (" foreign", 500), (" collision", 100)] {
            assert_frequent(part, least, |asked| asked.answer.contains(part), &asked);
        }
        for (code, least) in [
            ("0080", 25),
            ("0082", 10),
            ("0182", 15),
            ("0282", 60),
            ("0083", 20),
            ("0184", 40),
            ("0284", 20),
            ("0085", 20),
            ("0385", 15),
        ] {
            let part = format!(" error {code}");
            assert_frequent(&part, least, |asked| asked.answer.contains(&part), &asked);
        }
        for refusal in ["refused 6", "refused 10"] {
            assert_frequent(refusal, 100, |asked| asked.answer == refusal, &asked);
        }
    }

    #[test]
    fn replies_often_come_early_and_belong_or_not() {
        let asked = asked_in_200_scripts();
        let early = |is_meant: fn(Finding) -> bool| {
            move |asked: &Asked| asked.drawn.iter().any(|&(place, finding)| place < 10 && is_meant(finding))
        };
        assert_frequent("values", 100, early(|finding| matches!(finding, Finding::Value(_))), &asked);
        assert_frequent("errors", 80, early(|finding| matches!(finding, Finding::Error(_))), &asked);
        for place in 1..=9 {
            // With one or two bytes gathered, what answers depends on the question's command.
            let least = if place < 8 { 100 } else { 4 };
            let is_drawn = |asked: &Asked| asked.drawn.iter().any(|(other, _)| *other == place);
            assert_frequent(&format!("at byte {place}"), least, is_drawn, &asked);
        }
        assert_frequent("two", 50, |asked| asked.drawn.len() == 2, &asked);
    }

    #[test]
    fn fdh_is_often_a_value_and_often_an_error() {
        let asked = asked_in_200_scripts();
        let of_fdh = |command: u8| {
            move |asked: &Asked| {
                (asked.question.command, asked.question.parameter) == (command, rows::PENDING_ERROR)
            }
        };
        let value = |is_meant: fn(u32) -> bool| {
            move |asked: &Asked| {
                of_fdh(READ)(asked)
                    && asked
                        .drawn
                        .iter()
                        .any(|(_, finding)| matches!(finding, Finding::Value(value) if is_meant(*value)))
            }
        };
        assert_frequent("none pending", 40, value(|value| value == 0), &asked);
        assert_frequent("pending", 30, value(|value| matches!(value, 0x80 | 0x81)), &asked);
        assert_frequent("of another question", 20, value(|value| value > 0x81), &asked);
        let is_error = |asked: &Asked| matches!(asked.drawn[..], [(_, Finding::Error(_))]);
        assert_frequent("written", 50, |asked| of_fdh(WRITE)(asked) && is_error(asked), &asked);
    }
}
