//! The script: what a line means, and the answer to it.

use crate::line::{Line, Racked, Refusal};
use crate::master::{Finding, Question};
use crate::sheet::WRITTEN_LENGTH;
use crate::telegram::TELEGRAM_LENGTH;
use std::io::{self, BufRead, ErrorKind, Write};

/// Without the newline and a carriage return before it.
pub const LONGEST_LINE: usize = 4_096;
pub const LARGEST_SPACE: usize = 1_024;
const FIRST_SPACE: usize = 10;

pub const HELP: &str = "\
A line of SIKONETZ5 heads, driven by a script on standard input: one command a
line, words separated by blanks or tabs, one line of output for each.

  head NODE SERIAL     grow the line by a head; the first is head 0
  send TIME HEX        feed these bytes (two hex digits each), all at TIME
  ask TIME COMMAND NODE PARAMETER WORD DATA
                       build a telegram from these fields, feed its ten bytes,
                       all at TIME, and read what comes back; COMMAND is 0 read,
                       1 write or 2 broadcast, WORD the control word
  rack TIME PLACE [HEX]
                       drop the bytes that heads have gathered, feed these whole
                       telegrams, all at TIME, and lay the replies one behind
                       the other from PLACE in the space; without HEX there is
                       no telegram
  tick TIME            let the heads look at the clock
  measure HEAD VALUE   a head's measurement; VALUE may have a minus sign
  keys HEAD STATE      a head's keys: 1 left, 2 star, 4 up, or a sum of these
  power HEAD           switch a head off and on
  xor HEAD             which bits were hit in the last damaged telegram heard
  save HEAD            write a head's settings on a sheet
  load HEAD [HEX]      load this sheet into a head; without HEX it has no byte
  bring HEAD           bring over a head from before incremental measurement was
                       retired: 35h 0, absolute position; others do not change
  space SIZE           how much space bytes, keys, save and rack lend, 0 to
                       1024; 10 at first

Numbers are decimal, TIME is in milliseconds. Blank lines and lines whose first
word starts with # are passed over.

  ok                   done
  ok REPLY             done, and up took a number that D2h had offered the head:
                       its reply as twenty hex digits
  sent ...             the bytes are fed; then each reply as twenty hex digits,
                       or 'collision N' where N heads replied at once
  asked ...            the bytes are fed; then for each reply 'value N', 'error
                       HHHH' with the code as four hex digits, or 'foreign' for
                       one that is no reply to what was asked, or 'collision N'
  racked N M ...       the telegrams are fed: N replies are laid, and M times
                       several heads replied at once, which lays none; then each
                       reply as twenty hex digits
  xor HH               the exclusive-or of its ten bytes as two hex digits; 00
                       if the head has heard none since it last started
  saved HEX            the 274 bytes of the sheet
  refused N            1 node number not 1 to 127   4 measurement out of range
                       2 thirty-third head          5 key state above 7
                       3 no such head               6 space under ten bytes
                       10 command above 2 or node above 127
                       11 malformed sheet           13 value out of its row
                       12 address not among the 39  14 space under 274 bytes
                       15 rack not of whole telegrams, or of more than 64
                       16 space from PLACE on shorter than the rack
                       17 serial already on the line
  error at line N      the line is none of these commands
";

#[derive(Clone, Debug, PartialEq, Eq)]
pub enum Command {
    Head { node: u32, serial: u32 },
    Send { time: u32, bytes: Vec<u8> },
    Ask { time: u32, question: Question },
    Rack { time: u32, place: u32, bytes: Vec<u8> },
    Tick { time: u32 },
    Measure { head: u32, value: i32 },
    Keys { head: u32, state: u32 },
    Power { head: u32 },
    Xor { head: u32 },
    Save { head: u32 },
    Load { head: u32, sheet: Vec<u8> },
    Bring { head: u32 },
    Space { size: usize },
}

#[derive(Clone, Debug, PartialEq, Eq)]
pub enum Meaning {
    PassedOver,
    Command(Command),
    Error,
}

/// What a line means, given without its newline.
pub fn meaning(line: &[u8]) -> Meaning {
    match words(line) {
        None => Meaning::Error,
        Some(words) if is_passed_over(&words) => Meaning::PassedOver,
        Some(words) => command(&words).map_or(Meaning::Error, Meaning::Command),
    }
}

/// The words of a line, given without its newline; none, not even no word, if it is too long.
pub(crate) fn words(line: &[u8]) -> Option<Vec<&[u8]>> {
    let line = line.strip_suffix(b"\r").unwrap_or(line);
    let words = line.split(|byte| matches!(byte, b' ' | b'\t')).filter(|word| !word.is_empty());
    (line.len() <= LONGEST_LINE).then(|| words.collect())
}

/// Whether a line of these words is blank or a comment.
pub(crate) fn is_passed_over(words: &[&[u8]]) -> bool {
    words.first().is_none_or(|first| first.starts_with(b"#"))
}

fn command(words: &[&[u8]]) -> Option<Command> {
    match *words {
        [b"head", node, serial] => Some(Command::Head { node: unsigned(node)?, serial: unsigned(serial)? }),
        [b"send", time, hex] => Some(Command::Send { time: unsigned(time)?, bytes: bytes(hex)? }),
        [b"ask", time, ref fields @ ..] => {
            Some(Command::Ask { time: unsigned(time)?, question: question(fields)? })
        }
        [b"rack", time, place] => {
            Some(Command::Rack { time: unsigned(time)?, place: unsigned(place)?, bytes: Vec::new() })
        }
        [b"rack", time, place, hex] => {
            Some(Command::Rack { time: unsigned(time)?, place: unsigned(place)?, bytes: bytes(hex)? })
        }
        [b"tick", time] => Some(Command::Tick { time: unsigned(time)? }),
        [b"measure", head, value] => Some(Command::Measure { head: unsigned(head)?, value: signed(value)? }),
        [b"keys", head, state] => Some(Command::Keys { head: unsigned(head)?, state: unsigned(state)? }),
        [b"power", head] => Some(Command::Power { head: unsigned(head)? }),
        [b"xor", head] => Some(Command::Xor { head: unsigned(head)? }),
        [b"save", head] => Some(Command::Save { head: unsigned(head)? }),
        [b"load", head] => Some(Command::Load { head: unsigned(head)?, sheet: Vec::new() }),
        [b"load", head, hex] => Some(Command::Load { head: unsigned(head)?, sheet: bytes(hex)? }),
        [b"bring", head] => Some(Command::Bring { head: unsigned(head)? }),
        [b"space", size] => {
            let size = unsigned(size)? as usize;
            (size <= LARGEST_SPACE).then_some(Command::Space { size })
        }
        _ => None,
    }
}

/// The five fields of a telegram, each a number that fits its bytes.
fn question(words: &[&[u8]]) -> Option<Question> {
    let &[command, node, parameter, control_word, data] = words else {
        return None;
    };
    Some(Question {
        command: narrow(command)?,
        node: narrow(node)?,
        parameter: narrow(parameter)?,
        control_word: narrow(control_word)?,
        data: unsigned(data)?,
    })
}

/// Decimal digits of a number that fits fewer than 32 bits.
fn narrow<T: TryFrom<u32>>(word: &[u8]) -> Option<T> {
    T::try_from(unsigned(word)?).ok()
}

/// Decimal digits, leading zeros too, of a number that fits 32 bits.
pub(crate) fn unsigned(word: &[u8]) -> Option<u32> {
    if word.is_empty() {
        return None;
    }
    word.iter().try_fold(0_u32, |number, &byte| {
        let digit = byte.is_ascii_digit().then(|| u32::from(byte - b'0'))?;
        number.checked_mul(10)?.checked_add(digit)
    })
}

/// Decimal digits, perhaps after a minus sign, of a number that fits a signed 32-bit number.
fn signed(word: &[u8]) -> Option<i32> {
    let number = match word.strip_prefix(b"-") {
        Some(digits) => -i64::from(unsigned(digits)?),
        None => i64::from(unsigned(word)?),
    };
    i32::try_from(number).ok()
}

/// Two hex digits for each byte, at least one byte.
pub(crate) fn bytes(word: &[u8]) -> Option<Vec<u8>> {
    if word.is_empty() {
        return None;
    }
    let byte = |digits: &[u8]| match *digits {
        [high, low] => Some(hex_digit(high)? << 4 | hex_digit(low)?),
        _ => None,
    };
    word.chunks(2).map(byte).collect()
}

fn hex_digit(byte: u8) -> Option<u8> {
    char::from(byte).to_digit(16).map(|digit| digit as u8)
}

/// A line of heads under a script.
#[derive(Clone, Debug)]
pub struct Simulation {
    line: Line,
    space: usize,
    lines_read: u64,
}

impl Default for Simulation {
    fn default() -> Simulation {
        Simulation { line: Line::new(), space: FIRST_SPACE, lines_read: 0 }
    }
}

impl Simulation {
    pub fn new() -> Simulation {
        Simulation::default()
    }

    pub fn line(&self) -> &Line {
        &self.line
    }

    pub fn space(&self) -> usize {
        self.space
    }

    /// The answer to the next line of the script; none if it is passed over.
    pub fn answer(&mut self, line: &[u8]) -> Option<String> {
        self.lines_read += 1;
        match meaning(line) {
            Meaning::PassedOver => None,
            Meaning::Command(command) => Some(self.obey(command)),
            Meaning::Error => Some(format!("error at line {}", self.lines_read)),
        }
    }

    fn obey(&mut self, command: Command) -> String {
        let outcome = match command {
            Command::Head { node, serial } => self.line.grow(node, serial),
            Command::Send { time, bytes } => return self.send(time, &bytes),
            Command::Ask { time, question } => return self.ask(time, &question),
            Command::Rack { time, place, bytes } => return self.rack(time, place as usize, &bytes),
            Command::Tick { time } => {
                self.line.tick(time);
                Ok(())
            }
            Command::Measure { head, value } => self.line.measure(head, value),
            Command::Keys { head, state } => return self.keys(head, state),
            Command::Power { head } => self.line.power(head),
            Command::Xor { head } => return self.xor(head),
            Command::Save { head } => return self.save(head),
            Command::Load { head, sheet } => self.line.load(head, &sheet),
            Command::Bring { head } => self.line.bring(head),
            Command::Space { size } => {
                self.space = size;
                Ok(())
            }
        };
        match outcome {
            Ok(()) => "ok".to_string(),
            Err(refusal) => refused(refusal),
        }
    }

    fn send(&mut self, time: u32, bytes: &[u8]) -> String {
        self.feed(time, bytes, "sent", hex)
    }

    fn ask(&mut self, time: u32, question: &Question) -> String {
        match question.telegram() {
            Ok(telegram) => self.feed(time, &telegram, "asked", |reply| finding(question.finding(reply))),
            Err(refusal) => refused(refusal),
        }
    }

    /// Feeds the bytes. The answer has this word and then, for each byte that drew replies, what one says or
    /// that they collided.
    fn feed(&mut self, time: u32, bytes: &[u8], word: &str, said: impl Fn(&[u8]) -> String) -> String {
        let mut answer = word.to_string();
        let mut space = vec![0; self.space];
        for &byte in bytes {
            let told = match self.line.byte(time, byte, &mut space) {
                // The space is the same for all bytes, so the first is refused and nothing has changed.
                Err(refusal) => return refused(refusal),
                Ok(0) => continue,
                Ok(1) => said(&space[..TELEGRAM_LENGTH]),
                Ok(replies) => format!("collision {replies}"),
            };
            answer.push(' ');
            answer.push_str(&told);
        }
        answer
    }

    fn rack(&mut self, time: u32, place: usize, bytes: &[u8]) -> String {
        let mut space = vec![0; self.space];
        match self.line.rack(time, bytes, place, &mut space) {
            Ok(Racked { replies, collisions }) => {
                let laid = space[place..].chunks(TELEGRAM_LENGTH).take(replies);
                let told: String = laid.map(|reply| format!(" {}", hex(reply))).collect();
                format!("racked {replies} {collisions}{told}")
            }
            Err(refusal) => refused(refusal),
        }
    }

    fn keys(&mut self, head: u32, state: u32) -> String {
        let mut space = vec![0; self.space];
        match self.line.keys(head, state, &mut space) {
            Ok(false) => "ok".to_string(),
            Ok(true) => format!("ok {}", hex(&space[..TELEGRAM_LENGTH])),
            Err(refusal) => refused(refusal),
        }
    }

    fn xor(&self, head: u32) -> String {
        match self.line.bits_hit(head) {
            Ok(bits) => format!("xor {}", hex(&[bits])),
            Err(refusal) => refused(refusal),
        }
    }

    fn save(&self, head: u32) -> String {
        let mut space = vec![0; self.space];
        match self.line.save(head, &mut space) {
            Ok(()) => format!("saved {}", hex(&space[..WRITTEN_LENGTH])),
            Err(refusal) => refused(refusal),
        }
    }
}

fn refused(refusal: Refusal) -> String {
    format!("refused {}", refusal.number())
}

fn finding(finding: Finding) -> String {
    match finding {
        Finding::Value(value) => format!("value {value}"),
        Finding::Error(code) => format!("error {code:04X}"),
        Finding::Foreign => "foreign".to_string(),
    }
}

pub fn hex(bytes: &[u8]) -> String {
    bytes.iter().map(|byte| format!("{byte:02X}")).collect()
}

/// Answers a whole script.
pub fn run(input: impl BufRead, output: impl Write) -> io::Result<()> {
    let mut simulation = Simulation::new();
    answer_lines(input, output, |line| simulation.answer(line))
}

/// Answers line by line, each as soon as it is read; one that is passed over has no answer.
pub(crate) fn answer_lines(
    mut input: impl BufRead,
    mut output: impl Write,
    mut answer: impl FnMut(&[u8]) -> Option<String>,
) -> io::Result<()> {
    let mut line = Vec::new();
    while read_line(&mut input, &mut line)? {
        if let Some(answer) = answer(&line) {
            writeln!(output, "{answer}")?;
            output.flush()?;
        }
    }
    Ok(())
}

/// Reads a line without its newline; false at the end of the input. Of a line that is too long only so much
/// is kept that it stays too long, so that memory does not grow with the input.
fn read_line(input: &mut impl BufRead, line: &mut Vec<u8>) -> io::Result<bool> {
    const KEPT: usize = LONGEST_LINE + 2;
    line.clear();
    let mut has_begun = false;
    loop {
        let piece = match input.fill_buf() {
            Ok(piece) => piece,
            Err(error) if error.kind() == ErrorKind::Interrupted => continue,
            Err(error) => return Err(error),
        };
        if piece.is_empty() {
            return Ok(has_begun);
        }
        has_begun = true;
        let newline = piece.iter().position(|&byte| byte == b'\n');
        let length = newline.unwrap_or(piece.len());
        let room = KEPT - line.len();
        line.extend_from_slice(&piece[..length.min(room)]);
        input.consume(length + usize::from(newline.is_some()));
        if newline.is_some() {
            return Ok(true);
        }
    }
}

#[cfg(test)]
mod tests {
    use super::*;

    fn output_of(script: &[u8]) -> String {
        let mut output = Vec::new();
        run(script, &mut output).unwrap();
        String::from_utf8(output).unwrap()
    }

    #[test]
    fn every_command_is_understood() {
        let fields = |command, node, parameter, control_word, data| Question {
            command,
            node,
            parameter,
            control_word,
            data,
        };
        let commands: [(&[u8], Command); 26] = [
            (b"head 31 4711", Command::Head { node: 31, serial: 4_711 }),
            (b"head 0 4294967295", Command::Head { node: 0, serial: u32::MAX }),
            (b" head\t4294967295  0000000000000\r", Command::Head { node: u32::MAX, serial: 0 }),
            (b"send 7 00fFA0", Command::Send { time: 7, bytes: vec![0x00, 0xFF, 0xA0] }),
            (b"ask 7 0 31 32 0 5", Command::Ask { time: 7, question: fields(0, 31, 32, 0, 5) }),
            (
                b"ask 4294967295 255 255 255 65535 4294967295",
                Command::Ask { time: u32::MAX, question: fields(255, 255, 255, u16::MAX, u32::MAX) },
            ),
            (
                b"\task 0000000000007 002  0000 00030\t0000512 000000000001 ",
                Command::Ask { time: 7, question: fields(2, 0, 30, 512, 1) },
            ),
            (b"rack 7 20 00fFA0", Command::Rack { time: 7, place: 20, bytes: vec![0x00, 0xFF, 0xA0] }),
            (b"rack 0 4294967295", Command::Rack { time: 0, place: u32::MAX, bytes: Vec::new() }),
            (b" rack\t007  00000000000 0a\r", Command::Rack { time: 7, place: 0, bytes: vec![0x0A] }),
            (b"tick 4294967295", Command::Tick { time: u32::MAX }),
            (b"measure 0 -2147483648", Command::Measure { head: 0, value: i32::MIN }),
            (b"\t keys  1\t5 ", Command::Keys { head: 1, state: 5 }),
            (b"power 0000000000000002", Command::Power { head: 2 }),
            (b"xor 4294967295", Command::Xor { head: u32::MAX }),
            (b"save 3", Command::Save { head: 3 }),
            (b" save\t4294967295 ", Command::Save { head: u32::MAX }),
            (b"load 000 0104aF", Command::Load { head: 0, sheet: vec![0x01, 0x04, 0xAF] }),
            (b"load 7 00\r", Command::Load { head: 7, sheet: vec![0x00] }),
            (b"load 4294967295", Command::Load { head: u32::MAX, sheet: Vec::new() }),
            (b"bring 0", Command::Bring { head: 0 }),
            (b" bring\t0000000000031 ", Command::Bring { head: 31 }),
            (b"bring 4294967295\r", Command::Bring { head: u32::MAX }),
            (b"space 64\r", Command::Space { size: 64 }),
            (b"space 1024", Command::Space { size: 1_024 }),
            (b"measure 0 -0", Command::Measure { head: 0, value: 0 }),
        ];
        for (line, command) in commands {
            assert_eq!(meaning(line), Meaning::Command(command));
        }
    }

    #[test]
    fn blank_lines_and_comments_are_passed_over() {
        for line in [&b""[..], b"\r", b" \t ", b"#", b"#send", b"  # head 1 2", b"\t#\xFF\x00"] {
            assert_eq!(meaning(line), Meaning::PassedOver);
        }
    }

    #[test]
    fn what_is_no_command_is_an_error() {
        let lines = b"heads 1 2|HEAD 1 2|head|head 1|head 31|head 1 2 3|head 1 2 #|head -1 2|head +1 2|\
            head -0 2|head 1a 2|head 0x1 2|head 4294967296 2|head 1# 2|head 99999999999999999999 2|head 1 -2|\
            head 1 +2|head 1 -0|head 1 2a|head 1 0x2|head 1 4294967296|head 1 4294967297|\
            head 1 18446744073709551616|head 1 2#|head 1,2|head 1 2,|head1 2|send 0|send 0 0|send 0 000|\
            send 0 0G|send 0 00 00|send 0 0x00|send 4294967296 00|ask|ask 0|ask 0 0|ask 0 0 31|\
            ask 0 0 31 32|ask 0 0 31 32 0|ask 0 0 31 32 0 0 0|\
            ask 4294967296 0 31 32 0 0|ask 0 256 31 32 0 0|ask 0 0 256 32 0 0|ask 0 0 31 256 0 0|\
            ask 0 0 31 32 65536 0|ask 0 0 31 32 0 4294967296|ask -0 0 31 32 0 0|ask 0 -0 31 32 0 0|\
            ask 0 0 -31 32 0 0|ask 0 0 31 -32 0 0|ask 0 0 31 32 -1 0|ask 0 0 31 32 0 -1|ask 0 0 31 32 0 -0|\
            ask +0 0 31 32 0 0|ask 0 0 1F 32 0 0|ask 0 0 31 0x20 0 0|ask 0 0 31 20h 0 0|ask 0 0 31 32 0 0#|\
            ask 0 0 31 32 0 18446744073709551616|ask 0 read 31 32 0 0|ASK 0 0 31 32 0 0|asked 0 0 31 32 0 0|\
            ask0 0 0 31 32 0 0|rack|rack 0|rack 0 0 0|rack 0 0 000|rack 0 0 0G|rack 0 0 00 00|rack 0 0 0x00|\
            rack 0 0 #|rack 0 0 -0|rack 0 -0|rack 0 -0 00|rack 0 +0|rack -0 0|rack 0 x|rack 0 1F|rack 0 0x0|rack 0 0#|\
            rack 4294967296 0|rack 0 4294967296|rack 0 4294967296 00|rack 0 18446744073709551616|rack 0,0|\
            RACK 0 0|racks 0 0|racked 0 0|rack0 0|tick|tick 1 2|measure 0|measure 0 2147483648|measure 0 -2147483649|\
            measure 0 -|measure 0 --1|measure 0 +1|measure -0 1|keys 0 -1|power|\
            xor|xor 0 0|xor -1|xor -0|xor x|xor 0x0|xor 4294967296|XOR 0|xor0|\
            save|save 0 0|save 0 00|save -0|save +0|save x|save 4294967296|SAVE 0|saved 0|save0|save 0#|\
            load|load 0 0|load 0 000|load 0 0G|load 0 00 00|load 0 0x00|load 0 #|load -0 00|load -0|load 00 -0|\
            load 4294967296|load 4294967296 00|load x 00|LOAD 0|loads 0 00|load0 00|\
            bring|bring 0 0|bring 0 #|bring -0|bring +0|bring -1|bring x|bring 0x0|bring 1F|bring 0#|bring 4294967296|\
            bring 18446744073709551616|BRING 0|brings 0|bring0|bring\x0B0|\
            space 1025|space 4294967295|space 65536|space -1|space|space 10 10|\
            head 1 2\r\r|head\x0B1 2|head 1\x0B2|\xFF\x00";
        for line in lines.split(|&byte| byte == b'|') {
            assert_eq!(meaning(line), Meaning::Error, "{}", line.escape_ascii());
        }
    }

    #[test]
    fn a_line_has_up_to_4096_bytes() {
        for (length, ending, answer) in [
            (4_096, "\n", "ok\n"),
            (4_096, "\r\n", "ok\n"),
            (4_096, "", "ok\n"),
            (4_097, "\n", "error at line 1\n"),
            (4_097, "\r\n", "error at line 1\n"),
            (4_098, "", "error at line 1\n"),
            (60_000, "\r\n", "error at line 1\n"),
        ] {
            let script = format!("{:<length$}{ending}", "head 1 2");
            assert_eq!(output_of(script.as_bytes()), answer, "{length} bytes");
        }
    }

    #[test]
    fn a_comment_that_is_too_long_is_an_error() {
        let script = format!("#{}\nhead 0 2\n", "-".repeat(4_096));
        assert_eq!(output_of(script.as_bytes()), "error at line 1\nrefused 1\n");
    }

    #[test]
    fn every_line_counts_and_the_last_may_lack_its_newline() {
        assert_eq!(output_of(b"\n# two\r\nthree\n\nfive"), "error at line 3\nerror at line 5\n");
        assert_eq!(output_of(b""), "");
        assert_eq!(output_of(b"\n"), "");
        assert_eq!(output_of(b"head 1 2\r"), "ok\n");
    }

    #[test]
    fn an_error_changes_nothing_and_the_script_goes_on() {
        assert_eq!(
            output_of(b"head 31 4711\nspace 1025\nsend 0 001F200000000000003F\n"),
            "ok\nerror at line 2\nsent 001F200000000000053A\n"
        );
    }

    #[test]
    fn long_lines_in_small_pieces_read_the_same() {
        let script = format!("head 31 4711\n{}\nsend 0 001F200000000000003F\n", "x".repeat(9_000));
        let mut output = Vec::new();
        run(io::BufReader::with_capacity(7, script.as_bytes()), &mut output).unwrap();
        assert_eq!(output, b"ok\nerror at line 2\nsent 001F200000000000053A\n");
    }
}
