//! Makes a script, an order form or an office text that shows a difference as short as possible.

use crate::text::Text;
use reference::master::Question;
use reference::office;
use reference::script::{hex, meaning, Command, Meaning};
use reference::sheet::{written, Reader, Setting};
use reference::telegram::{Telegram, TELEGRAM_LENGTH};

pub type StillDiffers<'a, T> = &'a mut dyn FnMut(&T) -> bool;

/// Each try runs a program, and the bytes of a long form or office text are many.
const MOST_TRIES: u32 = 2_000;

/// Drops lines, heads, bytes of sends and racks, fields of questions and rows of sheets, and again, until nothing more
/// can go.
pub fn shrink_script(mut script: Text, still_differs: StillDiffers<Text>) -> Text {
    loop {
        let length_before = script.bytes().len();
        shrink_lines(&mut script, still_differs);
        shrink_heads(&mut script, still_differs);
        shrink_sends(&mut script, still_differs);
        shrink_racks(&mut script, still_differs);
        shrink_asks(&mut script, still_differs);
        shrink_loads(&mut script, still_differs);
        if script.bytes().len() == length_before {
            return script;
        }
    }
}

/// Drops lines and bytes of lines, and again, until nothing more can go or enough has been tried.
pub fn shrink_form(form: Text, still_differs: StillDiffers<Text>) -> Text {
    shrink_text(form, &[shrink_lines, shrink_bytes], still_differs)
}

/// Drops lines, fields of telegrams and bytes of lines, likewise.
pub fn shrink_office_text(text: Text, still_differs: StillDiffers<Text>) -> Text {
    shrink_text(text, &[shrink_lines, shrink_telegrams, shrink_bytes], still_differs)
}

fn shrink_text(
    mut text: Text,
    steps: &[fn(&mut Text, StillDiffers<Text>)],
    still_differs: StillDiffers<Text>,
) -> Text {
    let mut tries = 0;
    let mut differs = |text: &Text| {
        tries += 1;
        tries <= MOST_TRIES && still_differs(text)
    };
    end_in_newline(&mut text, &mut differs);
    loop {
        let before = text.bytes();
        for step in steps {
            step(&mut text, &mut differs);
        }
        if text.bytes() == before {
            return text;
        }
    }
}

/// A newline too few is only to be seen where it makes the difference.
fn end_in_newline(text: &mut Text, still_differs: StillDiffers<Text>) {
    let ended = Text { ends_in_newline: true, ..text.clone() };
    if still_differs(&ended) {
        *text = ended;
    }
}

fn shrink_bytes(text: &mut Text, still_differs: StillDiffers<Text>) {
    for number in 0..text.lines.len() {
        let mut line = text.lines[number].clone();
        shrink_list(&mut line, &mut |line| {
            let mut changed = text.clone();
            changed.lines[number] = line.to_vec();
            still_differs(&changed)
        });
        text.lines[number] = line;
    }
}

/// Word and data of a telegram become 0 where they are not needed, and its spelling the plain one.
fn shrink_telegrams(text: &mut Text, still_differs: StillDiffers<Text>) {
    for number in 0..text.lines.len() {
        let office::Meaning::Telegram(bytes) = office::meaning(&text.lines[number]) else {
            continue;
        };
        let found = simpler_telegrams(bytes).into_iter().find_map(|bytes| {
            let mut changed = text.clone();
            changed.lines[number] = hex(&bytes).into_bytes();
            still_differs(&changed).then_some(changed)
        });
        if let Some(changed) = found {
            *text = changed;
        }
    }
}

/// The simplest first. The bits that were hit stay so, all of them in the check sum, but for the telegram itself.
fn simpler_telegrams(bytes: [u8; TELEGRAM_LENGTH]) -> [[u8; TELEGRAM_LENGTH]; 4] {
    let telegram = Telegram::received(bytes);
    let with = |control_word, data| {
        let (command, node, parameter) = (telegram.command(), telegram.node(), telegram.parameter());
        let mut bytes = Telegram::new(command, node, parameter, control_word, data).bytes();
        bytes[TELEGRAM_LENGTH - 1] ^= telegram.exclusive_or();
        bytes
    };
    [with(0, 0), with(0, telegram.data()), with(telegram.control_word(), 0), bytes]
}

fn shrink_lines(text: &mut Text, still_differs: StillDiffers<Text>) {
    let ends_in_newline = text.ends_in_newline;
    let mut differs = |lines: &[Vec<u8>]| still_differs(&Text { lines: lines.to_vec(), ends_in_newline });
    shrink_list(&mut text.lines, &mut differs);
    drop_pairs(&mut text.lines, &mut differs);
}

/// A head that others follow can only go if the calls on those name them by one less.
fn shrink_heads(script: &mut Text, still_differs: StillDiffers<Text>) {
    let is_head = |line: &Vec<u8>| matches!(meaning(line), Meaning::Command(Command::Head { .. }));
    let mut number = 0;
    while let Some((line, _)) = script.lines.iter().enumerate().filter(|(_, line)| is_head(line)).nth(number)
    {
        let mut without = script.clone();
        without.lines.remove(line);
        for line in &mut without.lines {
            renumber(line, number as u32);
        }
        if still_differs(&without) {
            *script = without;
        } else {
            number += 1;
        }
    }
}

/// What a line says when the head of this number is gone.
fn renumber(line: &mut Vec<u8>, gone: u32) {
    let Meaning::Command(command) = meaning(line) else {
        return;
    };
    let renumbered = match command {
        Command::Measure { head, value } if head > gone => format!("measure {} {value}", head - 1),
        Command::Keys { head, state } if head > gone => format!("keys {} {state}", head - 1),
        Command::Power { head } if head > gone => format!("power {}", head - 1),
        Command::Xor { head } if head > gone => format!("xor {}", head - 1),
        Command::Save { head } if head > gone => format!("save {}", head - 1),
        Command::Load { head, sheet } if head > gone => load_line(head - 1, &sheet),
        Command::Bring { head } if head > gone => format!("bring {}", head - 1),
        _ => return,
    };
    *line = renumbered.into_bytes();
}

fn shrink_sends(script: &mut Text, still_differs: StillDiffers<Text>) {
    for number in 0..script.lines.len() {
        let Meaning::Command(Command::Send { time, mut bytes }) = meaning(&script.lines[number]) else {
            continue;
        };
        let with = |bytes: &[u8]| {
            let mut changed = script.clone();
            changed.lines[number] = format!("send {time} {}", hex(bytes)).into_bytes();
            changed
        };
        // If the spelling of the line makes the difference, its bytes do not.
        if !still_differs(&with(&bytes)) {
            continue;
        }
        let mut differs = |bytes: &[u8]| !bytes.is_empty() && still_differs(&with(bytes));
        drop_chunks(&mut bytes, TELEGRAM_LENGTH, &mut differs);
        shrink_list(&mut bytes, &mut differs);
        *script = with(&bytes);
    }
}

/// Telegrams go before single bytes, as those that are left would be others.
fn shrink_racks(script: &mut Text, still_differs: StillDiffers<Text>) {
    for number in 0..script.lines.len() {
        let Meaning::Command(Command::Rack { time, place, mut bytes }) = meaning(&script.lines[number])
        else {
            continue;
        };
        let with = |bytes: &[u8]| {
            let mut changed = script.clone();
            changed.lines[number] = rack_line(time, place, bytes).into_bytes();
            changed
        };
        // If the spelling of the line makes the difference, its bytes do not.
        if !still_differs(&with(&bytes)) {
            continue;
        }
        let mut differs = |bytes: &[u8]| still_differs(&with(bytes));
        drop_chunks(&mut bytes, TELEGRAM_LENGTH, &mut differs);
        shrink_list(&mut bytes, &mut differs);
        *script = with(&bytes);
    }
}

fn rack_line(time: u32, place: u32, bytes: &[u8]) -> String {
    match bytes {
        [] => format!("rack {time} {place}"),
        _ => format!("rack {time} {place} {}", hex(bytes)),
    }
}

/// Word and data of a question become 0 where they are not needed.
fn shrink_asks(script: &mut Text, still_differs: StillDiffers<Text>) {
    for number in 0..script.lines.len() {
        let Meaning::Command(Command::Ask { time, question }) = meaning(&script.lines[number]) else {
            continue;
        };
        let simpler = [
            Question { control_word: 0, data: 0, ..question },
            Question { control_word: 0, ..question },
            Question { data: 0, ..question },
            question,
        ];
        let found = simpler.into_iter().find_map(|question| {
            let mut changed = script.clone();
            changed.lines[number] = ask_line(time, &question).into_bytes();
            still_differs(&changed).then_some(changed)
        });
        if let Some(changed) = found {
            *script = changed;
        }
    }
}

fn ask_line(time: u32, question: &Question) -> String {
    let Question { command, node, parameter, control_word, data } = question;
    format!("ask {time} {command} {node} {parameter} {control_word} {data}")
}

/// A sheet that is well-formed loses rows and stays so; any other loses bytes.
fn shrink_loads(script: &mut Text, still_differs: StillDiffers<Text>) {
    for number in 0..script.lines.len() {
        let Meaning::Command(Command::Load { head, mut sheet }) = meaning(&script.lines[number]) else {
            continue;
        };
        let with = |sheet: &[u8]| {
            let mut changed = script.clone();
            changed.lines[number] = load_line(head, sheet).into_bytes();
            changed
        };
        // If the spelling of the line makes the difference, its sheet does not.
        if !still_differs(&with(&sheet)) {
            continue;
        }
        let settings: Option<Vec<Setting>> = Reader::new(&sheet).ok().map(Iterator::collect);
        match settings {
            Some(mut settings) => {
                shrink_list(&mut settings, &mut |settings| still_differs(&with(&written(settings))));
                sheet = written(&settings);
            }
            None => shrink_list(&mut sheet, &mut |sheet| still_differs(&with(sheet))),
        }
        *script = with(&sheet);
    }
}

fn load_line(head: u32, sheet: &[u8]) -> String {
    match sheet {
        [] => format!("load {head}"),
        _ => format!("load {head} {}", hex(sheet)),
    }
}

/// Drops chunks, from half of the list down to single items, as long as what is left still differs.
fn shrink_list<T: Clone>(list: &mut Vec<T>, still_differs: StillDiffers<[T]>) {
    let mut size = list.len().div_ceil(2);
    while size > 1 {
        drop_chunks(list, size, still_differs);
        size /= 2;
    }
    // A single item may become superfluous when a later one is gone.
    while drop_chunks(list, 1, still_differs) {}
}

/// Whether any chunk of this size could go.
fn drop_chunks<T: Clone>(list: &mut Vec<T>, size: usize, still_differs: StillDiffers<[T]>) -> bool {
    let mut has_shrunk = false;
    let mut start = 0;
    while start < list.len() {
        let end = (start + size).min(list.len());
        let without = [&list[..start], &list[end..]].concat();
        if still_differs(&without) {
            *list = without;
            has_shrunk = true;
        } else {
            start = end;
        }
    }
    has_shrunk
}

/// Drops lines that can only go together, in a text that is short enough to try all pairs.
fn drop_pairs(lines: &mut Vec<Vec<u8>>, still_differs: StillDiffers<[Vec<u8>]>) {
    const SHORT: usize = 20;
    let mut first = 0;
    while lines.len() <= SHORT && first < lines.len() {
        let without = (first + 1..lines.len()).find_map(|second| {
            let mut without = lines.clone();
            without.remove(second);
            without.remove(first);
            still_differs(&without).then_some(without)
        });
        match without {
            Some(without) => *lines = without,
            None => first += 1,
        }
    }
}

#[cfg(test)]
mod tests {
    use super::*;

    fn text(lines: &[&str]) -> Text {
        let lines = lines.iter().map(|line| line.as_bytes().to_vec()).collect();
        Text { lines, ends_in_newline: true }
    }

    #[test]
    fn only_what_is_needed_is_kept() {
        let mut list: Vec<u32> = (0..100).collect();
        let needed = [3, 50, 51, 99];
        shrink_list(&mut list, &mut |list| needed.iter().all(|item| list.contains(item)));
        assert_eq!(list, needed);
    }

    #[test]
    fn bytes_of_sends_go_too() {
        let script = text(&["head 31 4711", "tick 5", "send 7 001122334455", "# x"]);
        let mut has_33 = |script: &Text| script.bytes().windows(2).any(|pair| pair == b"33");
        assert_eq!(shrink_script(script, &mut has_33).bytes(), b"send 7 33\n");
    }

    #[test]
    fn telegrams_of_racks_go_too() {
        let telegrams = "001F200000000000003F001F210000000000003E001F220000000000003D";
        let script = text(&["head 31 4711", &format!("rack  7 005 {telegrams}"), "rack 7 0"]);
        let mut reads_21h = |script: &Text| {
            script.lines.iter().any(|line| match meaning(line) {
                Meaning::Command(Command::Rack { bytes, .. }) => {
                    bytes.chunks(10).any(|telegram| telegram.len() == 10 && telegram[2] == 0x21)
                }
                _ => false,
            })
        };
        let shrunk = shrink_script(script, &mut reads_21h);
        assert_eq!(shrunk.bytes(), b"rack 7 5 001F210000000000003E\n");
        let script = text(&["rack 7 5 001122334455", "send 7 00"]);
        let mut is_at_5 = |script: &Text| script.bytes().starts_with(b"rack 7 5");
        assert_eq!(shrink_script(script, &mut is_at_5).bytes(), b"rack 7 5\n");
    }

    #[test]
    fn fields_of_questions_become_0() {
        let data_of = |line: &[u8]| match meaning(line) {
            Meaning::Command(Command::Ask { question, .. }) => question.data,
            _ => 0,
        };
        let script = text(&["head 31 4711", "ask 7 0 31 32 4 8", "ask  007 1 31 32 512 9 "]);
        let mut asks_for_9 = |script: &Text| script.lines.iter().any(|line| data_of(line) == 9);
        assert_eq!(shrink_script(script, &mut asks_for_9).bytes(), b"ask 7 1 31 32 0 9\n");
    }

    #[test]
    fn rows_of_sheets_go_too() {
        // 04h 1, 05h 0 and 20h 51 (33h); the sheet of 20h alone has the body at 4.
        let script = text(&["head 31 4711", "load 0 0304000A05000E200012000000010000000000000033", "# x"]);
        let mut sets_20h = |script: &Text| {
            script.lines.iter().any(|line| match meaning(line) {
                Meaning::Command(Command::Load { sheet, .. }) => {
                    Reader::new(&sheet).is_ok_and(|mut rows| rows.any(|row| row.address == 0x20))
                }
                _ => false,
            })
        };
        assert_eq!(shrink_script(script, &mut sets_20h).bytes(), b"load 0 0120000400000033\n");
        // Malformed, as it begins with a row count that its length does not fit.
        let script = text(&["load 0 05112233", "load 0 00"]);
        let mut has_33 = |script: &Text| script.bytes().windows(2).any(|pair| pair == b"33");
        assert_eq!(shrink_script(script, &mut has_33).bytes(), b"load 0 33\n");
    }

    #[test]
    fn heads_before_the_one_needed_go() {
        let script = text(&["head 1 7", "head 2 8", "head 3 9", "keys 1 7", "power 2"]);
        let mut powers_a_head = |script: &Text| {
            let answers = crate::answers::reference_script(&script.bytes());
            answers.last().is_some_and(|answer| answer == "ok")
                && script.bytes().windows(5).any(|word| word == b"power")
        };
        assert_eq!(shrink_script(script, &mut powers_a_head).bytes(), b"head 3 9\npower 0\n");
    }

    #[test]
    fn calls_on_later_heads_name_them_by_one_less() {
        for (line, renumbered) in [
            ("measure 2 -5", "measure 1 -5"),
            ("keys 2 7", "keys 1 7"),
            ("power 2", "power 1"),
            ("xor 2", "xor 1"),
            ("save 2", "save 1"),
            ("load 2", "load 1"),
            ("load 2 00", "load 1 00"),
            ("bring 2", "bring 1"),
            ("bring 1", "bring 1"),
            ("xor 1", "xor 1"),
            ("xor 0", "xor 0"),
        ] {
            let mut line = line.as_bytes().to_vec();
            renumber(&mut line, 1);
            assert_eq!(line, renumbered.as_bytes());
        }
    }

    #[test]
    fn lines_that_need_each_other_go_together() {
        let script = text(&["head 1 7", "keys 0 1", "keys 0 0"]);
        let mut ones_and_zeros_are_even = |script: &Text| {
            let count = |line: &[u8]| script.lines.iter().filter(|other| *other == line).count();
            count(b"keys 0 1") == count(b"keys 0 0") && count(b"head 1 7") == 1
        };
        assert_eq!(shrink_script(script, &mut ones_and_zeros_are_even).bytes(), b"head 1 7\n");
    }

    #[test]
    fn only_the_bytes_that_are_needed_stay_in_a_form() {
        let form = text(&["serial,node", "4711,12", "# x", "4712,12", "4713,14"]);
        let mut repeats_a_number = |form: &Text| {
            let answers = crate::answers::reference_form(&form.bytes());
            answers[0].starts_with("line ") && answers[0].contains("node number")
        };
        let shrunk = shrink_form(Text { ends_in_newline: false, ..form }, &mut repeats_a_number);
        assert_eq!(shrunk.bytes(), b"1,12\n2,12\n");
    }

    #[test]
    fn the_rows_that_a_free_number_needs_stay_in_a_form() {
        let form = text(&["8,6", "1,3", "2,1", "# x", "9,5", "3,3", "4,2"]);
        let mut frees_4 = |form: &Text| {
            let answers = crate::answers::reference_form(&form.bytes());
            answers[1] == "the lowest free number is 4"
        };
        assert_eq!(shrink_form(form, &mut frees_4).bytes(), b"1,3\n2,1\n3,3\n4,2\n");
    }

    #[test]
    fn a_form_of_long_lines_is_not_tried_for_ever() {
        let line = "-".repeat(60_000);
        let mut tries = 0;
        let shrunk = shrink_form(text(&[&line, &line]), &mut |form| {
            tries += 1;
            form.lines.iter().any(|line| line.len() > 4_096)
        });
        assert_eq!(shrunk.lines.len(), 1);
        assert!(shrunk.lines[0].len() < 4_110, "{}", shrunk.lines[0].len());
        assert_eq!(tries, MOST_TRIES);
    }

    #[test]
    fn only_what_is_needed_of_telegrams_stays_in_an_office_text() {
        // 20h 7, something that is no telegram, FFh 3 as valid, and a read that shows it in bit 10.
        let lines =
            ["# desk", " 011f201234000000071f\t\r", "x", "011FFF020000000003E0", "001F6501230000000058\r"];
        let shrunk = shrink_office_text(text(&lines), &mut |text| {
            let answers = crate::answers::reference_office(&text.bytes());
            answers.iter().any(|answer| answer.starts_with("001F6504"))
        });
        assert_eq!(shrunk.bytes(), b"011FFF020000000000E3\n001F650000000000007A\n");
        // The bits that were hit stay so.
        let shrunk = shrink_office_text(text(&["001F201234000000071F"]), &mut |text| {
            crate::answers::reference_office(&text.bytes()) == ["001FFD00000000008062"]
        });
        assert_eq!(shrunk.bytes(), b"001F200000000000003E\n");
        // A line that is no telegram loses bytes.
        let shrunk = shrink_office_text(text(&["001F200000000000003F", "zzzzz"]), &mut |text| {
            crate::answers::reference_office(&text.bytes()).iter().any(|answer| answer.starts_with("error"))
        });
        assert_eq!(shrunk.bytes(), b"z\n");
    }
}
