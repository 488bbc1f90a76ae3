//! Makes random order forms. Many are short with little wrong, so that every answer is frequent; some have
//! several things wrong, so that the answers compete.

use crate::form_lines::{Speller, BYTE_ORDER_MARK};
use crate::form_rows;
use crate::random::Random;
use crate::text::Text;

const STRAY_BYTES: &[u8] = b"111222304,,,,;\t  \r\r\n\n\n\n\n#x-+\0\xEF\xBB\xBF\xFF";

/// Longer than any line that is not stretched.
const LONG: usize = 1_000;

pub fn form(seed: u64, number: u64) -> Text {
    let mut random = Random::new(seed, number);
    let mut lines = match random.below(100) {
        0..=3 => stray_lines(&mut random),
        _ => lines(&mut random),
    };
    mark(&mut random, &mut lines);
    Text { lines, ends_in_newline: random.chance(75) }
}

/// Hardly a form at all.
fn stray_lines(random: &mut Random) -> Vec<Vec<u8>> {
    let bytes: Vec<u8> = (0..random.below(40)).map(|_| random.pick(STRAY_BYTES)).collect();
    bytes.split(|&byte| byte == b'\n').map(<[u8]>::to_vec).collect()
}

fn lines(random: &mut Random) -> Vec<Vec<u8>> {
    let rows = form_rows::rows(random);
    let percent_passed_over = random.pick(&[0, 0, 0, 10, 30]);
    let mut speller = Speller::new(random);
    let mut lines = Vec::new();
    pass_over(&mut speller, &mut lines, percent_passed_over);
    if speller.random.chance(30) {
        lines.push(speller.heading());
    }
    for row in rows {
        pass_over(&mut speller, &mut lines, percent_passed_over);
        lines.push(speller.row(row));
    }
    pass_over(&mut speller, &mut lines, percent_passed_over);
    disturb(&mut speller, &mut lines);
    lines
}

/// Adds blank lines and comments, none of them in most places.
fn pass_over(speller: &mut Speller, lines: &mut Vec<Vec<u8>>, percent: u32) {
    while speller.random.chance(percent) {
        lines.push(speller.passed_over());
    }
}

/// Malformed lines, spoilt lines and long lines, none of them in most forms.
fn disturb(speller: &mut Speller, lines: &mut Vec<Vec<u8>>) {
    for _ in 0..speller.random.pick(&[0, 0, 0, 0, 0, 0, 0, 0, 0, 0, 0, 1, 1, 2]) {
        let place = place(speller.random, lines.len() + 1);
        lines.insert(place, speller.malformed());
    }
    if speller.random.chance(8) {
        // Below other lines a heading is malformed however short it is.
        let (place, line) = match speller.random.below(3) {
            0 => (0, speller.heading()),
            _ => (place(speller.random, lines.len() + 1), speller.passed_over()),
        };
        lines.insert(place, line);
        speller.stretch(&mut lines[place]);
    }
    if lines.is_empty() {
        return;
    }
    let place = place(speller.random, lines.len());
    match speller.random.below(100) {
        0..=5 => speller.spoil(&mut lines[place]),
        6..=10 => speller.stretch(&mut lines[place]),
        // The carriage return is not at the end, so that it stays when the space goes.
        11..=13 => lines[place].extend_from_slice(b"\r "),
        _ => {}
    }
}

/// Often the first or the last, where lines are special.
fn place(random: &mut Random, count: usize) -> usize {
    match random.below(4) {
        0 => 0,
        1 => count - 1,
        _ => random.below(count as u32) as usize,
    }
}

/// A byte order mark at the start, or one that is none: a part of it, a second one, one in another place.
fn mark(random: &mut Random, lines: &mut Vec<Vec<u8>>) {
    if lines.is_empty() && random.chance(50) {
        lines.push(Vec::new());
    }
    let Some(first) = lines.first() else {
        return;
    };
    // Whether it counts for the length of the line shows only in a long one.
    let percent = if first.len() > LONG { 60 } else { 20 };
    let (place, mark) = match random.below(100) {
        0 => (0, &BYTE_ORDER_MARK[..2]),
        1..=2 => (0, &b"\xEF\xBB\xBF\xEF\xBB\xBF"[..]),
        3..=4 => (0, &b" \xEF\xBB\xBF"[..]),
        5 => (0, &b"\xFE\xFF"[..]),
        6 => (place(random, lines.len()), BYTE_ORDER_MARK),
        other if other < 7 + percent => (0, BYTE_ORDER_MARK),
        _ => return,
    };
    lines[place].splice(..0, mark.iter().copied());
}

#[cfg(test)]
mod tests {
    use super::*;
    use reference::form::{check, Answer, Repeat, MOST_ROWS};
    use reference::script::LONGEST_LINE;
    use std::collections::BTreeMap;

    #[test]
    fn every_answer_is_frequent() {
        let mut counts = [0; 6];
        for number in 1..=500 {
            let kind = match check(&form(1, number).bytes()) {
                Answer::Accepted { .. } => 0,
                Answer::SentBack { repeat: Repeat::Serial { .. }, .. } => 1,
                Answer::SentBack { repeat: Repeat::Node { .. }, .. } => 2,
                Answer::NodeOutOfRange { .. } => 3,
                Answer::TooManyRows => 4,
                Answer::Malformed { .. } => 5,
            };
            counts[kind] += 1;
        }
        assert!(counts.iter().all(|&count| count >= 20), "{counts:?}");
    }

    #[test]
    fn edges_are_reached() {
        let forms: Vec<Text> = (1..=500).map(|number| form(1, number)).collect();
        let some = |is_so: &dyn Fn(&Text) -> bool| forms.iter().any(is_so);
        let some_line_has = |length: usize| some(&|form| form.lines.iter().any(|line| line.len() == length));
        assert!(some(&|form| form.bytes().is_empty()));
        assert!(some(&|form| check(&form.bytes()) == Answer::Accepted { rows: MOST_ROWS }));
        assert!(some(&|form| form.bytes().windows(2).any(|pair| pair == b"\r ")));
        assert!(some_line_has(LONGEST_LINE) && some_line_has(LONGEST_LINE + 1));
    }

    #[test]
    fn lowest_free_numbers_are_frequent_at_the_edges_and_spread_between() {
        let mut counts = BTreeMap::new();
        for number in 1..=500 {
            if let Answer::SentBack { lowest_free, .. } = check(&form(1, number).bytes()) {
                *counts.entry(lowest_free).or_insert(0) += 1;
            }
        }
        let edges = [Some(1), Some(63), Some(64), Some(65), Some(126), Some(127), None];
        assert!(edges.iter().all(|edge| counts.get(edge).is_some_and(|&count| count >= 4)), "{counts:?}");
        assert!(counts.len() >= 40, "{counts:?}");
    }

    #[test]
    fn rows_after_a_repeat_often_change_the_lowest_free_number() {
        let changes = |form: &Text| {
            let answer = check(&form.bytes());
            let Answer::SentBack { repeat: Repeat::Serial { line, .. } | Repeat::Node { line, .. }, .. } =
                answer
            else {
                return false;
            };
            let lines = form.lines[..line].to_vec();
            check(&Text { lines, ends_in_newline: true }.bytes()) != answer
        };
        assert!((1..=500).filter(|&number| changes(&form(1, number))).count() >= 40);
    }
}
