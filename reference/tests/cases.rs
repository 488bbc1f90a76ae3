//! The collections of cases of the programs give the answers that were worked out for them.

use reference::head::Head;
use reference::script::{self, hex};

fn assert_same_lines(answers: &str, expected: &str) {
    for (number, (answer, expected)) in answers.lines().zip(expected.lines()).enumerate() {
        assert_eq!(answer, expected, "answer {}", number + 1);
    }
    assert_eq!(answers.lines().count(), expected.lines().count());
}

fn assert_answers(script: &[u8], expected: &str) {
    let mut output = Vec::new();
    script::run(script, &mut output).unwrap();
    assert_same_lines(&String::from_utf8(output).unwrap(), expected);
}

#[test]
fn the_cases_of_simulate() {
    assert_answers(
        include_bytes!("../../crates/simulate/stdin"),
        include_str!("../../crates/simulate/stdout"),
    );
}

#[test]
fn the_questions() {
    assert_answers(include_bytes!("../../tests/ask.script"), include_str!("../../tests/ask.answers"));
}

#[test]
fn the_sheets() {
    assert_answers(include_bytes!("../../tests/sheet.script"), include_str!("../../tests/sheet.answers"));
}

#[test]
fn the_display() {
    assert_answers(include_bytes!("../../tests/display.script"), include_str!("../../tests/display.answers"));
}

#[test]
fn the_serials() {
    assert_answers(include_bytes!("../../tests/serial.script"), include_str!("../../tests/serial.answers"));
}

#[test]
fn the_racks() {
    assert_answers(include_bytes!("../../tests/rack.script"), include_str!("../../tests/rack.answers"));
}

#[test]
fn what_is_retired() {
    assert_answers(include_bytes!("../../tests/retired.script"), include_str!("../../tests/retired.answers"));
}

#[test]
fn the_cases_of_bench() {
    let bytes = include_bytes!("../../crates/bench/stdin");
    let mut head = Head::factory(4_711);
    let replies = bytes.iter().filter_map(|&byte| head.byte(0, byte));
    let answers: String = replies.map(|reply| hex(&reply) + "\n").collect();
    assert_same_lines(&answers, include_str!("../../crates/bench/stdout"));
}
