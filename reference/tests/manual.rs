//! The manual's worked examples, with the check sums that the formula gives and the status words of document 01
//! as request (iii) has them.

mod common;
use common::{Desk, READ, WRITE};

#[test]
fn the_error_telegram_of_6_5() {
    assert_eq!(Desk::with_heads(&[1]).send("01010400000000005A5E"), "0101FD0000000002827D");
}

#[test]
fn reading_the_target_window_of_6_10_1() {
    assert_eq!(Desk::with_heads(&[1]).send("00012000000000000021"), "00012000000000000524");
}

#[test]
fn writing_the_offset_of_6_10_2() {
    let mut desk = Desk::with_heads(&[1]);
    assert_eq!(desk.send("01011E0000000001F4EB"), "01011E0000000001F4EB");
    assert_eq!(desk.send("00011E0000000000001F"), "00011E0000000001F4EA");
}

#[test]
fn writing_the_set_point_of_6_10_2() {
    let mut desk = Desk::with_heads(&[1]);
    assert_eq!(desk.send("0101FF0200000004D22B"), "0101FF0000000004D229");
    // Bit 10, and bit 0 because 0 lies below 1234: the word that the manual's reply shows comes one telegram later.
    assert_eq!(desk.send("0001FF000000000000FE"), "0001FF0401000004D22D");
}

#[test]
fn the_input_error_of_6_9_44() {
    let mut desk = Desk::with_heads(&[31]);
    assert_eq!(desk.refusal(READ, 0x63, 0), 0x0083);
    let reply = desk.telegram(READ, 31, 0x96, 0, 0x0100_0000);
    assert_eq!(reply, "001F960000010000830B");
}

#[test]
fn the_divisor_and_its_application_of_6_9_12() {
    let examples = [
        (1, 2, 12_348, 12_348, true),
        (1, 2, 12_348, 1_235, false),
        (3, 0, 12, 12, true),
        (3, 1, 12_348, 12, true),
        (3, 2, 12_348, 12_348, true),
        (3, 2, 12_348, 1_235, false),
    ];
    for (divisor, application, shown, set_point, attained) in examples {
        let mut desk = Desk::with_heads(&[31]);
        desk.write(0x0B, divisor);
        desk.write(0x33, application);
        desk.ok("measure 0 12348");
        desk.write_with(0xFF, 0x0200, set_point);
        assert_eq!(desk.read(0xFE), shown);
        assert_eq!(desk.status() & 1 << 5 != 0, attained);
    }
}

#[test]
fn calibration_of_4_4() {
    let mut desk = Desk::with_heads(&[31]);
    desk.ok("measure 0 777");
    desk.write(0x1F, 1_000);
    desk.write(0x1E, 30);
    assert_eq!(desk.read(0xFE), 807);
    assert_eq!(desk.telegram(WRITE, 31, 0xA7, 0, 1).len(), 20);
    assert_eq!(desk.read(0xFE), 1_030);
}
