//! Every line of document 01's "Sums at the edges".

mod common;
use common::{code_of, Desk, READ, WRITE};

#[test]
fn read_of_20h() {
    assert_eq!(Desk::with_heads(&[31]).send("001F200000000000003F"), "001F200000000000053A");
}

#[test]
fn write_of_90_to_04h() {
    assert_eq!(Desk::with_heads(&[31]).send("011F0400000000005A40"), "011FFD00000000028263");
}

#[test]
fn values_of_3eh() {
    let mut desk = Desk::with_heads(&[31]);
    assert_eq!(desk.refusal(WRITE, 0x3E, 1), 0x0082);
    assert_eq!(desk.refusal(WRITE, 0x3E, 3), 0x0282);
    desk.write(0x3E, 2);
    assert_eq!(desk.read(0x3E), 2);
}

#[test]
fn values_of_00h() {
    let mut desk = Desk::with_heads(&[31]);
    assert_eq!(desk.refusal(WRITE, 0x00, 0), 0x0182);
    assert_eq!(desk.refusal(WRITE, 0x00, 128), 0x0282);
}

#[test]
fn values_of_1ch() {
    let mut desk = Desk::with_heads(&[31]);
    desk.write(0x1C, 65_535);
    assert_eq!(desk.refusal(WRITE, 0x1C, 65_536), 0x0282);
    assert_eq!(desk.read(0x1C), 65_535);
}

#[test]
fn values_of_1eh() {
    let mut desk = Desk::with_heads(&[31]);
    desk.write(0x1E, -19_999);
    assert_eq!(desk.refusal(WRITE, 0x1E, -20_000), 0x0182);
    assert_eq!(desk.read(0x1E), -19_999);
}

#[test]
fn a_locked_write_out_of_range_is_locked() {
    let mut desk = Desk::with_heads(&[31]);
    desk.write(0x0E, 1);
    assert_eq!(desk.refusal(WRITE, 0x04, 90), 0x0385);
}

#[test]
fn the_manuals_43h_telegram_is_damaged() {
    assert_eq!(code_of(&Desk::with_heads(&[1]).send("0101FF0200000004D243")), 0x0080);
}

#[test]
fn ten_milliseconds_keep_a_telegram_and_eleven_do_not() {
    for (gap, reply) in [(10, "001F200000000000053A"), (11, "")] {
        let mut desk = Desk::with_heads(&[31]);
        assert_eq!(desk.send("001F200000"), "");
        desk.time += gap;
        assert_eq!(desk.send("000000003F"), reply);
    }
}

#[test]
fn rounding_by_the_divisor() {
    for (measurement, shown) in [(12_348, 1_235), (-12_345, -1_235)] {
        let mut desk = Desk::with_heads(&[31]);
        desk.write(0x0B, 1);
        desk.ok(&format!("measure 0 {measurement}"));
        assert_eq!(desk.read(0xFE), shown);
    }
}

#[test]
fn the_differential_value_is_held() {
    let mut desk = Desk::with_heads(&[31]);
    desk.write(0xFF, 2_147_483_647);
    assert_eq!(desk.read(0xFC), -5_242_880);
    desk.write(0x34, 1);
    assert_eq!(desk.read(0xFC), 5_242_880);
}

#[test]
fn two_damaged_one_sound_two_damaged_are_no_error() {
    let mut desk = Desk::with_heads(&[31]);
    desk.damaged(READ, 31);
    desk.damaged(READ, 31);
    assert_eq!(desk.read(0x20), 5);
    desk.damaged(READ, 31);
    desk.damaged(READ, 31);
    assert_eq!(desk.read(0x80), 0);
    assert_eq!(desk.read(0xFD), 0);
}

#[test]
fn a_timeout_of_1_is_seen_at_100_milliseconds() {
    for (tick, error) in [(99, 0), (100, 0x81)] {
        let mut desk = Desk::with_heads(&[31]);
        desk.write(0x02, 1);
        desk.ok(&format!("tick {tick}"));
        assert_eq!(desk.read(0xFD), error);
        assert_eq!(desk.read(0x81), error);
    }
}

#[test]
fn a_new_number_counts_after_a0h_9() {
    let mut desk = Desk::with_heads(&[31]);
    desk.write(0x00, 12);
    assert_eq!(desk.read(0x00), 12);
    assert_eq!(desk.telegram(READ, 12, 0x00, 0, 0), "");
    assert_eq!(desk.telegram(WRITE, 31, 0xA0, 0, 9), "011FA0000000000009B7");
    assert_eq!(desk.telegram(READ, 31, 0x00, 0, 0), "");
    assert_eq!(desk.telegram(READ, 12, 0x00, 0, 0), "000C0000000000000C00");
}
