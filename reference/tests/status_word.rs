//! Request (iii): which status word a reply carries. Writes of FBh and FFh keep the word from before them, and
//! so do the read of FAh, A0h 9 and the reply of Auto-ID; every other reply has the word after its effects. All
//! words are worked out by hand: 10 set point 2 valid, 2 set point 1 valid, 5 in the window 20h, 3 within 31h,
//! 6 above, 0 and 1 where to turn, 4 static, 7 error, 8 frozen, 13 to 15 keys; 9 is 0.

mod common;
use common::{code_of, Desk, READ, WRITE};
use reference::rows::ROWS;
use reference::script::hex;
use reference::telegram::{Telegram, BROADCAST};

const SET_POINT_1_VALID: u16 = 1 << 2;
const CLEAR_STATIC: u16 = 1 << 4;
const ACKNOWLEDGE: u16 = 1 << 5;
const SET_POINT_2_VALID: u16 = 1 << 9;

/// A head at 31 with this measurement and this set point 2, valid.
fn with_set_point(measurement: i32, set_point: i64) -> Desk {
    let mut desk = Desk::with_heads(&[31]);
    desk.ok(&format!("measure 0 {measurement}"));
    desk.write_with(0xFF, SET_POINT_2_VALID, set_point);
    desk
}

fn word_of(reply: &str) -> u16 {
    assert_eq!(reply.len(), 20, "one reply: {reply}");
    u16::from_str_radix(&reply[6..10], 16).unwrap()
}

/// The word in the reply to a write that is obeyed.
fn word_of_write(desk: &mut Desk, parameter: u8, data: i64) -> u16 {
    word_of(&desk.write_with(parameter, 0, data))
}

/// What a telegram draws of which only the check sum was hit.
fn hit(desk: &mut Desk, command: u8, parameter: u8, control_word: u16, data: i64) -> String {
    let mut bytes = Telegram::new(command, 31, parameter, control_word, data as u32).bytes();
    bytes[9] ^= 0x10;
    desk.send(&hex(&bytes))
}

/// Two damaged ones, which are for nobody here; the next damaged one raises 0080h.
fn two_damaged(desk: &mut Desk) {
    for _ in 0..2 {
        assert_eq!(desk.damaged(READ, 99), "");
    }
}

fn raise_error(desk: &mut Desk) {
    two_damaged(desk);
    assert_eq!(desk.damaged(READ, 99), "");
}

// "Every other reply carries the word after its effects": writes of the 39.

/// S -20 at A 0 is 0442: valid, above, outside, turn back.
#[test]
fn a_write_of_one_of_the_39_shows_what_it_did() {
    let mut desk = with_set_point(0, -20);
    assert_eq!(desk.status(), 0x0442);
    for (parameter, value, word) in [
        // Distance 20 is within 20h 20, and within 31h 20; 20h 19 leaves it outside, within 31h still.
        (0x20, 20, 0x0460),
        (0x31, 20, 0x0468),
        (0x20, 19, 0x044A),
        // The other direction: bit 0 for bit 1.
        (0x1B, 1, 0x0449),
        // A -20 is S, not above it.
        (0x1E, -20, 0x0428),
        // A -50, 30 below: bit 1, as 1Bh is 1.
        (0x1E, -50, 0x0402),
        // A -5, 15 above: in both windows.
        (0x0B, 1, 0x0468),
        // A is the position, -50, with 33h 2 alone.
        (0x33, 2, 0x0402),
        (0x33, 1, 0x0468),
        (0x33, 0, 0x0468),
        (0x0B, 0, 0x0402),
        // 34h turns the differential value round, 1Fh waits for a calibration.
        (0x34, 1, 0x0402),
        (0x1F, 30, 0x0402),
    ] {
        assert_eq!(word_of_write(&mut desk, parameter, value), word, "{parameter:02X}h {value}");
        assert_eq!(desk.status(), word, "after {parameter:02X}h {value}");
    }
}

/// In the whole reply. A 7 lies 3 below S 10: 0420, without the static bit, which a write of 1Eh does not set;
/// 01 ^ 1F ^ 1E ^ 04 ^ 20 ^ 07 = 23. Then 20h 2, 3 is outside, bit 0: 01 ^ 1F ^ 20 ^ 04 ^ 01 ^ 02 = 39.
#[test]
fn the_bytes_of_such_replies() {
    let mut desk = with_set_point(0, 10);
    assert_eq!(desk.send("011F1E00000000000707"), "011F1E04200000000723");
    assert_eq!(desk.send("011F200000000000023C"), "011F2004010000000239");
}

/// Whatever is written, the reply has the word that the next reply has too, with each row at its ends and at
/// its default. Each begins anew at A 3, S 4: in the window of 5, static.
#[test]
fn the_word_of_any_write_is_the_word_that_it_leaves() {
    for row in ROWS {
        for value in [row.low, row.high, row.default] {
            let mut desk = with_set_point(3, 4);
            assert_eq!(desk.status(), 0x0430);
            let word = word_of_write(&mut desk, row.address, i64::from(value));
            assert_eq!(desk.status(), word, "{:02X}h {value}", row.address);
        }
    }
}

/// Without a valid set point 2 no bit tells of windows, divisor and offset.
#[test]
fn without_a_valid_set_point_the_word_stays() {
    let mut desk = Desk::with_heads(&[31]);
    desk.write_with(0xFF, 0, 10);
    for (parameter, value) in [(0x1E, 10), (0x20, 9_999), (0x31, 9_999), (0x1B, 1), (0x0B, 3), (0x33, 2)] {
        assert_eq!(word_of_write(&mut desk, parameter, value), 0, "{parameter:02X}h");
    }
}

// The write only ones.

/// S 50 at A 300 is 0442; 1Fh 48 makes it 2 below, 0420. Calibrating sets no static bit.
#[test]
fn a_calibration_shows_the_new_position() {
    for (parameter, value) in [(0xA7, 1), (0xA0, 7)] {
        let mut desk = with_set_point(300, 50);
        assert_eq!(word_of_write(&mut desk, 0x1F, 48), 0x0442);
        assert_eq!(word_of_write(&mut desk, parameter, value), 0x0420);
        assert_eq!(desk.status(), 0x0420);
        // Away from there and back: 21 above S is outside of 5.
        desk.ok("measure 0 323");
        assert_eq!(word_of_write(&mut desk, parameter, value), 0x0420);
    }
}

/// 01 ^ 1F ^ A7 ^ 04 ^ 28 ^ 01 = 94: S 0 is where a calibration leads, bits 10, 5 and 3.
#[test]
fn the_bytes_of_a_calibrations_reply() {
    let mut desk = with_set_point(1_000, 0);
    assert_eq!(desk.send("011FA7000000000001B8"), "011FA704280000000194");
}

/// S 9 at position 90 with 0Bh 1: A 9, bits 10, 5 and 3. Without the divisor A is 90, above and outside.
#[test]
fn a_reset_shows_the_defaults() {
    for (command, word) in [(1, 0x0442), (2, 0x0442), (5, 0x0428)] {
        let mut desk = with_set_point(90, 9);
        assert_eq!(word_of_write(&mut desk, 0x0B, 1), 0x0428);
        assert_eq!(word_of_write(&mut desk, 0xA0, command), word, "A0h {command}");
        assert_eq!(desk.status(), word, "after A0h {command}");
    }
}

/// A0h 8 empties the memory alone, and A8h and D0h have no part in the word.
#[test]
fn what_the_word_does_not_show_leaves_it() {
    let mut desk = with_set_point(0, 0);
    raise_error(&mut desk);
    // Bits 10, 7, 5, 4 and 3.
    for (parameter, value) in [(0xA0, 8), (0xA8, 1), (0xA8, 0), (0xD0, 20), (0x00, 12), (0x01, 2)] {
        assert_eq!(word_of_write(&mut desk, parameter, value), 0x04B8, "{parameter:02X}h {value}");
    }
    assert_eq!(desk.read(0x80), 0);
}

// Freezing.

/// AAh: bit 8 in its own reply, 01 ^ 1F ^ AA ^ 01 ^ 01 = B4; a second one keeps anew and shows it too.
#[test]
fn a_write_of_aah_shows_bit_8() {
    let mut desk = Desk::with_heads(&[31]);
    for _ in 0..2 {
        assert_eq!(desk.send("011FAA000000000001B5"), "011FAA010000000001B4");
    }
    assert_eq!(desk.status(), 0x0100);
}

/// Beside bit 8 it shows all that was there: S 0 reached and static, an error pending, star held. A write of
/// FFh while frozen keeps the old word as ever.
#[test]
fn a_write_of_aah_shows_all_other_bits_too() {
    let mut desk = with_set_point(0, 0);
    raise_error(&mut desk);
    desk.ok("keys 0 2");
    assert_eq!(word_of_write(&mut desk, 0xAA, 1), 0x45B8);
    assert_eq!(word_of(&desk.write_with(0xFF, SET_POINT_2_VALID, 100)), 0x45B8);
    assert_eq!(desk.status(), 0x4591);
}

/// "A read of FEh that releases a frozen value shows bit 8 as 0", and its data are the kept value, 100: 1F ^ FE
/// ^ 64 = 85. The next one shows 200: 1F ^ FE ^ C8 = 29.
#[test]
fn a_read_of_feh_shows_the_kept_value_and_no_bit_8() {
    let mut desk = Desk::with_heads(&[31]);
    desk.ok("measure 0 100");
    desk.write(0xAA, 1);
    desk.ok("measure 0 200");
    assert_eq!(desk.status(), 0x0100);
    assert_eq!(desk.send("001FFE000000000000E1"), "001FFE00000000006485");
    assert_eq!(desk.send("001FFE000000000000E1"), "001FFE0000000000C829");
}

/// All other bits of FEh's reply are those of now: S 100 was reached when the value was kept, 0438, and at 200
/// it is below, 0452; 1F ^ FE ^ 04 ^ 52 ^ 64 = D3.
#[test]
fn the_other_bits_beside_a_kept_value_are_the_present_ones() {
    let mut desk = with_set_point(100, 100);
    assert_eq!(word_of_write(&mut desk, 0xAA, 1), 0x0538);
    desk.ok("measure 0 200");
    assert_eq!(desk.status(), 0x0552);
    assert_eq!(desk.send("001FFE000000000000E1"), "001FFE045200000064D3");
}

#[test]
fn frozen_by_a_broadcast() {
    let mut desk = Desk::with_heads(&[31, 12]);
    desk.ok("measure 0 5");
    assert_eq!(desk.telegram(BROADCAST, 0, 0xAA, 0, 1), "");
    desk.ok("measure 0 6");
    assert_eq!(desk.status(), 0x0100);
    // 1F ^ FE ^ 05.
    assert_eq!(desk.send("001FFE000000000000E1"), "001FFE000000000005E4");
    // The other head is frozen still, 0C ^ 65 ^ 01 ^ 0B; its FEh releases it, 0C ^ FE.
    assert_eq!(desk.send("000C6500000000000069"), "000C6501000000000B63");
    assert_eq!(desk.send("000CFE000000000000F2"), "000CFE000000000000F2");
}

/// Other reads, refused telegrams and damaged ones release nothing, and a refused AAh keeps nothing.
#[test]
fn bit_8_stays_where_nothing_is_released() {
    let mut desk = Desk::with_heads(&[31]);
    assert_eq!(word_of(&desk.telegram(WRITE, 31, 0xAA, 0, 2)), 0);
    desk.write(0xAA, 1);
    for (command, parameter, data) in
        [(READ, 0xFC, 0), (READ, 0xFA, 0), (WRITE, 0xFE, 0), (WRITE, 0xAA, 0), (READ, 0xAA, 0), (3, 0xFE, 0)]
    {
        let reply = desk.telegram(command, 31, parameter, 0, data);
        assert_eq!(word_of(&reply), 0x0100, "{command:02X} {parameter:02X}h");
    }
    assert_eq!(word_of(&hit(&mut desk, READ, 0xFE, 0, 0)), 0x0100);
    assert_eq!(word_of_write(&mut desk, 0x03, 1), 0x0100);
    // FEh's value in an FFh write's reply is no read of FEh.
    assert_eq!(word_of_write(&mut desk, 0xFF, 0), 0x0100);
    assert_eq!(desk.status(), 0x0100);
}

// FAh.

/// "The word before the static bit is cleared, in the data and in the status place": S 0 at A 0 is 0438, and 1F
/// ^ FA ^ 04 ^ 38 ^ 04 ^ 38 = E5. The next one has it in neither.
#[test]
fn fah_shows_the_static_bit_in_both_places_and_then_in_none() {
    let mut desk = with_set_point(0, 0);
    assert_eq!(desk.send("001FFA000000000000E5"), "001FFA043800000438E5");
    assert_eq!(desk.send("001FFA000000000000E5"), "001FFA042800000428E5");
    assert_eq!(desk.status(), 0x0428);
    desk.ok("measure 0 1");
    // Set again, and A 1 is above S 0 and not within 31h 0.
    assert_eq!(desk.send("001FFA000000000000E5"), "001FFA047000000470E5");
}

/// It leaves every other bit, and shows it: keys, error, frozen, set point 1.
#[test]
fn fah_shows_all_other_bits_too() {
    let mut desk = with_set_point(0, 0);
    desk.write_with(0xFB, SET_POINT_1_VALID, 7);
    desk.write(0xAA, 1);
    desk.ok("keys 0 2");
    raise_error(&mut desk);
    assert_eq!(desk.send("001FFA000000000000E5"), "001FFA45BC000045BCE5");
    assert_eq!(desk.send("001FFA000000000000E5"), "001FFA45AC000045ACE5");
}

// "FBh and FFh writes keep the old word".

/// Validity, position to the set point, and the static bit, each one telegram late.
#[test]
fn an_ffh_write_shows_the_word_before() {
    let mut desk = Desk::with_heads(&[31]);
    for (control_word, set_point, word, word_then) in [
        (SET_POINT_2_VALID, 100, 0x0000, 0x0401),
        (SET_POINT_2_VALID, 0, 0x0401, 0x0438),
        (SET_POINT_2_VALID, -100, 0x0438, 0x0452),
        (SET_POINT_2_VALID | CLEAR_STATIC, -100, 0x0452, 0x0442),
        (SET_POINT_2_VALID | CLEAR_STATIC, -4, 0x0442, 0x0470),
        // Cleared and set again by the same write.
        (SET_POINT_2_VALID | CLEAR_STATIC, 4, 0x0470, 0x0430),
        (0, 4, 0x0430, 0x0010),
        (CLEAR_STATIC, 4, 0x0010, 0x0000),
    ] {
        let reply = desk.write_with(0xFF, control_word, set_point);
        assert_eq!(word_of(&reply), word, "{control_word:04X} {set_point}");
        assert_eq!(desk.status(), word_then, "after {control_word:04X} {set_point}");
    }
}

/// The manual's example, 6.10.2: the first reply has the word "not updated yet".
#[test]
fn the_manuals_notice() {
    let mut desk = Desk::with_heads(&[1]);
    // 01 ^ 01 ^ FF ^ 04 ^ D2 = 29. The second one, with bits 10 and 0 as A 0 lies below 1234: 29 ^ 04 ^ 01.
    assert_eq!(desk.send("0101FF0200000004D22B"), "0101FF0000000004D229");
    assert_eq!(desk.send("0101FF0200000004D22B"), "0101FF0401000004D22C");
}

/// 03h: the data are those after the write, also beside the old word. A 7: 01 ^ 1F ^ FF ^ 07 = E6. With S 4 it
/// was bits 10, 6, 5 and 4, 0470, and A - S is -3 for S 10: 1E ^ FF ^ 04 ^ 70 ^ FF ^ FF ^ FF ^ FD = 97.
#[test]
fn the_data_that_03h_chooses_are_new_and_the_word_is_old() {
    let mut desk = Desk::with_heads(&[31]);
    desk.ok("measure 0 7");
    desk.write(0x03, 1);
    assert_eq!(desk.telegram(WRITE, 31, 0xFF, SET_POINT_2_VALID, 4), "011FFF000000000007E6");
    desk.write(0x03, 2);
    assert_eq!(desk.telegram(WRITE, 31, 0xFF, SET_POINT_2_VALID, 10), "011FFF0470FFFFFFFD97");
    assert_eq!(desk.status(), 0x0430);
}

#[test]
fn an_fbh_write_shows_the_word_before() {
    let mut desk = with_set_point(0, 0);
    for (control_word, word, word_then) in [
        (SET_POINT_1_VALID, 0x0438, 0x043C),
        (SET_POINT_1_VALID | CLEAR_STATIC, 0x043C, 0x042C),
        (CLEAR_STATIC, 0x042C, 0x0428),
    ] {
        assert_eq!(word_of(&desk.write_with(0xFB, control_word, 7)), word, "{control_word:04X}");
        assert_eq!(desk.status(), word_then, "after {control_word:04X}");
    }
}

/// The error that it acknowledges is still shown, by either; 01 ^ 1F ^ FB ^ 80 = 65 and 01 ^ 1F ^ FF ^ 80 = 61.
#[test]
fn an_acknowledging_write_still_shows_the_error() {
    for (parameter, reply) in [(0xFB, "011FFB00800000000065"), (0xFF, "011FFF00800000000061")] {
        let mut desk = Desk::with_heads(&[31]);
        raise_error(&mut desk);
        assert_eq!(desk.write_with(parameter, ACKNOWLEDGE, 0), reply);
        assert_eq!(desk.status(), 0);
        assert_eq!(desk.read(0xFD), 0);
        // Raised again, and bit 5 is nothing new: still pending after it.
        raise_error(&mut desk);
        assert_eq!(desk.write_with(parameter, ACKNOWLEDGE, 0), reply);
        assert_eq!(desk.status(), 0x0080);
    }
}

/// Reads of them have no effect; their control word is ignored.
#[test]
fn reads_of_the_set_points_show_the_word_as_it_is() {
    let mut desk = with_set_point(0, 0);
    raise_error(&mut desk);
    for parameter in [0xFB, 0xFF, 0xFC, 0xFD, 0x20] {
        let reply = desk.telegram(READ, 31, parameter, ACKNOWLEDGE | CLEAR_STATIC, 0);
        assert_eq!(word_of(&reply), 0x04B8, "{parameter:02X}h");
    }
    assert_eq!(desk.status(), 0x04B8);
}

// "Error replies included".

/// 1F ^ FD ^ 80 = 62, and with bit 7 E2. The fourth has it because it is pending.
#[test]
fn the_third_damaged_one_in_a_row_shows_the_error() {
    let mut desk = Desk::with_heads(&[31]);
    for _ in 0..2 {
        assert_eq!(desk.send("001F200000000000003E"), "001FFD00000000008062");
    }
    for _ in 0..2 {
        assert_eq!(desk.send("001F200000000000003E"), "001FFD008000000080E2");
    }
}

/// Whatever it looks like, it is an error reply, and nothing of it is taken: S 40 stays, A stays 50 and the
/// word 0452, with bit 7 04D2.
#[test]
fn so_does_one_that_looks_like_any_other_telegram() {
    let all = SET_POINT_1_VALID | CLEAR_STATIC | ACKNOWLEDGE;
    for (command, parameter, control_word, data) in [
        (WRITE, 0xFB, all, 7),
        (WRITE, 0xFB, 0, 7),
        (WRITE, 0xFF, all | SET_POINT_2_VALID, 50),
        (WRITE, 0xFF, 0, 50),
        (READ, 0xFA, 0, 0),
        (WRITE, 0xA0, 0, 9),
        (WRITE, 0xA0, 0, 8),
        (WRITE, 0xA0, 0, 7),
        (WRITE, 0xA7, 0, 1),
        (WRITE, 0xAA, 0, 1),
        (WRITE, 0x1E, 0, -10),
        (WRITE, 0xD2, 0, 5),
        (READ, 0xFE, 0, 0),
        (READ, 0x63, 0, 0),
        (3, 0xFF, all, 50),
        (0xFF, 0xFA, 0, 0),
    ] {
        let mut desk = with_set_point(50, 50);
        desk.write_with(0xFF, SET_POINT_2_VALID, 40);
        assert_eq!(desk.status(), 0x0452);
        two_damaged(&mut desk);
        let reply = hit(&mut desk, command, parameter, control_word, data);
        assert_eq!((code_of(&reply), word_of(&reply)), (0x0080, 0x04D2), "{command:02X} {parameter:02X}h");
        assert_eq!(desk.status(), 0x04D2, "after {command:02X} {parameter:02X}h");
    }
}

/// The first and the second show no error, also if they look like those that keep the old word.
#[test]
fn the_first_and_the_second_do_not() {
    for (command, parameter, data) in [(WRITE, 0xFB, 7), (WRITE, 0xFF, 50), (READ, 0xFA, 0), (WRITE, 0xA0, 9)]
    {
        let mut desk = with_set_point(50, 40);
        for _ in 0..2 {
            let reply = hit(&mut desk, command, parameter, SET_POINT_2_VALID, data);
            assert_eq!((code_of(&reply), word_of(&reply)), (0x0080, 0x0442), "{parameter:02X}h");
        }
        assert_eq!(desk.status(), 0x0442);
    }
}

/// A third one that is for another node raises it too, and the next reply shows it: 1F ^ 65 ^ 80 ^ 0B = F1.
#[test]
fn one_for_another_node_raises_it_for_the_next_reply() {
    let mut desk = Desk::with_heads(&[31]);
    raise_error(&mut desk);
    assert_eq!(desk.send("001F650000000000007A"), "001F6500800000000BF1");
}

/// Each head shows its own: the one that was made after two of them has heard but one.
#[test]
fn each_head_shows_its_own_word() {
    let mut desk = Desk::with_heads(&[31]);
    two_damaged(&mut desk);
    desk.ok("head 12 4711");
    // 3E for 3F at 31: the third. At 12 then 2D for 2C: its second, and the fourth of the head at 31.
    assert_eq!(desk.send("001F200000000000003E"), "001FFD008000000080E2");
    // 0C ^ FD ^ 80.
    assert_eq!(desk.send("000C200000000000002D"), "000CFD00000000008071");
}

/// A refused telegram changes nothing that the word shows: A 50 and S 40, static, an error pending, frozen.
#[test]
fn a_refused_telegram_shows_the_word_as_it_is() {
    let mut desk = with_set_point(50, 50);
    desk.write_with(0xFF, SET_POINT_2_VALID, 40);
    desk.write(0xAA, 1);
    raise_error(&mut desk);
    let all = SET_POINT_1_VALID | CLEAR_STATIC | ACKNOWLEDGE;
    for (command, parameter, data, code) in [
        (WRITE, 0x04, 90, 0x0282),
        (WRITE, 0x04, 0, 0x0182),
        (WRITE, 0x3E, 1, 0x0082),
        (WRITE, 0x1E, -20_000, 0x0182),
        (WRITE, 0xA0, 10, 0x0282),
        (WRITE, 0xA0, 6, 0x0082),
        (WRITE, 0xA7, 2, 0x0282),
        (WRITE, 0xD2, 32, 0x0282),
        (READ, 0x96, 0xFF00_0000, 0x0282),
        (READ, 0x63, 0, 0x0083),
        (WRITE, 0x63, 0, 0x0083),
        (3, 0xFF, 50, 0x0084),
        (0xFB, 0xFB, 7, 0x0084),
        (WRITE, 0xFA, 0, 0x0184),
        (WRITE, 0xFE, 0, 0x0184),
        (READ, 0xA0, 9, 0x0284),
        (READ, 0xAA, 1, 0x0284),
    ] {
        let reply = desk.telegram(command, 31, parameter, all, data);
        // Bits 10, 8, 7, 6, 4 and 1.
        assert_eq!((code_of(&reply), word_of(&reply)), (code, 0x05D2), "{command:02X} {parameter:02X}h");
        assert_eq!(desk.status(), 0x05D2, "after {command:02X} {parameter:02X}h");
    }
}

/// 03 85: 01 ^ 1F ^ FD ^ 04 ^ 42 ^ 03 ^ 85 = 23. The offset stays 0, and A0h 9 restarts nothing.
#[test]
fn a_locked_write_shows_the_word_as_it_is() {
    let mut desk = with_set_point(50, 40);
    assert_eq!(word_of_write(&mut desk, 0x0E, 1), 0x0442);
    // 01 ^ 1F ^ 1E ^ 0A, and 01 ^ 1F ^ A0 ^ 09.
    for locked in ["011F1E00000000000A0A", "011FA0000000000009B7"] {
        assert_eq!(desk.send(locked), "011FFD04420000038523");
        assert_eq!(desk.status(), 0x0442);
    }
}

/// 00 85 at 12: 01 ^ 0C ^ FD ^ 04 ^ 38 ^ 85 = 49, with S 0 reached.
#[test]
fn a_refused_offer_shows_the_word_as_it_is() {
    let mut desk = Desk::with_heads(&[12]);
    desk.telegram(WRITE, 12, 0xFF, SET_POINT_2_VALID, 0);
    assert_eq!(desk.telegram(WRITE, 12, 0xD2, 0, 5), "010CFD04380000008549");
}

// "After A0h 9 it is the word before the restart; the Auto-ID reply keeps its own rule."

/// Star and up are down, S 80 is reached, frozen, an error pending, both set points valid, static: C000 | 0400 |
/// 0100 | 0080 | 0020 | 0010 | 0008 | 0004.
#[test]
fn a0h_9_shows_the_word_before_the_restart() {
    let mut desk = Desk::with_heads(&[31]);
    desk.ok("measure 0 80");
    desk.ok("keys 0 6");
    desk.write_with(0xFF, SET_POINT_2_VALID, 80);
    desk.write_with(0xFB, SET_POINT_1_VALID, 7);
    desk.write(0xAA, 1);
    raise_error(&mut desk);
    assert_eq!(desk.status(), 0xC5BC);
    // 01 ^ 1F ^ A0 ^ C5 ^ BC ^ 09 = CE.
    assert_eq!(desk.send("011FA0000000000009B7"), "011FA0C5BC00000009CE");
    assert_eq!(desk.send("001FFA000000000000E5"), "001FFA000000000000E5");
    assert_eq!(desk.read(0xFE), 80);
}

/// Each bit of it alone.
#[test]
fn a0h_9_shows_each_bit_that_the_restart_clears() {
    type Preparation = fn(&mut Desk);
    let preparations: [(Preparation, u16); 7] = [
        (|desk| desk.ok("keys 0 2"), 0x4000),
        (|desk| desk.ok("keys 0 1"), 0x2000),
        (raise_error, 0x0080),
        (|desk| desk.write(0xAA, 1), 0x0100),
        (|desk| drop(desk.write_with(0xFB, SET_POINT_1_VALID, 7)), 0x0004),
        (|desk| drop(desk.write_with(0xFF, SET_POINT_2_VALID, -9)), 0x0442),
        (|desk| desk.ok("keys 0 4"), 0x8000),
    ];
    for (prepare, word) in preparations {
        let mut desk = Desk::with_heads(&[31]);
        prepare(&mut desk);
        assert_eq!(word_of_write(&mut desk, 0xA0, 9), word);
        assert_eq!(desk.status(), 0, "after {word:04X}");
    }
}

/// From the old number, with its word; the new one begins without a set point. 01 ^ 1F ^ A0 ^ 04 ^ 38 ^ 09 =
/// 8B.
#[test]
fn a0h_9_replies_before_it_takes_a_new_number() {
    let mut desk = with_set_point(0, 0);
    assert_eq!(word_of_write(&mut desk, 0x00, 12), 0x0438);
    assert_eq!(desk.send("011FA0000000000009B7"), "011FA00438000000098B");
    // 0C ^ 65 ^ 0B.
    assert_eq!(desk.send("000C6500000000000069"), "000C6500000000000B62");
}

/// "The status word before the call": star was held and S 30 reached at A 30, 4438; the call presses left,
/// which calibrates, and up. 01 ^ 1F ^ D2 ^ 44 ^ 38 ^ 05 = B5.
#[test]
fn the_reply_of_auto_id_shows_the_word_before_the_call() {
    let mut desk = with_set_point(30, 30);
    assert_eq!(desk.send("011FD2000000000005C9"), "");
    desk.ok("keys 0 2");
    assert_eq!(desk.line("keys 0 7"), "ok 011FD2443800000005B5");
    // Calibrated to 0, and nothing else is left: 05 ^ FE, 05 ^ 65 ^ 0B.
    assert_eq!(desk.send("0005FE000000000000FB"), "0005FE000000000000FB");
    assert_eq!(desk.send("00056500000000000060"), "00056500000000000B6B");
}

// "Of the marked cases none changes": they stand in edges.rs and manual.rs, all at a head whose word is 0
// throughout.

/// A telegram in pieces: the word is that at its last byte, with what came in between.
#[test]
fn the_word_is_that_of_the_moment_of_the_last_byte() {
    let mut desk = Desk::with_heads(&[31]);
    assert_eq!(desk.send("011FAA0000"), "");
    desk.ok("keys 0 2");
    // 01 ^ 1F ^ AA ^ 41 ^ 01.
    assert_eq!(desk.send("00000001B5"), "011FAA410000000001F4");
}

/// What a broadcast does is in the next reply, as it has none of its own: A 9 and S 9 without the divisor.
#[test]
fn a_broadcast_is_seen_in_the_next_reply() {
    let mut desk = with_set_point(90, 9);
    assert_eq!(word_of_write(&mut desk, 0x0B, 1), 0x0428);
    assert_eq!(desk.telegram(BROADCAST, 0, 0xA0, 0, 2), "");
    assert_eq!(desk.status(), 0x0442);
}

/// The damaged ones count on after an error reply: third, sixth and ninth raise, and each shows it.
#[test]
fn every_third_shows_the_error_that_it_raises() {
    let mut desk = Desk::with_heads(&[31]);
    for _ in 0..3 {
        for word in [0x0000, 0x0000, 0x0080] {
            assert_eq!(word_of(&desk.damaged(READ, 31)), word);
        }
        // Acknowledged by left, as an error is pending; let go of, so that it can be pressed again.
        desk.ok("keys 0 1");
        desk.ok("keys 0 0");
    }
    assert_eq!(desk.read(0x80), 3);
}
