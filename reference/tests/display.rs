//! Request (ix), alpha-numeric display: mode 3 of 28h, its status word, what acknowledges set points there, and the
//! step into it and out of it. All words are worked out by hand. In mode 3 the status word has 10 set point 2 valid,
//! 2 set point 1 valid, 3 set point 1 acknowledged, 5 set point 2 acknowledged, 7 error, 8 frozen, 9 characters, 13
//! to 15 keys, and nothing else; outside of it it is that of status_word.rs.

mod common;
use common::{code_of, Desk, READ, WRITE};
use reference::telegram::BROADCAST;

const VALID_1: u16 = 1 << 2;
const CLEAR_STATIC: u16 = 1 << 4;
const ACKNOWLEDGE_ERROR: u16 = 1 << 5;
const ACKNOWLEDGE_2: u16 = 1 << 6;
const CHARACTERS: u16 = 1 << 7;
const VALID_2: u16 = 1 << 9;
const ACKNOWLEDGE_1: u16 = 1 << 10;

/// The sheets of one row, 28h.
const SHEETS: [&str; 4] = ["0128000400000000", "0128000400000001", "0128000400000002", "0128000400000003"];

/// A head at 31 in mode 3.
fn in_the_display() -> Desk {
    let mut desk = Desk::with_heads(&[31]);
    desk.write(0x28, 3);
    desk
}

/// The same with two valid set points, 7 and 8, that nobody has acknowledged: bits 10 and 2.
fn with_set_points() -> Desk {
    let mut desk = in_the_display();
    write_both(&mut desk, 0);
    assert_eq!(desk.status(), 0x0404);
    desk
}

/// Both set points, valid; the last word taken has these bits too.
fn write_both(desk: &mut Desk, more: u16) {
    desk.write_with(0xFB, VALID_1 | more, 7);
    desk.write_with(0xFF, VALID_2 | more, 8);
}

/// Writes a set point and gives the word that the head has then.
fn word_after(desk: &mut Desk, parameter: u8, control_word: u16, data: i64) -> u16 {
    desk.write_with(parameter, control_word, data);
    desk.status()
}

fn word_of(reply: &str) -> u16 {
    assert_eq!(reply.len(), 20, "one reply: {reply}");
    u16::from_str_radix(&reply[6..10], 16).unwrap()
}

/// Presses keys and lets go of them.
fn press(desk: &mut Desk, keys: u8) {
    desk.ok(&format!("keys 0 {keys}"));
    desk.ok("keys 0 0");
}

/// Three damaged ones, which are for nobody here.
fn raise_error(desk: &mut Desk) {
    for _ in 0..3 {
        assert_eq!(desk.damaged(READ, 99), "");
    }
}

fn load(desk: &mut Desk, sheet: &str) {
    desk.ok(&format!("load 0 {sheet}"));
}

type Preparation = fn(&mut Desk);

/// Every way out of mode 3: a write, both resets, a broadcast one, a sheet.
const WAYS_OUT: [(&str, Preparation); 9] = [
    ("28h 0", |desk| desk.write(0x28, 0)),
    ("28h 1", |desk| desk.write(0x28, 1)),
    ("28h 2", |desk| desk.write(0x28, 2)),
    ("A0h 1", |desk| desk.write(0xA0, 1)),
    ("A0h 2", |desk| desk.write(0xA0, 2)),
    ("A0h 2 to all", |desk| assert_eq!(desk.telegram(BROADCAST, 0, 0xA0, 0, 2), "")),
    ("a sheet with 0", |desk| load(desk, SHEETS[0])),
    ("a sheet with 1", |desk| load(desk, SHEETS[1])),
    ("a sheet with 2", |desk| load(desk, SHEETS[2])),
];

/// Every way into it; resets lead to 0.
const WAYS_IN: [(&str, Preparation); 3] = [
    ("28h 3", |desk| desk.write(0x28, 3)),
    ("a sheet", |desk| load(desk, SHEETS[3])),
    // 20h 5, 28h 3 and 31h 0.
    ("a longer sheet", |desk| load(desk, "0320000A28000E310012000000050000000300000000")),
];

// "Value 3 of 28h is accepted, so 28h runs 0..3."

/// 01 ^ 1F ^ 28 = 36, and 36 ^ 03 = 35, 36 ^ 04 = 32; 02 82: 01 ^ 1F ^ FD ^ 02 ^ 82 = 63. Read: 1F ^ 28 = 37.
#[test]
fn the_bytes_of_28h() {
    let mut desk = Desk::with_heads(&[31]);
    assert_eq!(desk.send("011F2800000000000335"), "011F2800000000000335");
    assert_eq!(desk.send("011F2800000000000432"), "011FFD00000000028263");
    assert_eq!(desk.send("001F2800000000000037"), "001F2800000000000334");
}

#[test]
fn values_of_28h() {
    let mut desk = Desk::with_heads(&[31]);
    assert_eq!(desk.read(0x28), 0);
    for value in [0, 1, 2, 3] {
        desk.write(0x28, value);
        assert_eq!(desk.read(0x28), value);
    }
    for value in [4, 5, 256 + 3, 0x0300_0000, -1] {
        assert_eq!(desk.refusal(WRITE, 0x28, value), 0x0282, "{value}");
    }
    assert_eq!(desk.read(0x28), 3);
}

#[test]
fn values_of_28h_on_a_sheet() {
    let mut desk = Desk::with_heads(&[31]);
    for (value, sheet) in SHEETS.iter().enumerate() {
        load(&mut desk, sheet);
        assert_eq!(desk.read(0x28), value as i64);
    }
    assert_eq!(desk.line("load 0 0128000400000004"), "refused 13");
    assert_eq!(desk.line("load 0 0128000403000000"), "refused 13");
    assert_eq!(desk.read(0x28), 3);
}

/// 28h is one of the 39, and none of the bus six.
#[test]
fn twenty_eight_is_locked_and_reset_like_others() {
    let mut desk = in_the_display();
    desk.write(0x0E, 1);
    for value in [0, 3, 4] {
        assert_eq!(desk.refusal(WRITE, 0x28, value), 0x0385, "{value}");
    }
    desk.write(0xA8, 1);
    for (command, value) in [(5, 3), (2, 0), (1, 0)] {
        desk.write(0x28, 3);
        desk.write(0xA0, command);
        assert_eq!(desk.read(0x28), value, "A0h {command}");
    }
}

// "Set points are numbers or four characters, one a data byte, by bit 7 of the last taken control word, shown in
// status bit 9."

/// JOB1 is 4A 4F 42 31, whose exclusive-or is 76. The write, valid and characters: 01 ^ 1F ^ FB ^ 84 ^ 76 = 17; its
/// reply has the word before it: 01 ^ 1F ^ FB ^ 76 = 93. The read then shows bits 9 and 2: 1F ^ FB ^ 02 ^ 04 ^ 76 =
/// 94. The second row, " 417", is 20 34 31 37, together 12: 01 ^ 1F ^ FF ^ 02 ^ 80 ^ 12 = 71, its reply 01 ^ 1F ^ FF
/// ^ 02 ^ 04 ^ 12 = F5; and read, with bits 10, 9 and 2: 1F ^ FF ^ 06 ^ 04 ^ 12 = F0.
#[test]
fn a_job_number_of_four_characters() {
    let mut desk = in_the_display();
    assert_eq!(desk.send("011FFB00844A4F423117"), "011FFB00004A4F423193");
    assert_eq!(desk.send("001FFB000000000000E4"), "001FFB02044A4F423194");
    assert_eq!(desk.send("011FFF02802034313771"), "011FFF020420343137F5");
    assert_eq!(desk.send("001FFF000000000000E0"), "001FFF060420343137F0");
}

/// One bit for both set points, from whichever word was taken last.
#[test]
fn bit_9_is_bit_7_of_the_last_taken_word() {
    let mut desk = in_the_display();
    for (parameter, control_word, word) in [
        (0xFB, VALID_1 | CHARACTERS, 0x0204),
        (0xFF, VALID_2, 0x0404),
        (0xFF, VALID_2 | CHARACTERS, 0x0604),
        (0xFB, VALID_1, 0x0404),
        // Not valid, but taken.
        (0xFB, CHARACTERS, 0x0600),
        (0xFF, CHARACTERS, 0x0200),
        (0xFF, 0, 0x0000),
        // The bits on both sides of it are not meant.
        (0xFB, 1 << 6 | 1 << 8, 0x0000),
    ] {
        assert_eq!(
            word_after(&mut desk, parameter, control_word, 7),
            word,
            "{parameter:02X}h {control_word:04X}"
        );
    }
}

/// Reads and other writes carry a word that nobody takes; what is refused, damaged or broadcast is not taken either.
#[test]
fn other_words_do_not_change_bit_9() {
    let mut desk = in_the_display();
    for (command, parameter, data) in [
        (READ, 0xFB, 0),
        (READ, 0xFF, 0),
        (READ, 0xFA, 0),
        (WRITE, 0x20, 5),
        (WRITE, 0x28, 3),
        (WRITE, 0xAA, 2),
        (3, 0xFB, 7),
        (BROADCAST, 0xFB, 7),
        (BROADCAST, 0xFF, 7),
    ] {
        desk.telegram(command, 31, parameter, CHARACTERS | VALID_1 | VALID_2, data);
        assert_eq!(desk.status(), 0, "{command:02X} {parameter:02X}h");
    }
    // FBh 7 with bits 7 and 2: 01 ^ 1F ^ FB ^ 84 ^ 07 = 66, sent as 67; 00 80: 01 ^ 1F ^ FD ^ 80 = 63.
    assert_eq!(desk.send("011FFB00840000000767"), "011FFD00000000008063");
    assert_eq!(desk.status(), 0);
}

/// "Status bit 9 stays 0 outside mode 3", and up has no part in it in the mode either.
#[test]
fn up_does_not_change_bit_9() {
    let mut desk = in_the_display();
    press(&mut desk, 4);
    assert_eq!(desk.status(), 0);
    desk.write_with(0xFB, CHARACTERS, 7);
    press(&mut desk, 4);
    assert_eq!(desk.status(), 0x0200);
    desk.write(0x28, 0);
    assert_eq!(desk.status(), 0);
    press(&mut desk, 4);
    assert_eq!(desk.status(), 0);
    desk.write_with(0xFB, CHARACTERS, 7);
    assert_eq!(desk.status(), 0);
    desk.write(0x28, 3);
    assert_eq!(desk.status(), 0x0200);
}

// "Status bits 0, 1, 4 and 6 are 0."

/// Outside the same are 0438, 0401 and 0442, with 1Bh 1 0402 and 0441, and 31h 9999 adds bit 3.
#[test]
fn nothing_tells_of_windows_and_directions() {
    let mut desk = in_the_display();
    for (parameter, value) in [(0x1B, 0), (0x1B, 1), (0x31, 9_999), (0x20, 0)] {
        desk.write(parameter, value);
        for set_point in [0, 100, -100] {
            assert_eq!(
                word_after(&mut desk, 0xFF, VALID_2, set_point),
                0x0400,
                "{parameter:02X}h {set_point}"
            );
        }
    }
}

/// Beside the bits of the mode those of error, freezing and keys are as ever: bits 15 to 13, 10, 9, 8, 7, 5, 3 and 2.
#[test]
fn all_bits_that_there_are() {
    let mut desk = in_the_display();
    write_both(&mut desk, CHARACTERS | ACKNOWLEDGE_1 | ACKNOWLEDGE_2);
    desk.write(0xAA, 1);
    desk.ok("keys 0 7");
    raise_error(&mut desk);
    assert_eq!(desk.status(), 0xE7AC);
    // FAh in both places: 1F ^ FA, as equal words cancel out.
    assert_eq!(desk.send("001FFA000000000000E5"), "001FFAE7AC0000E7ACE5");
    assert_eq!(desk.status(), 0xE7AC);
}

// "Nothing sets the static bit."

/// Neither a write of FFh nor a measurement in the window; nor is it there when the mode is left.
#[test]
fn the_static_bit_is_never_set() {
    for (way, leave) in WAYS_OUT {
        let mut desk = in_the_display();
        desk.write_with(0xFF, VALID_2, 0);
        desk.ok("measure 0 1");
        desk.write(0xA7, 1);
        desk.ok("measure 0 1");
        assert_eq!(desk.status(), 0x0400);
        leave(&mut desk);
        assert_eq!(desk.status(), 0, "{way}");
    }
}

/// An acknowledgement is no window though it has its bit 5: after FFh with bits 9 and 6 a measurement sets nothing,
/// and control bit 4 clears nothing but the static bit.
#[test]
fn an_acknowledgement_is_no_window() {
    let mut desk = in_the_display();
    assert_eq!(word_after(&mut desk, 0xFF, VALID_2 | ACKNOWLEDGE_2, 0), 0x0420);
    desk.ok("measure 0 0");
    assert_eq!(desk.status(), 0x0420);
    assert_eq!(word_after(&mut desk, 0xFB, CLEAR_STATIC, 0), 0x0420);
    desk.write(0x28, 1);
    assert_eq!(desk.status(), 0);
}

/// Windows count again at the first measurement or FFh write outside: S 0 at A 0, bits 10, 5, 4 and 3.
#[test]
fn windows_are_back_outside() {
    let mut desk = in_the_display();
    desk.write_with(0xFF, VALID_2, 0);
    desk.write(0x28, 2);
    assert_eq!(desk.status(), 0);
    assert_eq!(word_after(&mut desk, 0xFF, VALID_2, 0), 0x0438);
}

// "We take 3 for set point 1 and 5 for set point 2", "bits 3 and 5 do not wait for bit 10".

#[test]
fn bit_3_is_set_point_1_and_bit_5_set_point_2() {
    let mut desk = in_the_display();
    // Set point 2 is not valid: bits 3 and 2 alone.
    assert_eq!(word_after(&mut desk, 0xFB, VALID_1 | ACKNOWLEDGE_1, 7), 0x000C);
    let mut desk = in_the_display();
    // Set point 1 is not valid: bits 10 and 5 alone.
    assert_eq!(word_after(&mut desk, 0xFF, VALID_2 | ACKNOWLEDGE_2, 7), 0x0420);
}

// "A write of a set point withdraws its acknowledgement."

/// Its own and not the other's; also where data and validity are what they were.
#[test]
fn a_write_withdraws_its_own() {
    let mut desk = in_the_display();
    write_both(&mut desk, ACKNOWLEDGE_1 | ACKNOWLEDGE_2);
    assert_eq!(desk.status(), 0x042C);
    assert_eq!(word_after(&mut desk, 0xFB, VALID_1, 7), 0x0424);
    assert_eq!(word_after(&mut desk, 0xFF, VALID_2, 8), 0x0404);
    write_both(&mut desk, ACKNOWLEDGE_1 | ACKNOWLEDGE_2);
    assert_eq!(word_after(&mut desk, 0xFF, VALID_2, 9), 0x040C);
    assert_eq!(word_after(&mut desk, 0xFB, 0, 9), 0x0400);
}

/// Its reply still has the word before: bits 10, 5, 3 and 2. 01 ^ 1F ^ FB ^ 04 ^ 07 = E6, its reply 01 ^ 1F ^ FB ^
/// 04 ^ 2C ^ 07 = CA.
#[test]
fn the_reply_to_such_a_write_shows_the_word_before() {
    let mut desk = in_the_display();
    write_both(&mut desk, ACKNOWLEDGE_1 | ACKNOWLEDGE_2);
    assert_eq!(desk.send("011FFB000400000007E6"), "011FFB042C00000007CA");
    assert_eq!(desk.status(), 0x0424);
}

/// Reads, other writes, and writes that are damaged, refused, broadcast or for another node.
#[test]
fn nothing_else_withdraws() {
    let mut desk = in_the_display();
    write_both(&mut desk, ACKNOWLEDGE_1 | ACKNOWLEDGE_2);
    for (command, node, parameter, data) in [
        (READ, 31, 0xFB, 0),
        (READ, 31, 0xFF, 0),
        (READ, 31, 0xFA, 0),
        (WRITE, 31, 0x20, 9),
        (WRITE, 31, 0xA0, 7),
        (WRITE, 31, 0xA0, 8),
        (WRITE, 31, 0xA7, 1),
        (3, 31, 0xFB, 1),
        (BROADCAST, 31, 0xFB, 1),
        (BROADCAST, 31, 0xFF, 1),
        (WRITE, 30, 0xFB, 1),
        (WRITE, 30, 0xFF, 1),
    ] {
        desk.telegram(command, node, parameter, 0, data);
        assert_eq!(desk.status(), 0x042C, "{command:02X} {parameter:02X}h at {node}");
    }
    // FBh 7: 01 ^ 1F ^ FB ^ 07 = E2, sent as E3. 00 80: 01 ^ 1F ^ FD ^ 04 ^ 2C ^ 80 = 4B.
    assert_eq!(desk.send("011FFB000000000007E3"), "011FFD042C000000804B");
    desk.ok("measure 0 1000");
    desk.ok("tick 5000");
    press(&mut desk, 2);
    assert_eq!(desk.status(), 0x042C);
}

// "Then control word bits 10 and 6 give it, for 1 and 2, to valid ones only."

/// Bit 10 for set point 1 and bit 6 for set point 2, at either write.
#[test]
fn either_write_acknowledges_either() {
    for (parameter, valid) in [(0xFB, VALID_1), (0xFF, VALID_2)] {
        for (bits, word) in [
            (0, 0x0404),
            (ACKNOWLEDGE_1, 0x040C),
            (ACKNOWLEDGE_2, 0x0424),
            (ACKNOWLEDGE_1 | ACKNOWLEDGE_2, 0x042C),
        ] {
            let mut desk = with_set_points();
            assert_eq!(
                word_after(&mut desk, parameter, valid | bits, 7),
                word,
                "{parameter:02X}h {bits:04X}"
            );
        }
    }
}

/// A bit that is 0 takes nothing back: FFh without bit 10 leaves set point 1's, FBh without bit 6 set point 2's.
#[test]
fn a_bit_that_is_0_withdraws_nothing() {
    let mut desk = in_the_display();
    write_both(&mut desk, ACKNOWLEDGE_1 | ACKNOWLEDGE_2);
    assert_eq!(word_after(&mut desk, 0xFF, VALID_2 | ACKNOWLEDGE_2, 8), 0x042C);
    assert_eq!(word_after(&mut desk, 0xFB, VALID_1 | ACKNOWLEDGE_1, 8), 0x042C);
}

/// Unlike bit 5 they need not be new: every write withdraws its own, and every word gives it again.
#[test]
fn the_bits_count_in_every_word() {
    let mut desk = in_the_display();
    for _ in 0..3 {
        assert_eq!(word_after(&mut desk, 0xFB, VALID_1 | ACKNOWLEDGE_1 | ACKNOWLEDGE_2, 7), 0x000C);
    }
}

/// "Then": the write's own validity counts, not the one before it.
#[test]
fn validity_is_that_of_the_write() {
    let mut desk = in_the_display();
    assert_eq!(word_after(&mut desk, 0xFB, VALID_1 | ACKNOWLEDGE_1, 7), 0x000C);
    assert_eq!(word_after(&mut desk, 0xFB, ACKNOWLEDGE_1, 7), 0x0000);
    assert_eq!(word_after(&mut desk, 0xFF, VALID_2 | ACKNOWLEDGE_2, 7), 0x0420);
    assert_eq!(word_after(&mut desk, 0xFF, ACKNOWLEDGE_2, 7), 0x0000);
}

/// Bits 2 and 9 each make only the set point valid that is written; the other one, invalid, takes nothing.
#[test]
fn invalid_ones_take_none() {
    let mut desk = in_the_display();
    let all = VALID_1 | VALID_2 | ACKNOWLEDGE_1 | ACKNOWLEDGE_2;
    assert_eq!(word_after(&mut desk, 0xFF, all, 7), 0x0420);
    // Set point 1 has none from before when it becomes valid.
    assert_eq!(word_after(&mut desk, 0xFB, VALID_1, 7), 0x0424);
    let mut desk = in_the_display();
    assert_eq!(word_after(&mut desk, 0xFB, all, 7), 0x000C);
    assert_eq!(word_after(&mut desk, 0xFF, VALID_2, 7), 0x040C);
}

/// Outside of the mode they do nothing, then and later: S 7 at A 0 is bits 10 and 0, S 0 is 0438.
#[test]
fn outside_of_the_mode_the_bits_do_nothing() {
    let mut desk = Desk::with_heads(&[31]);
    let all = ACKNOWLEDGE_1 | ACKNOWLEDGE_2 | CHARACTERS;
    assert_eq!(word_after(&mut desk, 0xFB, VALID_1 | all, 7), 0x0004);
    assert_eq!(word_after(&mut desk, 0xFF, VALID_2 | all, 7), 0x0405);
    assert_eq!(word_after(&mut desk, 0xFF, VALID_2 | all, 0), 0x043C);
    desk.write(0x28, 3);
    // The word was taken, characters.
    assert_eq!(desk.status(), 0x0200);
    assert_eq!(word_after(&mut desk, 0xFF, VALID_2, 7), 0x0400);
    assert_eq!(word_after(&mut desk, 0xFB, VALID_1, 7), 0x0404);
}

/// Bit 5 acknowledges the error if the last taken word had it 0, as ever, and no set point.
#[test]
fn bit_5_is_for_the_error_as_ever() {
    let mut desk = with_set_points();
    raise_error(&mut desk);
    assert_eq!(word_after(&mut desk, 0xFB, VALID_1 | ACKNOWLEDGE_ERROR, 7), 0x0404);
    raise_error(&mut desk);
    assert_eq!(word_after(&mut desk, 0xFB, VALID_1 | ACKNOWLEDGE_ERROR, 7), 0x0484);
    // Nor do bits 6 and 10 acknowledge an error.
    assert_eq!(word_after(&mut desk, 0xFB, VALID_1 | ACKNOWLEDGE_1 | ACKNOWLEDGE_2, 7), 0x04AC);
}

// "Left gives it to all valid set points when one lacks it."

#[test]
fn left_acknowledges_what_lacks_it() {
    for (bits, before) in [(0, 0x0404), (ACKNOWLEDGE_1, 0x040C), (ACKNOWLEDGE_2, 0x0424)] {
        let mut desk = in_the_display();
        write_both(&mut desk, bits);
        desk.ok("measure 0 50");
        assert_eq!(desk.status(), before);
        desk.ok("keys 0 1");
        // With bit 13 for the key.
        assert_eq!(desk.status(), 0x242C);
        desk.ok("keys 0 0");
        assert_eq!(desk.status(), 0x042C);
        // It did not calibrate.
        assert_eq!(desk.read(0xFE), 50);
    }
}

#[test]
fn left_acknowledges_valid_ones_only() {
    let mut desk = in_the_display();
    desk.write_with(0xFB, VALID_1, 7);
    press(&mut desk, 1);
    assert_eq!(desk.status(), 0x000C);
    let mut desk = in_the_display();
    desk.write_with(0xFF, VALID_2, 7);
    press(&mut desk, 1);
    assert_eq!(desk.status(), 0x0420);
    // One that becomes valid later lacks it, and the other one still has its own.
    desk.write_with(0xFB, VALID_1, 7);
    assert_eq!(desk.status(), 0x0424);
}

/// Held it acknowledges nothing: only newly pressed.
#[test]
fn left_held_acknowledges_nothing() {
    let mut desk = in_the_display();
    desk.ok("keys 0 1");
    write_both(&mut desk, 0);
    desk.ok("keys 0 1");
    desk.ok("keys 0 3");
    desk.ok("keys 0 5");
    desk.ok("keys 0 0");
    assert_eq!(desk.status(), 0x0404);
}

// "A pending error goes first, and calibrating happens only when neither applies."

/// Three strokes at measurement 50, with 1Fh 700: the error, the set points, the calibration.
#[test]
fn error_then_set_points_then_calibration() {
    let mut desk = with_set_points();
    desk.write(0x1F, 700);
    desk.ok("measure 0 50");
    raise_error(&mut desk);
    assert_eq!(desk.status(), 0x0484);
    for (word, position) in [(0x0404, 50), (0x042C, 50), (0x042C, 700)] {
        press(&mut desk, 1);
        assert_eq!((desk.status(), desk.read(0xFE)), (word, position));
    }
}

/// Without a valid set point, or with all of them acknowledged.
#[test]
fn left_calibrates_when_nothing_is_to_be_acknowledged() {
    for (control_word, word) in [(0, 0x0000), (VALID_1 | ACKNOWLEDGE_1, 0x000C)] {
        let mut desk = in_the_display();
        desk.write_with(0xFB, control_word, 7);
        desk.ok("measure 0 50");
        press(&mut desk, 1);
        assert_eq!((desk.status(), desk.read(0xFE)), (word, 0), "{control_word:04X}");
    }
}

/// 05h 0 keeps left from calibrating, not from acknowledging.
#[test]
fn left_acknowledges_with_05h_0_too() {
    let mut desk = with_set_points();
    desk.write(0x05, 0);
    desk.ok("measure 0 50");
    for _ in 0..2 {
        press(&mut desk, 1);
        assert_eq!((desk.status(), desk.read(0xFE)), (0x042C, 50));
    }
}

/// Outside valid set points do not keep left from calibrating: S 8 at A 0, bits 10, 2 and 0.
#[test]
fn outside_of_the_mode_left_calibrates() {
    let mut desk = Desk::with_heads(&[31]);
    write_both(&mut desk, 0);
    desk.ok("measure 0 50");
    press(&mut desk, 1);
    assert_eq!((desk.status(), desk.read(0xFE)), (0x0405, 0));
}

// "With 3Eh 2 star gives it too, after left."

#[test]
fn star_acknowledges_with_3eh_2_alone() {
    let mut desk = with_set_points();
    desk.ok("measure 0 50");
    press(&mut desk, 2);
    assert_eq!(desk.status(), 0x0404);
    desk.write(0x3E, 2);
    desk.ok("keys 0 2");
    // With bit 14 for the key.
    assert_eq!(desk.status(), 0x442C);
    desk.ok("keys 0 0");
    // Once more it has nothing to do, and it never calibrates.
    press(&mut desk, 2);
    assert_eq!((desk.status(), desk.read(0xFE)), (0x042C, 50));
}

#[test]
fn star_acknowledges_valid_ones_only() {
    let mut desk = in_the_display();
    desk.write(0x3E, 2);
    desk.write_with(0xFB, VALID_1, 7);
    press(&mut desk, 2);
    assert_eq!(desk.status(), 0x000C);
}

/// Held since before 3Eh or the set points were written it acknowledges nothing.
#[test]
fn star_held_acknowledges_nothing() {
    let mut desk = with_set_points();
    desk.ok("keys 0 2");
    desk.write(0x3E, 2);
    desk.ok("keys 0 2");
    desk.ok("keys 0 6");
    desk.ok("keys 0 0");
    assert_eq!(desk.status(), 0x0404);
}

/// "Gives it too": left still does.
#[test]
fn left_acknowledges_with_3eh_2_as_well() {
    let mut desk = with_set_points();
    desk.write(0x3E, 2);
    desk.ok("measure 0 50");
    press(&mut desk, 1);
    assert_eq!((desk.status(), desk.read(0xFE)), (0x042C, 50));
}

/// Star looks for no error and acknowledges none: bit 7 stays beside bits 5 and 3.
#[test]
fn star_does_not_mind_an_error() {
    let mut desk = with_set_points();
    desk.write(0x3E, 2);
    raise_error(&mut desk);
    press(&mut desk, 2);
    assert_eq!(desk.status(), 0x04AC);
    assert_eq!(desk.read(0xFD), 0x80);
}

/// Both at once with an error pending: left takes the error, star the set points. Without one left takes the set
/// points, so that it does not calibrate as it would if star had come first. A second stroke calibrates.
#[test]
fn left_and_star_at_once() {
    for with_error in [true, false] {
        let mut desk = with_set_points();
        desk.write(0x3E, 2);
        desk.ok("measure 0 50");
        if with_error {
            raise_error(&mut desk);
        }
        press(&mut desk, 3);
        assert_eq!((desk.status(), desk.read(0xFE)), (0x042C, 50), "{with_error}");
        press(&mut desk, 3);
        assert_eq!((desk.status(), desk.read(0xFE)), (0x042C, 0), "{with_error}");
    }
}

/// With 3Eh 0 the error is all that a stroke of both takes.
#[test]
fn left_and_star_at_once_with_3eh_0() {
    let mut desk = with_set_points();
    raise_error(&mut desk);
    press(&mut desk, 3);
    assert_eq!(desk.status(), 0x0404);
}

/// Up has no part in it, and does nothing else: the position stays.
#[test]
fn up_acknowledges_nothing() {
    let mut desk = with_set_points();
    desk.write(0x3E, 2);
    desk.ok("measure 0 50");
    press(&mut desk, 4);
    assert_eq!((desk.status(), desk.read(0xFE)), (0x0404, 50));
    // All three: left the set points, so no calibration.
    press(&mut desk, 7);
    assert_eq!((desk.status(), desk.read(0xFE)), (0x042C, 50));
}

/// Star outside is a bit of the word and no more; what it would acknowledge is not kept for later.
#[test]
fn outside_of_the_mode_star_does_nothing() {
    let mut desk = Desk::with_heads(&[31]);
    desk.write(0x3E, 2);
    write_both(&mut desk, 0);
    press(&mut desk, 2);
    // S 8 at A 0: bits 10, 2 and 0.
    assert_eq!(desk.status(), 0x0405);
    desk.write(0x28, 3);
    assert_eq!(desk.status(), 0);
}

// "Entering or leaving mode 3, by write, reset or sheet, makes both set points invalid and unacknowledged and clears
// the static bit."

/// S 3 at A 0 is in the window of 5 and not within 31h 0: with set point 1 bits 10, 5, 4 and 2. Their values stay.
#[test]
fn entering_makes_set_points_invalid() {
    for (way, enter) in WAYS_IN {
        for mode in [0, 1, 2] {
            let mut desk = Desk::with_heads(&[31]);
            desk.write(0x28, mode);
            desk.write_with(0xFB, VALID_1, 1_234);
            assert_eq!(word_after(&mut desk, 0xFF, VALID_2, 3), 0x0434);
            enter(&mut desk);
            assert_eq!(desk.status(), 0, "{way} from {mode}");
            assert_eq!((desk.read(0xFB), desk.read(0xFF)), (1_234, 3), "{way} from {mode}");
            // A measurement does not make them valid.
            desk.ok("measure 0 3");
            assert_eq!(desk.status(), 0, "{way} from {mode}");
        }
    }
}

#[test]
fn leaving_makes_set_points_invalid() {
    for (way, leave) in WAYS_OUT {
        let mut desk = in_the_display();
        write_both(&mut desk, ACKNOWLEDGE_1 | ACKNOWLEDGE_2);
        assert_eq!(desk.status(), 0x042C);
        leave(&mut desk);
        assert_eq!(desk.status(), 0, "{way}");
        assert_eq!((desk.read(0xFB), desk.read(0xFF)), (7, 8), "{way}");
    }
}

/// The static bit from before, 0438, is not there when the head comes out again, though no FAh was read.
#[test]
fn the_static_bit_does_not_come_back() {
    for (way_in, enter) in WAYS_IN {
        for (way_out, leave) in WAYS_OUT {
            let mut desk = Desk::with_heads(&[31]);
            assert_eq!(word_after(&mut desk, 0xFF, VALID_2, 0), 0x0438);
            enter(&mut desk);
            leave(&mut desk);
            assert_eq!(desk.status(), 0, "{way_in}, {way_out}");
        }
    }
}

/// Nor are acknowledgements when it goes in again: set points that are made valid lack theirs.
#[test]
fn acknowledgements_do_not_come_back() {
    for (way_in, enter) in WAYS_IN {
        for (way_out, leave) in WAYS_OUT {
            let mut desk = in_the_display();
            write_both(&mut desk, ACKNOWLEDGE_1 | ACKNOWLEDGE_2);
            leave(&mut desk);
            enter(&mut desk);
            assert_eq!(desk.status(), 0, "{way_out}, {way_in}");
            write_both(&mut desk, 0);
            assert_eq!(desk.status(), 0x0404, "{way_out}, {way_in}");
        }
    }
}

/// A broadcast reset leads all heads out, each that is in the mode.
#[test]
fn a_broadcast_leads_all_heads_out() {
    let mut desk = Desk::with_heads(&[31, 12, 5]);
    for node in [31, 12] {
        desk.telegram(WRITE, node, 0x28, 0, 3);
    }
    for node in [31, 12, 5] {
        desk.telegram(WRITE, node, 0xFF, VALID_2, 0);
    }
    assert_eq!(desk.telegram(BROADCAST, 0, 0xA0, 0, 2), "");
    for (node, word) in [(31, 0), (12, 0), (5, 0x0438)] {
        assert_eq!(word_of(&desk.telegram(READ, node, 0x65, 0, 0)), word, "{node}");
    }
}

/// The reply has the word of after, in the mode of then. Before: bits 10, 5, 4, 3 and 2 outside, 10, 5, 3 and 2 in
/// the mode; after it bit 9 at most. In: 01 ^ 1F ^ 28 ^ 02 ^ 03 = 37. Out: 01 ^ 1F ^ 28 = 36, and A0h 2 and 1: 01 ^
/// 1F ^ A0 ^ 02 = BC, 01 ^ 1F ^ A0 ^ 01 = BF.
#[test]
fn the_reply_has_the_word_of_after() {
    for (telegram, reply) in [
        ("011F2800000000000036", "011F2800000000000036"),
        ("011FA0000000000002BC", "011FA0000000000002BC"),
        ("011FA0000000000001BF", "011FA0000000000001BF"),
    ] {
        let mut desk = Desk::with_heads(&[31]);
        desk.write_with(0xFB, VALID_1, 7);
        assert_eq!(word_after(&mut desk, 0xFF, VALID_2 | CHARACTERS, 0), 0x043C);
        assert_eq!(desk.send("011F2800000000000335"), "011F2802000000000337");
        write_both(&mut desk, ACKNOWLEDGE_1 | ACKNOWLEDGE_2 | CHARACTERS);
        assert_eq!(desk.status(), 0x062C);
        assert_eq!(desk.send(telegram), reply);
        assert_eq!(desk.status(), 0);
    }
}

// What is no step.

/// 3 over 3, by write and by sheet, sheets without 28h, other commands of A0h, and other parameters.
#[test]
fn three_over_three_is_no_step() {
    let ways: [(&str, Preparation); 8] = [
        ("28h 3", |desk| desk.write(0x28, 3)),
        ("a sheet with 3", |desk| load(desk, SHEETS[3])),
        ("an empty sheet", |desk| load(desk, "00")),
        ("a sheet without 28h", |desk| load(desk, "0220000731000B0000000900000009")),
        ("A0h 5", |desk| desk.write(0xA0, 5)),
        ("A0h 7", |desk| desk.write(0xA0, 7)),
        ("A0h 8", |desk| desk.write(0xA0, 8)),
        ("3Eh 2", |desk| desk.write(0x3E, 2)),
    ];
    for (way, stay) in ways {
        let mut desk = in_the_display();
        write_both(&mut desk, ACKNOWLEDGE_1 | CHARACTERS);
        stay(&mut desk);
        assert_eq!(desk.status(), 0x060C, "{way}");
        assert_eq!((desk.read(0x28), desk.read(0xFB), desk.read(0xFF)), (3, 7, 8), "{way}");
    }
}

/// From 0 to 1 to 2 and back nothing goes, nor by a reset that finds another mode: bits 10, 5, 4, 3 and 2.
#[test]
fn a_step_between_other_modes_is_none() {
    let mut desk = Desk::with_heads(&[31]);
    desk.write_with(0xFB, VALID_1, 7);
    assert_eq!(word_after(&mut desk, 0xFF, VALID_2, 0), 0x043C);
    for mode in [1, 2, 0, 2, 1, 1] {
        desk.write(0x28, mode);
        assert_eq!(desk.status(), 0x043C, "{mode}");
    }
    for sheet in &SHEETS[..3] {
        load(&mut desk, sheet);
        assert_eq!(desk.status(), 0x043C, "{sheet}");
    }
    for command in [2, 1] {
        desk.write(0x28, 1);
        desk.write(0xA0, command);
        assert_eq!(desk.status(), 0x043C, "A0h {command}");
    }
}

/// Above the row, broadcast, locked, damaged (01 ^ 1F ^ 28 = 36, sent as 37), and on sheets that are refused: 28h 0
/// before 31h 10000, 28h 4, and a row of 28h before one of D2h.
#[test]
fn what_is_refused_is_no_step() {
    let mut desk = in_the_display();
    write_both(&mut desk, ACKNOWLEDGE_1);
    assert_eq!(desk.refusal(WRITE, 0x28, 4), 0x0282);
    assert_eq!(desk.telegram(BROADCAST, 31, 0x28, 0, 0), "");
    desk.write(0x0E, 1);
    assert_eq!(desk.refusal(WRITE, 0x28, 0), 0x0385);
    assert_eq!(desk.refusal(WRITE, 0xA0, 2), 0x0385);
    assert_eq!(desk.telegram(BROADCAST, 31, 0xA0, 0, 1), "");
    assert_eq!(code_of(&desk.send("011F2800000000000037")), 0x0080);
    for (sheet, number) in [
        ("0228000731000B0000000000002710", 13),
        ("0128000400000004", 13),
        ("02280007D2000B0000000000000005", 12),
        ("012800050000000000", 11),
    ] {
        assert_eq!(desk.line(&format!("load 0 {sheet}")), format!("refused {number}"));
    }
    assert_eq!(desk.status(), 0x040C);
    assert_eq!(desk.read(0x28), 3);
}

/// A sheet ignores the interlock, so that a locked head goes in and out by it.
#[test]
fn a_sheet_leads_a_locked_head_in_and_out() {
    let mut desk = Desk::with_heads(&[31]);
    desk.write(0x0E, 1);
    desk.write_with(0xFB, VALID_1, 7);
    load(&mut desk, SHEETS[3]);
    assert_eq!(desk.status(), 0);
    assert_eq!(word_after(&mut desk, 0xFB, VALID_1 | ACKNOWLEDGE_1, 7), 0x000C);
    load(&mut desk, SHEETS[0]);
    assert_eq!(desk.status(), 0);
}

// What the step leaves.

/// The taken word: bit 7 is shown at once, and bit 5 is nothing new, so that it acknowledges no error.
#[test]
fn the_taken_word_survives_the_step() {
    for (way, enter) in WAYS_IN {
        let mut desk = Desk::with_heads(&[31]);
        desk.write_with(0xFB, CHARACTERS | ACKNOWLEDGE_ERROR, 7);
        raise_error(&mut desk);
        enter(&mut desk);
        assert_eq!(desk.status(), 0x0280, "{way}");
        assert_eq!(word_after(&mut desk, 0xFB, CHARACTERS | ACKNOWLEDGE_ERROR, 7), 0x0280, "{way}");
        desk.write(0x28, 0);
        assert_eq!(word_after(&mut desk, 0xFB, ACKNOWLEDGE_ERROR, 7), 0x0080, "{way}");
    }
}

/// A pending error, a kept value and keys: 4180 in the mode and outside. The kept value is 5, and the position 25.
#[test]
fn all_else_survives_the_step() {
    let mut desk = Desk::with_heads(&[31]);
    desk.ok("measure 0 5");
    desk.write(0xAA, 1);
    press(&mut desk, 4);
    desk.ok("keys 0 2");
    raise_error(&mut desk);
    desk.ok("measure 0 25");
    for mode in [3, 1, 3, 0, 3] {
        desk.write(0x28, mode);
        assert_eq!(desk.status(), 0x4180, "{mode}");
    }
    assert_eq!((desk.read(0xFE), desk.read(0xFE), desk.read(0xFD)), (5, 25, 0x80));
}

/// A number on offer is adopted in the mode too: 01 ^ 1F ^ D2 ^ 05 = C9, and with bits 10 and 2 in its word 01 ^ 1F ^
/// D2 ^ 04 ^ 04 ^ 05 = C9. The call presses all three, and the word is that before it; 28h stays 3.
#[test]
fn auto_id_in_the_display() {
    let mut desk = with_set_points();
    desk.write(0x3E, 2);
    assert_eq!(desk.send("011FD2000000000005C9"), "");
    assert_eq!(desk.line("keys 0 7"), "ok 011FD2040400000005C9");
    assert_eq!(desk.ask("0 5 40 0 0"), "value 3");
    assert_eq!(word_of(&desk.telegram(READ, 5, 0x65, 0, 0)), 0);
}

// A restart.

/// It keeps the mode and clears the set points, as it does outside; A0h 9 replies with the word before: bits 10, 9, 5,
/// 3 and 2. 01 ^ 1F ^ A0 ^ 06 ^ 2C ^ 09 = 9D.
#[test]
fn a_restart_keeps_the_mode_and_no_acknowledgement() {
    for (restart, answer) in [("power 0", "ok"), ("send 0 011FA0000000000009B7", "sent 011FA0062C000000099D")]
    {
        let mut desk = in_the_display();
        write_both(&mut desk, ACKNOWLEDGE_1 | ACKNOWLEDGE_2 | CHARACTERS);
        assert_eq!(desk.status(), 0x062C);
        assert_eq!(desk.line(restart), answer);
        assert_eq!(desk.status(), 0);
        assert_eq!((desk.read(0x28), desk.read(0xFB), desk.read(0xFF)), (3, 0, 0));
        // Still in the mode: S 0 at A 0 has no window, and is not acknowledged from before.
        write_both(&mut desk, 0);
        assert_eq!(desk.status(), 0x0404);
    }
}

// "Measurement, position, FCh, FEh and the FFh answer go on as before."

/// A 50 against S 8: 42, with 34h 1 -42. With 0Bh 1 A is 5. Characters are a number to FCh: JOB1 is 1246708273, held.
#[test]
fn position_and_differential_value_go_on() {
    let mut desk = with_set_points();
    desk.ok("measure 0 50");
    assert_eq!((desk.read(0xFE), desk.read(0xFC)), (50, 42));
    desk.write(0x34, 1);
    assert_eq!(desk.read(0xFC), -42);
    desk.write(0x34, 0);
    desk.write(0x0B, 1);
    assert_eq!((desk.read(0xFE), desk.read(0xFC)), (5, -3));
    desk.write_with(0xFF, VALID_2 | CHARACTERS, 0x4A4F_4231);
    assert_eq!(desk.read(0xFC), -5_242_880);
}

/// 03h 0 the set point, 1 the position 50, 2 A - S, here 50 - 60 and 50 - 40.
#[test]
fn ffh_is_answered_by_03h() {
    let mut desk = in_the_display();
    desk.ok("measure 0 50");
    for (choice, set_point, answer) in [(0, 60, "value 60"), (1, 60, "value 50"), (2, 40, "value 10")] {
        desk.write(0x03, choice);
        assert_eq!(desk.ask(&format!("1 31 255 640 {set_point}")), answer, "03h {choice}");
    }
}

/// AAh keeps 50 and shows bit 8, the read of FEh releases it; A7h and A0h 7 calibrate whatever lacks acknowledgement.
#[test]
fn freezing_and_calibrating_go_on() {
    let mut desk = with_set_points();
    desk.ok("measure 0 50");
    assert_eq!(word_of(&desk.write_with(0xAA, 0, 1)), 0x0504);
    desk.ok("measure 0 60");
    assert_eq!((desk.read(0xFE), desk.status(), desk.read(0xFE)), (50, 0x0404, 60));
    for (parameter, value) in [(0xA7, 1), (0xA0, 7)] {
        desk.ok("measure 0 70");
        assert_eq!(word_of(&desk.write_with(parameter, 0, value)), 0x0404);
        assert_eq!(desk.read(0xFE), 0);
    }
}

/// What was measured and calibrated in the mode counts outside: 70 - 60.
#[test]
fn what_happened_in_the_mode_counts_outside() {
    let mut desk = in_the_display();
    desk.ok("measure 0 60");
    press(&mut desk, 1);
    desk.ok("measure 0 70");
    desk.write(0x28, 0);
    assert_eq!(desk.read(0xFE), 10);
    // S 10 at A 10: bits 10, 5, 4 and 3.
    assert_eq!(word_after(&mut desk, 0xFF, VALID_2, 10), 0x0438);
}

/// Each head has a mode of its own: S 0 at A 0 in the one is a number, in the other a target.
#[test]
fn each_head_has_its_own_mode() {
    let mut desk = Desk::with_heads(&[31, 12]);
    desk.telegram(WRITE, 12, 0x28, 0, 3);
    for (node, word) in [(31, 0x0438), (12, 0x0420)] {
        desk.telegram(WRITE, node, 0xFF, VALID_2 | ACKNOWLEDGE_2, 0);
        assert_eq!(word_of(&desk.telegram(READ, node, 0x65, 0, 0)), word, "{node}");
    }
    // Left at the head that is not in the mode acknowledges nothing at the other.
    desk.telegram(WRITE, 12, 0xFF, VALID_2, 0);
    press(&mut desk, 1);
    assert_eq!(word_of(&desk.telegram(READ, 12, 0x65, 0, 0)), 0x0400);
}
