//! Request (vi), the other end of the wire: telegrams built from their fields, replies read against the question,
//! and `ask`, which does both. All bytes and values are worked out by hand; PARAMETER is decimal in a script, so
//! 20h is 32, 96h 150, A0h 160, D2h 210, FAh 250, FBh 251, FCh 252, FDh 253, FEh 254 and FFh 255.

mod common;
use common::{code_of, Desk, READ, WRITE};
use reference::line::{Line, Refusal};
use reference::master::{Finding, Question};
use reference::script::hex;
use reference::telegram::{Telegram, BROADCAST};

/// A question whose control word and data are 0; a reply is not held against them.
fn question(command: u8, node: u8, parameter: u8) -> Question {
    Question { command, node, parameter, control_word: 0, data: 0 }
}

fn built(command: u8, node: u8, parameter: u8, control_word: u16, data: u32) -> String {
    hex(&Question { command, node, parameter, control_word, data }.telegram().expect("it can be built"))
}

fn bytes(digits: &str) -> Vec<u8> {
    let byte = |place| u8::from_str_radix(&digits[place..place + 2], 16).unwrap();
    (0..digits.len()).step_by(2).map(byte).collect()
}

/// What a question makes of the bytes that these digits give.
fn finding(command: u8, node: u8, parameter: u8, digits: &str) -> Finding {
    question(command, node, parameter).finding(&bytes(digits))
}

/// Three damaged ones, 3E for 3F, raise 0080h.
fn raise_error_at(desk: &mut Desk, time: u32) {
    desk.time = time;
    raise_error(desk);
}

fn raise_error(desk: &mut Desk) {
    for _ in 0..3 {
        assert_eq!(code_of(&desk.send("001F200000000000003E")), 0x0080);
    }
}

// "Build any command telegram from its fields."

#[test]
fn the_telegrams_of_document_01_are_built() {
    assert_eq!(built(READ, 31, 0x20, 0, 0), "001F200000000000003F");
    assert_eq!(built(WRITE, 31, 0x04, 0, 90), "011F0400000000005A40");
    // The manual's set point example, with the check sum that the formula gives.
    assert_eq!(built(WRITE, 1, 0xFF, 0x0200, 1_234), "0101FF0200000004D22B");
}

#[test]
fn fields_stand_high_byte_first() {
    // 01 ^ 02 ^ 03 = 00, 04 ^ 05 = 01, 06 ^ 07 ^ 08 ^ 09 = 00.
    assert_eq!(built(1, 2, 3, 0x0405, 0x0607_0809), "01020304050607080901");
}

#[test]
fn the_smallest_and_the_largest_fields_are_built() {
    assert_eq!(built(READ, 0, 0, 0, 0), "00000000000000000000");
    // 02 ^ 7F = 7D, and FF seven times is FF.
    assert_eq!(built(BROADCAST, 127, 0xFF, u16::MAX, u32::MAX), "027FFFFFFFFFFFFFFF82");
}

#[test]
fn node_0_is_built_with_every_command() {
    assert_eq!(built(READ, 0, 0x20, 0, 0), "00002000000000000020");
    assert_eq!(built(WRITE, 0, 0x20, 0, 7), "01002000000000000726");
    assert_eq!(built(BROADCAST, 0, 0xAA, 0, 1), "0200AA000000000001A9");
}

#[test]
fn refusal_10_for_a_command_above_02h_or_a_node_above_127() {
    for (command, node) in
        [(3, 31), (3, 0), (0xFF, 127), (READ, 128), (WRITE, 0x9F), (BROADCAST, 255), (3, 128)]
    {
        assert_eq!(question(command, node, 0x20).telegram(), Err(Refusal::CommandOrNode), "{command} {node}");
    }
    assert_eq!(Refusal::CommandOrNode.number(), 10);
}

// "Read a reply into its value, its error code or the finding that it is not a reply to what was asked."

#[test]
fn the_replies_of_document_01_are_read() {
    assert_eq!(finding(READ, 31, 0x20, "001F200000000000053A"), Finding::Value(5));
    assert_eq!(finding(WRITE, 31, 0x04, "011FFD00000000028263"), Finding::Error(0x0282));
}

#[test]
fn all_four_data_bytes_are_the_value() {
    // 1F ^ 1E ^ 12 ^ 34 ^ 56 ^ 78 = 09, and FF four times is 00.
    assert_eq!(finding(READ, 31, 0x1E, "001F1E00001234567809"), Finding::Value(0x1234_5678));
    assert_eq!(finding(READ, 31, 0x1E, "001F1E0000FFFFFFFF01"), Finding::Value(4_294_967_295));
}

#[test]
fn the_upper_two_bytes_of_an_error_are_not_looked_at() {
    // E3 is 01 ^ 1F ^ FD; E3 ^ AB ^ CD ^ 02 ^ 82 = 05, and E3 ^ FF ^ FF ^ 12 ^ 34 = C5.
    assert_eq!(finding(WRITE, 31, 0x04, "011FFD0000ABCD028205"), Finding::Error(0x0282));
    assert_eq!(finding(WRITE, 31, 0x04, "011FFD0000FFFF1234C5"), Finding::Error(0x1234));
    // A code of 0 is one too.
    assert_eq!(finding(WRITE, 31, 0x04, "011FFD000000000000E3"), Finding::Error(0));
}

#[test]
fn the_status_word_is_not_looked_at() {
    // 1F ^ 20 ^ FF ^ FF ^ 05, and 01 ^ 1F ^ FD ^ 04 ^ 80 ^ 02 ^ 82 = E7.
    assert_eq!(finding(READ, 31, 0x20, "001F20FFFF000000053A"), Finding::Value(5));
    assert_eq!(finding(WRITE, 31, 0x04, "011FFD048000000282E7"), Finding::Error(0x0282));
}

#[test]
fn word_and_data_of_the_question_are_not_looked_at() {
    let asked = Question { command: WRITE, node: 31, parameter: 0xFF, control_word: 0x0200, data: 40 };
    // 01 ^ 1F ^ FF ^ 04 ^ 32 = D7: the current value 50, as 03h 1 has it.
    assert_eq!(asked.finding(&bytes("011FFF040000000032D7")), Finding::Value(50));
}

#[test]
fn nothing_but_ten_bytes_belongs() {
    let reply = bytes("001F200000000000053A");
    let asked = question(READ, 31, 0x20);
    for length in 0..10 {
        assert_eq!(asked.finding(&reply[..length]), Finding::Foreign, "{length}");
    }
    // The exclusive-or of all eleven, and of all twenty, is 0 too.
    assert_eq!(asked.finding(&[&reply[..], &[0]].concat()), Finding::Foreign);
    assert_eq!(asked.finding(&[&[0], &reply[..]].concat()), Finding::Foreign);
    assert_eq!(asked.finding(&reply.repeat(2)), Finding::Foreign);
    assert_eq!(asked.finding(&[0; 1_000]), Finding::Foreign);
}

#[test]
fn what_does_not_pass_the_check_does_not_belong() {
    for digits in
        ["001F200000000000053B", "001F200000000000043A", "001F20000000000005BA", "001FFD00000000008362"]
    {
        assert_eq!(finding(READ, 31, 0x20, digits), Finding::Foreign, "{digits}");
    }
}

/// The reply to a read of 20h at 31, with one of the three bytes and the check sum otherwise.
#[test]
fn command_node_and_parameter_have_to_be_the_same() {
    assert_eq!(finding(READ, 31, 0x20, "011F200000000000053B"), Finding::Foreign);
    assert_eq!(finding(READ, 31, 0x20, "00202000000000000505"), Finding::Foreign);
    assert_eq!(finding(READ, 31, 0x20, "009F20000000000005BA"), Finding::Foreign);
    assert_eq!(finding(READ, 31, 0x20, "001F210000000000053B"), Finding::Foreign);
    // Others that differ from FDh by a bit: 1F ^ FC ^ 83 = 60, 1F ^ FF ^ 83 = 63.
    assert_eq!(finding(READ, 31, 0x20, "001FFC00000000008360"), Finding::Foreign);
    assert_eq!(finding(READ, 31, 0x20, "001FFF00000000008363"), Finding::Foreign);
}

/// 00 83 to a read at 31, 1F ^ FD ^ 83 = 61: from another node, to another command.
#[test]
fn of_an_error_reply_command_and_node_have_to_be_the_same() {
    assert_eq!(finding(READ, 31, 0x20, "001FFD00000000008361"), Finding::Error(0x0083));
    assert_eq!(finding(WRITE, 31, 0x20, "001FFD00000000008361"), Finding::Foreign);
    assert_eq!(finding(READ, 30, 0x20, "001FFD00000000008361"), Finding::Foreign);
    assert_eq!(finding(READ, 0x9F, 0x20, "001FFD00000000008361"), Finding::Foreign);
}

#[test]
fn to_a_read_of_fdh_itself_fdh_is_a_value() {
    // 1F ^ FD = E2, ^ 80 = 62.
    assert_eq!(finding(READ, 31, 0xFD, "001FFD000000000000E2"), Finding::Value(0));
    assert_eq!(finding(READ, 31, 0xFD, "001FFD00000000008062"), Finding::Value(0x80));
    // All four bytes: E2 ^ 12 ^ 34 ^ 56 ^ 78 = EA.
    assert_eq!(finding(READ, 31, 0xFD, "001FFD000012345678EA"), Finding::Value(0x1234_5678));
}

#[test]
fn to_a_write_of_fdh_it_is_an_error() {
    // 01 ^ 1F ^ FD ^ 01 ^ 84 = 66.
    assert_eq!(finding(WRITE, 31, 0xFD, "011FFD00000000018466"), Finding::Error(0x0184));
    assert_eq!(finding(WRITE, 31, 0xFD, "001FFD00000000018467"), Finding::Foreign);
}

/// Neither a copy of it nor an error reply with its command: 02 ^ AA ^ 01 = A9, 02 ^ FD ^ 84 = 7B.
#[test]
fn nothing_belongs_to_a_broadcast() {
    for (parameter, digits) in [
        (0xAA, "0200AA000000000001A9"),
        (0xAA, "0200FD0000000000847B"),
        (0xFD, "0200FD000000000000FF"),
        (0xFD, "0200FD0000000000847B"),
    ] {
        assert_eq!(finding(BROADCAST, 0, parameter, digits), Finding::Foreign, "{digits}");
    }
}

/// It would be asked by other means: 03 ^ 1F ^ FD ^ 84 = 65, 9F ^ 20 ^ 05 = BA.
#[test]
fn fields_that_are_not_built_are_read_by_the_same_rule() {
    assert_eq!(finding(3, 31, 0x20, "031FFD00000000008465"), Finding::Error(0x0084));
    assert_eq!(finding(3, 31, 0xFD, "031FFD00000000008465"), Finding::Error(0x0084));
    assert_eq!(finding(READ, 0x9F, 0x20, "009F20000000000005BA"), Finding::Value(5));
}

// `ask`: values.

#[test]
fn reads_are_answered_with_values() {
    let mut desk = Desk::with_heads(&[31]);
    for (parameter, value) in [(0, 31), (4, 5), (0x1C, 720), (0x20, 5), (0x3A, 0), (0x65, 11), (0x67, 100)] {
        assert_eq!(desk.ask(&format!("0 31 {parameter} 0 0")), format!("value {value}"));
    }
    // Word and data of a read are ignored.
    assert_eq!(desk.ask("0 31 32 65535 4294967295"), "value 5");
}

#[test]
fn writes_are_answered_with_the_value_written() {
    let mut desk = Desk::with_heads(&[31]);
    assert_eq!(desk.ask("1 31 32 0 9999"), "value 9999");
    assert_eq!(desk.ask("0 31 32 0 0"), "value 9999");
    assert_eq!(desk.ask("1 31 28 0 65535"), "value 65535");
    assert_eq!(desk.ask("1 31 251 4 4294967295"), "value 4294967295");
    assert_eq!(desk.ask("0 31 251 0 0"), "value 4294967295");
}

/// "The four data bytes as an unsigned number whatever the parameter": -100 is 4294967296 - 100.
#[test]
fn negative_numbers_are_told_as_they_stand_in_the_bytes() {
    let mut desk = Desk::with_heads(&[31]);
    assert_eq!(desk.ask("1 31 30 0 4294967196"), "value 4294967196");
    for parameter in [0x1E, 0xFE, 0xFC] {
        assert_eq!(desk.ask(&format!("0 31 {parameter} 0 0")), "value 4294967196");
    }
    // -19999 is the lowest; -20000 lies below it, 20000 above the highest.
    assert_eq!(desk.ask("1 31 30 0 4294947297"), "value 4294947297");
    assert_eq!(desk.ask("1 31 30 0 4294947296"), "error 0182");
    assert_eq!(desk.ask("1 31 30 0 20000"), "error 0282");
}

#[test]
fn the_control_word_is_taken() {
    let mut desk = Desk::with_heads(&[31]);
    // Bit 9: valid; A 0 lies in the window about 5: 10, 5 and 4. 0400 + 0020 + 0010.
    assert_eq!(desk.ask("1 31 255 512 5"), "value 5");
    assert_eq!(desk.ask("0 31 250 0 0"), "value 1072");
    // The read has cleared bit 4; FBh's bit is 2. 0400 + 0020 + 0004.
    assert_eq!(desk.ask("1 31 251 4 7"), "value 7");
    assert_eq!(desk.ask("0 31 250 0 0"), "value 1060");
    // Without bit 9 set point 2 is not valid.
    assert_eq!(desk.ask("1 31 255 65023 5"), "value 5");
    assert_eq!(desk.ask("0 31 250 0 0"), "value 4");
}

/// FFh by 03h, at A 50: the set point, the current value, the differential value after the write.
#[test]
fn a_write_may_be_answered_with_another_value() {
    let mut desk = Desk::with_heads(&[31]);
    desk.ok("measure 0 50");
    assert_eq!(desk.ask("1 31 255 512 40"), "value 40");
    assert_eq!(desk.ask("1 31 3 0 1"), "value 1");
    assert_eq!(desk.ask("1 31 255 512 40"), "value 50");
    assert_eq!(desk.ask("1 31 3 0 2"), "value 2");
    assert_eq!(desk.ask("1 31 255 512 40"), "value 10");
    // 50 - 60 = -10, and 50 - 2147483647 is held to -5242880.
    assert_eq!(desk.ask("1 31 255 512 60"), "value 4294967286");
    assert_eq!(desk.ask("1 31 255 512 2147483647"), "value 4289724416");
}

/// 96h: its number in the first data byte, 1 << 24 = 16777216.
#[test]
fn the_input_errors_are_values() {
    let mut desk = Desk::with_heads(&[31]);
    assert_eq!(desk.ask("0 31 150 0 0"), "value 0");
    assert_eq!(desk.ask("0 31 99 0 0"), "error 0083");
    assert_eq!(desk.ask("0 31 150 0 0"), "value 1");
    assert_eq!(desk.ask("0 31 150 0 16777216"), "value 16777347");
    // Above the count; that error is then the second.
    assert_eq!(desk.ask("0 31 150 0 33554432"), "error 0282");
    // 33554432 + 0282h.
    assert_eq!(desk.ask("0 31 150 0 33554432"), "value 33555074");
}

#[test]
fn a_frozen_value_is_read_once() {
    let mut desk = Desk::with_heads(&[31]);
    desk.ok("measure 0 50");
    assert_eq!(desk.ask("1 31 170 0 1"), "value 1");
    desk.ok("measure 0 -70");
    assert_eq!(desk.ask("0 31 254 0 0"), "value 50");
    assert_eq!(desk.ask("0 31 254 0 0"), "value 4294967226");
}

/// A0h 9 replies from the old number, to which the question was.
#[test]
fn a_restart_is_answered_from_the_old_number() {
    let mut desk = Desk::with_heads(&[31]);
    assert_eq!(desk.ask("1 31 0 0 12"), "value 12");
    assert_eq!(desk.ask("1 31 160 0 9"), "value 9");
    assert_eq!(desk.ask("0 31 0 0 0"), "");
    assert_eq!(desk.ask("0 12 0 0 0"), "value 12");
}

// `ask`: errors.

#[test]
fn errors_of_the_checks_are_told_as_four_hex_digits() {
    let mut desk = Desk::with_heads(&[31]);
    for (fields, code) in [
        ("0 31 99 0 0", "0083"),
        ("1 31 99 0 0", "0083"),
        ("1 31 254 0 0", "0184"),
        ("1 31 101 0 11", "0184"),
        ("0 31 160 0 9", "0284"),
        ("0 31 170 0 1", "0284"),
        ("1 31 4 0 0", "0182"),
        ("1 31 4 0 90", "0282"),
        ("1 31 62 0 1", "0082"),
        ("1 31 160 0 3", "0082"),
        ("1 31 160 0 0", "0182"),
        ("1 31 160 0 4294967295", "0282"),
    ] {
        assert_eq!(desk.ask(fields), format!("error {code}"), "{fields}");
    }
}

#[test]
fn a_locked_head_refuses() {
    let mut desk = Desk::with_heads(&[31]);
    assert_eq!(desk.ask("1 31 14 0 1"), "value 1");
    assert_eq!(desk.ask("1 31 32 0 99999"), "error 0385");
    assert_eq!(desk.ask("1 31 160 0 9"), "error 0385");
    assert_eq!(desk.ask("0 31 32 0 0"), "value 5");
    assert_eq!(desk.ask("1 31 168 0 1"), "value 1");
    assert_eq!(desk.ask("1 31 32 0 8"), "value 8");
}

// `ask`: FDh.

#[test]
fn the_pending_error_is_a_value() {
    let mut desk = Desk::with_heads(&[31]);
    assert_eq!(desk.ask("0 31 253 0 0"), "value 0");
    raise_error(&mut desk);
    assert_eq!(desk.ask("0 31 253 0 0"), "value 128");
    assert_eq!(desk.ask("1 31 251 32 0"), "value 0");
    assert_eq!(desk.ask("0 31 253 0 0"), "value 0");
    assert_eq!(desk.ask("1 31 2 0 1"), "value 1");
    desk.ok("tick 100");
    desk.time = 100;
    assert_eq!(desk.ask("0 31 253 0 0"), "value 129");
}

#[test]
fn writing_it_is_an_error() {
    let mut desk = Desk::with_heads(&[31]);
    assert_eq!(desk.ask("1 31 253 0 0"), "error 0184");
    raise_error(&mut desk);
    assert_eq!(desk.ask("1 31 253 0 128"), "error 0184");
    assert_eq!(desk.ask("2 31 253 0 0"), "");
}

// `ask`: no reply, or more than one.

#[test]
fn nobody_answers_a_broadcast_another_number_or_node_0() {
    let mut desk = Desk::with_heads(&[31]);
    desk.ok("measure 0 50");
    // It is heard nevertheless: frozen at 50.
    assert_eq!(desk.ask("2 0 170 0 1"), "");
    desk.ok("measure 0 60");
    assert_eq!(desk.ask("0 31 254 0 0"), "value 50");
    // Refused for its value, and for its parameter.
    assert_eq!(desk.ask("2 31 170 0 2"), "");
    assert_eq!(desk.ask("2 31 32 0 7"), "");
    for fields in ["0 12 32 0 0", "1 30 32 0 7", "0 0 32 0 0", "1 0 32 0 7", "0 127 32 0 0"] {
        assert_eq!(desk.ask(fields), "", "{fields}");
    }
    assert_eq!(desk.ask("0 31 32 0 0"), "value 5");
}

/// "Remembered without a reply", then up.
#[test]
fn an_offer_has_no_answer_and_its_refusal_has_one() {
    let mut desk = Desk::with_heads(&[31, 12]);
    assert_eq!(desk.ask("1 31 210 0 5"), "");
    // 01 ^ 1F ^ D2 ^ 05.
    assert_eq!(desk.line("keys 0 4"), "ok 011FD2000000000005C9");
    assert_eq!(desk.ask("0 5 0 0 0"), "value 5");
    for (fields, code) in [("1 12 210 0 5", "0085"), ("1 12 210 0 0", "0085"), ("0 12 210 0 5", "0284")] {
        assert_eq!(desk.ask(fields), format!("error {code}"), "{fields}");
    }
    desk.ok("head 31 4711");
    for (fields, code) in [("1 31 210 0 0", "0182"), ("1 31 210 0 32", "0282"), ("0 31 210 0 5", "0284")] {
        assert_eq!(desk.ask(fields), format!("error {code}"), "{fields}");
    }
}

#[test]
fn two_or_more_replies_at_once_are_a_collision() {
    let mut desk = Desk::with_heads(&[31, 31, 12]);
    assert_eq!(desk.ask("0 31 32 0 0"), "collision 2");
    assert_eq!(desk.ask("1 31 4 0 90"), "collision 2");
    assert_eq!(desk.ask("0 12 32 0 0"), "value 5");
    desk.ok("head 31 4711");
    // The heads still act.
    assert_eq!(desk.ask("1 31 0 0 12"), "collision 3");
    assert_eq!(desk.ask("2 0 160 0 9"), "");
    assert_eq!(desk.ask("0 12 32 0 0"), "collision 4");
}

#[test]
fn an_empty_line_is_asked_in_vain() {
    let mut desk = Desk::with_heads(&[]);
    assert_eq!(desk.line("ask 0 0 31 32 0 0"), "asked");
    assert_eq!(desk.line("ask 4294967295 2 127 255 65535 4294967295"), "asked");
    assert_eq!(desk.line("ask 0 3 31 32 0 0"), "refused 10");
    desk.ok("space 9");
    assert_eq!(desk.line("ask 0 0 31 32 0 0"), "refused 6");
    assert_eq!(desk.line("ask 0 0 128 32 0 0"), "refused 10");
}

// "Bytes gathered at a head stay, so a reply may come at any of the ten byte calls and each is read against the
// question."

/// A read of 65h of which the check sum is missing, 1F ^ 65 ^ 7A = 00, which a read's command gives: the reply
/// comes at the first byte.
const READ_OF_65H_BUT_00: &str = "001F657A0000000000";

#[test]
fn the_reply_to_another_parameter_is_foreign() {
    let mut desk = Desk::with_heads(&[31]);
    assert_eq!(desk.send(READ_OF_65H_BUT_00), "");
    assert_eq!(desk.ask("0 31 32 0 0"), "foreign");
}

#[test]
fn and_a_value_where_65h_was_asked_for() {
    let mut desk = Desk::with_heads(&[31]);
    assert_eq!(desk.send(READ_OF_65H_BUT_00), "");
    assert_eq!(desk.ask("0 31 101 0 0"), "value 11");
}

/// Head 0 is at 12: 0C ^ 65 ^ 69 = 00.
#[test]
fn the_reply_of_another_node_is_foreign() {
    let mut desk = Desk::with_heads(&[12, 31]);
    assert_eq!(desk.send("000C65690000000000"), "");
    assert_eq!(desk.ask("0 31 101 0 0"), "foreign");
}

/// A write of 7 to 20h, 01 ^ 1F ^ 20 ^ 39 ^ 07 = 00, before a read of 20h.
#[test]
fn the_reply_to_another_command_is_foreign() {
    let mut desk = Desk::with_heads(&[31]);
    assert_eq!(desk.send("011F20390000000007"), "");
    assert_eq!(desk.ask("0 31 32 0 0"), "foreign");
    desk.time = 11;
    assert_eq!(desk.ask("0 31 32 0 0"), "value 7");
}

/// A command 03h, 03 ^ 1F ^ 20 ^ 3C = 00: 00 84, but with 03h.
#[test]
fn an_error_of_another_command_is_foreign() {
    let mut desk = Desk::with_heads(&[31]);
    assert_eq!(desk.send("031F203C0000000000"), "");
    assert_eq!(desk.ask("0 31 32 0 0"), "foreign");
    // It was sent: 96h counts it.
    desk.time = 11;
    assert_eq!(desk.ask("0 31 150 0 0"), "value 1");
}

/// A read of 63h, 1F ^ 63 ^ 7C = 00: FDh does not tell which parameter was meant.
#[test]
fn an_error_of_the_same_command_and_node_belongs() {
    let mut desk = Desk::with_heads(&[31]);
    assert_eq!(desk.send("001F637C0000000000"), "");
    assert_eq!(desk.ask("0 31 32 0 0"), "error 0083");
    // To a read of FDh it is a value.
    desk.time = 11;
    assert_eq!(desk.send("001F637C0000000000"), "");
    assert_eq!(desk.ask("0 31 253 0 0"), "value 131");
    // To a write it is not a reply: check sum 01.
    desk.time = 22;
    assert_eq!(desk.send("001F637D0000000000"), "");
    assert_eq!(desk.ask("1 31 99 0 0"), "foreign");
}

/// The other way round: a read of FDh, 1F ^ FD ^ E2 = 00, whose answer looks like a refusal to a read of 20h.
#[test]
fn the_answer_to_a_read_of_fdh_is_an_error_to_others() {
    let mut desk = Desk::with_heads(&[31]);
    assert_eq!(desk.send("001FFDE20000000000"), "");
    assert_eq!(desk.ask("0 31 32 0 0"), "error 0000");
    raise_error_at(&mut desk, 20);
    desk.time = 40;
    assert_eq!(desk.send("001FFDE20000000000"), "");
    assert_eq!(desk.ask("0 31 32 0 0"), "error 0080");
}

/// The same with check sum 02, 1F ^ 65 ^ 78 = 02.
#[test]
fn a_reply_drawn_by_a_broadcast_is_foreign() {
    let mut desk = Desk::with_heads(&[31]);
    assert_eq!(desk.send("001F65780000000000"), "");
    assert_eq!(desk.ask("2 31 101 0 0"), "foreign");
}

/// Three bytes of the question itself and seven of it again: 00 1F 20, 00 1F 20 00 00 00 00, which is sound.
#[test]
fn a_reply_drawn_early_may_belong() {
    let mut desk = Desk::with_heads(&[31]);
    assert_eq!(desk.send("001F20"), "");
    assert_eq!(desk.ask("0 31 32 0 0"), "value 5");
}

/// One byte gathered: 01, 01 01 01 00 00 00 00 01 01 is a write of 1 to 01h at 1, where 257 would be refused. Two:
/// 00 1F, 00 1F 20 20 00 00 00 00 is a read of 00h. From three on it is a read of 65h; what is missing for a sum of
/// 0 stands in a control word: 65 ^ 20 = 45, then 65 and 7A.
#[test]
fn it_may_come_at_any_byte() {
    let mut desk = Desk::with_heads(&[31, 1]);
    for (gathered, fields, answer) in [
        ("01", "1 1 1 0 257", "value 1"),
        ("001F", "0 31 32 8192 0", "foreign"),
        ("001F65", "0 31 32 17664 0", "foreign"),
        ("001F6545", "0 31 32 0 0", "foreign"),
        ("001F654500", "0 31 32 0 0", "foreign"),
        ("001F65450000", "0 31 32 0 0", "foreign"),
        ("001F6545000000", "0 31 32 0 0", "foreign"),
        ("001F656500000000", "0 31 32 0 0", "foreign"),
        ("001F657A0000000000", "0 31 32 0 0", "foreign"),
    ] {
        desk.time += 20;
        assert_eq!(desk.send(gathered), "");
        assert_eq!(desk.ask(fields), answer, "{gathered}");
    }
    // None of them was damaged.
    assert_eq!(desk.line("xor 0"), "xor 00");
}

/// Two bytes: 00 1F, 00 1F 20 00 00 00 00 00 is damaged, so 00 80 is what a built telegram can draw of check 1.
#[test]
fn a_damaged_one_is_an_error() {
    let mut desk = Desk::with_heads(&[31]);
    assert_eq!(desk.send("001F"), "");
    assert_eq!(desk.ask("0 31 32 0 0"), "error 0080");
    assert_eq!(desk.line("xor 0"), "xor 20");
    // 00 80 as a value, and foreign to a write.
    desk.time = 11;
    assert_eq!(desk.send("001F"), "");
    assert_eq!(desk.ask("0 31 253 0 0"), "value 128");
    desk.time = 22;
    assert_eq!(desk.send("001F"), "");
    assert_eq!(desk.ask("1 31 32 0 7"), "foreign");
}

/// At 10 ms the bytes are still there, at 11 they are not.
#[test]
fn a_gap_drops_what_was_gathered() {
    for (time, answer) in [(10, "foreign"), (11, "value 5")] {
        let mut desk = Desk::with_heads(&[31]);
        assert_eq!(desk.send(READ_OF_65H_BUT_00), "");
        desk.time = time;
        assert_eq!(desk.ask("0 31 32 0 0"), answer, "{time} ms");
    }
}

/// The last nine bytes of a read of 1Fh, 1F 1F 00 00 00 00 00 00 00, and 00 are a sound telegram of command 1Fh:
/// FD ^ 84 = 79.
#[test]
fn its_own_last_bytes_stay_gathered() {
    let mut desk = Desk::with_heads(&[31]);
    assert_eq!(desk.send(READ_OF_65H_BUT_00), "");
    assert_eq!(desk.ask("0 31 31 0 0"), "foreign");
    assert_eq!(desk.send("00"), "1F1FFD00000000008479");
}

/// And so another question draws that reply: its first byte is 00 too, and 1Fh is not its command.
#[test]
fn the_next_question_draws_the_reply_to_them() {
    let mut desk = Desk::with_heads(&[31]);
    assert_eq!(desk.send(READ_OF_65H_BUT_00), "");
    for _ in 0..3 {
        assert_eq!(desk.ask("0 31 31 0 0"), "foreign");
    }
    desk.time = 11;
    assert_eq!(desk.ask("0 31 31 0 0"), "value 0");
}

/// A head that was switched off and on has gathered nothing, so it replies at the tenth byte, the other before.
#[test]
fn one_question_may_draw_several_replies() {
    let mut desk = Desk::with_heads(&[31, 12]);
    assert_eq!(desk.send(READ_OF_65H_BUT_00), "");
    desk.ok("power 1");
    assert_eq!(desk.ask("0 12 32 0 0"), "foreign value 5");

    // Both at one number: at the seventh byte and at the tenth.
    let mut desk = Desk::with_heads(&[31, 31]);
    assert_eq!(desk.send("001F20"), "");
    desk.ok("power 1");
    assert_eq!(desk.ask("0 31 32 0 0"), "value 5 value 5");

    // Two of three at the eighth byte, and the third, which is new.
    let mut desk = Desk::with_heads(&[31, 31]);
    assert_eq!(desk.send("001F"), "");
    desk.ok("head 31 4711");
    assert_eq!(desk.ask("0 31 99 0 0"), "collision 2 error 0083");
}

/// A write of A0h 9, 01 ^ 1F ^ A0 ^ B7 ^ 09 = 00, by the first byte; nothing is gathered after the restart but the
/// other nine, and the new number is in force.
#[test]
fn a_restart_amid_a_question() {
    let mut desk = Desk::with_heads(&[31]);
    assert_eq!(desk.ask("1 31 0 0 12"), "value 12");
    assert_eq!(desk.send("011FA0B70000000009"), "");
    assert_eq!(desk.ask("0 31 160 0 0"), "foreign");
    desk.time = 11;
    assert_eq!(desk.ask("0 12 101 0 0"), "value 11");
}

// Refusals.

#[test]
fn refusal_10_leaves_everything_as_it_was() {
    let mut desk = Desk::with_heads(&[31]);
    assert_eq!(desk.send("001F65"), "");
    for fields in
        ["3 31 32 0 0", "255 31 32 0 0", "0 128 32 0 0", "1 159 32 0 7", "2 255 170 0 1", "3 128 0 0 0"]
    {
        assert_eq!(desk.line(&format!("ask 0 {fields}")), "refused 10", "{fields}");
    }
    // None of their bytes came after the three: 1F ^ 65 = 7A, 1F ^ 65 ^ 0B = 71.
    assert_eq!(desk.send("0000000000007A"), "001F6500000000000B71");
    assert_eq!(desk.ask("0 31 32 0 0"), "value 5");
}

#[test]
fn refusal_6_leaves_everything_as_it_was_and_comes_after_10() {
    let mut desk = Desk::with_heads(&[31]);
    assert_eq!(desk.send("001F65"), "");
    for size in [0, 9] {
        desk.ok(&format!("space {size}"));
        assert_eq!(desk.line("ask 0 1 31 32 0 7"), "refused 6");
        assert_eq!(desk.line("ask 0 2 0 160 0 9"), "refused 6");
        for fields in ["3 31 32 0 0", "0 128 32 0 0", "3 128 32 0 0"] {
            assert_eq!(desk.line(&format!("ask 0 {fields}")), "refused 10", "{fields}");
        }
    }
    desk.ok("space 10");
    assert_eq!(desk.send("0000000000007A"), "001F6500000000000B71");
    assert_eq!(desk.ask("0 31 32 0 0"), "value 5");
    desk.ok("space 64");
    assert_eq!(desk.ask("0 31 32 0 0"), "value 5");
}

// Lines that are none.

#[test]
fn what_is_no_question_is_an_error_and_changes_nothing() {
    let mut desk = Desk::with_heads(&[31]);
    let lines = [
        "ask",
        "ask 0 1 31 32 0",
        "ask 0 1 31 32 0 7 0",
        "ask 4294967296 1 31 32 0 7",
        "ask 0 256 31 32 0 7",
        "ask 0 257 31 32 0 7",
        "ask 0 1 256 32 0 7",
        "ask 0 1 287 32 0 7",
        "ask 0 1 31 256 0 7",
        "ask 0 1 31 288 0 7",
        "ask 0 1 31 32 65536 7",
        "ask 0 1 31 32 0 4294967296",
        "ask 0 1 31 32 0 4294967303",
        "ask -0 1 31 32 0 7",
        "ask 0 -1 31 32 0 7",
        "ask 0 1 -31 32 0 7",
        "ask 0 1 31 -32 0 7",
        "ask 0 1 31 32 -0 7",
        "ask 0 1 31 30 0 -7",
        "ask 0 1 31 20h 0 7",
        "ask 0 1 31 0x20 0 7",
        "ask 0 write 31 32 0 7",
        "ask 0 1 31 32 0 7 # seven",
        "ASK 0 1 31 32 0 7",
    ];
    for (number, line) in lines.into_iter().enumerate() {
        // The head took the first line.
        assert_eq!(desk.line(line), format!("error at line {}", number + 2), "{line}");
    }
    assert_eq!(desk.ask("0 31 32 0 0"), "value 5");
    assert_eq!(desk.line("\task  000 0001 00031\t032 0000000 00000000000007 "), "asked value 7");
}

// "What a head with no bytes gathered sends to a telegram built here is always read back as what the head meant."

/// Every parameter, read and written with data small, large and negative: the reply that `send` shows, taken
/// apart by its digits, is what `ask` tells.
#[test]
fn what_a_head_sends_is_what_is_read() {
    for parameter in 0..=255_u8 {
        for (command, data) in
            [(READ, 0), (READ, u32::MAX), (WRITE, 0), (WRITE, 1), (WRITE, 700), (WRITE, u32::MAX)]
        {
            let mut sending = Desk::with_heads(&[31]);
            let reply = sending.telegram(command, 31, parameter, 0x0200, i64::from(data));
            let told = match reply.get(4..6) {
                None => String::new(),
                Some("FD") if (command, parameter) != (READ, 0xFD) => format!("error {}", &reply[14..18]),
                Some(_) => format!("value {}", u32::from_str_radix(&reply[10..18], 16).unwrap()),
            };
            let mut asking = Desk::with_heads(&[31]);
            assert_eq!(asking.ask(&format!("{command} 31 {parameter} 512 {data}")), told);
        }
    }
}

#[test]
fn the_calls_of_master_and_line() {
    let mut line = Line::new();
    line.grow(31, 4_711).unwrap();
    let asked = question(READ, 31, 0xFD);
    let telegram = asked.telegram().unwrap();
    assert_eq!(telegram, Telegram::new(READ, 31, 0xFD, 0, 0).bytes());
    let mut space = [0xEE; 12];
    for &byte in &telegram[..9] {
        assert_eq!(line.byte(0, byte, &mut space), Ok(0));
    }
    assert_eq!(line.byte(0, telegram[9], &mut space), Ok(1));
    assert_eq!(asked.finding(&space[..10]), Finding::Value(0));
    // The space is longer than the reply.
    assert_eq!(asked.finding(&space), Finding::Foreign);
}
