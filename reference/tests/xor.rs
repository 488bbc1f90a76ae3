//! Which bits were hit: the exclusive-or of the last damaged telegram that a head heard.

mod common;
use common::{code_of, Desk, READ, WRITE};
use reference::head::Head;
use reference::line::{Line, Refusal};
use reference::telegram::BROADCAST;

/// Sound, 1F ^ 20 = 3F; with another last byte the exclusive-or is that byte ^ 3F.
const READ_OF_31: &str = "001F200000000000003F";

#[test]
fn a_new_head_has_heard_none() {
    let mut desk = Desk::with_heads(&[31]);
    assert_eq!(desk.line("xor 0"), "xor 00");
    assert_eq!(desk.send(READ_OF_31), "001F200000000000053A");
    assert_eq!(desk.line("xor 0"), "xor 00");
}

#[test]
fn every_bit_is_shown_in_its_place() {
    let mut desk = Desk::with_heads(&[31]);
    for (bytes, answer) in [
        // In the check sum: 3E ^ 3F.
        ("001F200000000000003E", "xor 01"),
        // The first data byte 80 where it was 00.
        ("001F200000800000003F", "xor 80"),
        // The low byte of the control word 0A, the last data byte A0: together AA.
        ("001F20000A000000A03F", "xor AA"),
        // Both bytes of the control word 0F and 3C: 0F ^ 3C = 33, bits that both were hit in do not show.
        ("001F200F3C000000003F", "xor 33"),
    ] {
        assert_eq!(code_of(&desk.send(bytes)), 0x0080);
        assert_eq!(desk.line("xor 0"), answer);
    }
}

#[test]
fn the_same_bits_of_two_bytes_are_not_seen() {
    let mut desk = Desk::with_heads(&[31]);
    // Two data bytes that a read ignores, 40 ^ 40 = 0: sound, so it is answered like any other.
    assert_eq!(desk.send("001F200000400040003F"), "001F200000000000053A");
    assert_eq!(desk.line("xor 0"), "xor 00");
}

#[test]
fn the_manuals_43h_telegram() {
    let mut desk = Desk::with_heads(&[1]);
    desk.send("0101FF0200000004D243");
    // The formula gives 2B: 43 ^ 2B.
    assert_eq!(desk.line("xor 0"), "xor 68");
}

#[test]
fn one_for_another_node_is_kept() {
    let mut desk = Desk::with_heads(&[31, 12]);
    // Node 7: 07 ^ 20 = 27, and 25 ^ 27 = 02.
    assert_eq!(desk.send("00072000000000000025"), "");
    assert_eq!(desk.line("xor 0"), "xor 02");
    assert_eq!(desk.line("xor 1"), "xor 02");
}

#[test]
fn a_broadcast_is_kept() {
    let mut desk = Desk::with_heads(&[31]);
    // 02 ^ AA ^ 01 = A9, and F9 ^ A9 = 50.
    assert_eq!(desk.send("0200AA000000000001F9"), "");
    assert_eq!(desk.line("xor 0"), "xor 50");
    // At the head's own number, 02 ^ 1F ^ AA ^ 01 = B6, and B2 ^ B6 = 04.
    assert_eq!(desk.send("021FAA000000000001B2"), "");
    assert_eq!(desk.line("xor 0"), "xor 04");
}

#[test]
fn an_unknown_command_or_parameter_is_kept() {
    let mut desk = Desk::with_heads(&[31]);
    // FF ^ 1F ^ 20 = C0, and C8 ^ C0 = 08.
    assert_eq!(code_of(&desk.send("FF1F20000000000000C8")), 0x0080);
    assert_eq!(desk.line("xor 0"), "xor 08");
    // 1F ^ 63 = 7C, and 6C ^ 7C = 10.
    assert_eq!(code_of(&desk.send("001F630000000000006C")), 0x0080);
    assert_eq!(desk.line("xor 0"), "xor 10");
}

#[test]
fn sound_telegrams_leave_it() {
    let mut desk = Desk::with_heads(&[31]);
    // 2F ^ 3F.
    desk.send("001F200000000000002F");
    desk.write(0x20, 7);
    assert_eq!(desk.refusal(WRITE, 0x04, 90), 0x0282);
    assert_eq!(desk.telegram(READ, 12, 0x20, 0, 0), "");
    assert_eq!(desk.telegram(BROADCAST, 0, 0xAA, 0, 1), "");
    assert_eq!(desk.line("xor 0"), "xor 10");
}

#[test]
fn a_second_damaged_one_replaces_it() {
    let mut desk = Desk::with_heads(&[31]);
    // 3C ^ 3F = 03, then 39 ^ 3F = 06; neither both together nor the first.
    desk.send("001F200000000000003C");
    assert_eq!(desk.line("xor 0"), "xor 03");
    desk.send("001F2000000000000039");
    assert_eq!(desk.line("xor 0"), "xor 06");
    // Four in one send, at the third of which the count returns to 0: the last is kept, BF ^ 3F.
    desk.send("001F200000000000003E001F200000000000003D001F200000000000003B001F20000000000000BF");
    assert_eq!(desk.line("xor 0"), "xor 80");
}

#[test]
fn only_ten_bytes_together_are_checked() {
    let mut desk = Desk::with_heads(&[31]);
    desk.send("001F20000000000000");
    assert_eq!(desk.line("xor 0"), "xor 00");
    // After 11 ms the nine bytes are gone, and one byte alone is no telegram.
    desk.time = 11;
    desk.send("37");
    assert_eq!(desk.line("xor 0"), "xor 00");
    // 37 and nine bytes of a telegram: 37 ^ 1F ^ 20 = 08.
    desk.send("001F20000000000000");
    assert_eq!(desk.line("xor 0"), "xor 08");
}

#[test]
fn power_clears_it_in_one_head() {
    let mut desk = Desk::with_heads(&[31, 12]);
    // FF ^ 3F.
    desk.send("001F20000000000000FF");
    desk.ok("power 0");
    assert_eq!(desk.line("xor 0"), "xor 00");
    assert_eq!(desk.line("xor 1"), "xor C0");
    desk.send("001F20000000000000FF");
    assert_eq!(desk.line("xor 0"), "xor C0");
}

#[test]
fn a0h_9_clears_it_and_the_other_system_commands_do_not() {
    let mut desk = Desk::with_heads(&[31]);
    // 7F ^ 3F.
    desk.send("001F200000000000007F");
    for command in [1, 2, 5, 7, 8] {
        desk.write(0xA0, command);
        assert_eq!(desk.line("xor 0"), "xor 40", "A0h {command}");
    }
    desk.write(0xA0, 9);
    assert_eq!(desk.line("xor 0"), "xor 00");
}

#[test]
fn a_broadcast_a0h_9_clears_it() {
    let mut desk = Desk::with_heads(&[31, 12]);
    desk.send("001F200000000000007F");
    assert_eq!(desk.telegram(BROADCAST, 0, 0xA0, 0, 9), "");
    assert_eq!(desk.line("xor 0"), "xor 00");
    assert_eq!(desk.line("xor 1"), "xor 00");
}

#[test]
fn a_damaged_a0h_9_does_not_restart() {
    let mut desk = Desk::with_heads(&[31]);
    desk.write(0x00, 12);
    // B7 makes it sound: 36 ^ B7.
    assert_eq!(code_of(&desk.send("011FA000000000000936")), 0x0080);
    assert_eq!(desk.line("xor 0"), "xor 81");
    // A restart would have taken 12 into force.
    assert_eq!(desk.read(0x00), 12);
}

#[test]
fn acknowledging_the_error_leaves_it() {
    let mut desk = Desk::with_heads(&[31]);
    for _ in 0..3 {
        desk.send("001F200000000000001F");
    }
    assert_eq!(desk.read(0xFD), 0x80);
    desk.write_with(0xFB, 1 << 5, 0);
    assert_eq!(desk.read(0xFD), 0);
    // 1F ^ 3F.
    assert_eq!(desk.line("xor 0"), "xor 20");
}

#[test]
fn asking_changes_nothing() {
    let mut desk = Desk::with_heads(&[31]);
    desk.send("001F200000000000003B");
    desk.send("001F200000");
    for _ in 0..2 {
        // 3B ^ 3F.
        assert_eq!(desk.line("xor 0"), "xor 04");
    }
    assert_eq!(desk.send("000000003F"), "001F200000000000053A");
}

#[test]
fn no_reply_space_is_needed_and_bytes_refused_are_not_heard() {
    let mut desk = Desk::with_heads(&[31]);
    desk.ok("space 9");
    assert_eq!(desk.line("send 0 001F200000000000003B"), "refused 6");
    assert_eq!(desk.line("xor 0"), "xor 00");
}

#[test]
fn refusal_3_for_a_head_that_is_not_there() {
    let mut desk = Desk::with_heads(&[]);
    assert_eq!(desk.line("xor 0"), "refused 3");
    desk.ok("head 31 4711");
    assert_eq!(desk.line("xor 0"), "xor 00");
    for head in ["1", "8", "31", "32", "255", "256", "4294967295"] {
        assert_eq!(desk.line(&format!("xor {head}")), "refused 3", "{head}");
    }
}

#[test]
fn what_is_no_head_number_is_an_error() {
    let mut desk = Desk::with_heads(&[31]);
    let lines =
        ["xor", "xor 0 0", "xor 0 1", "xor -1", "xor -0", "xor +0", "xor x", "xor 0x0", "xor 4294967296"];
    for (number, line) in lines.into_iter().enumerate() {
        // The head took the first line.
        assert_eq!(desk.line(line), format!("error at line {}", number + 2), "{line}");
    }
    assert_eq!(desk.line("\txor  000 "), "xor 00");
}

#[test]
fn the_calls_of_head_and_line() {
    let damaged = [0x00, 0x1F, 0x20, 0, 0, 0, 0, 0, 0, 0x3E];
    let mut head = Head::factory(4_711);
    let mut line = Line::new();
    line.grow(12, 4_711).unwrap();
    assert_eq!((head.bits_hit(), line.bits_hit(0)), (0, Ok(0)));
    for byte in damaged {
        head.byte(0, byte);
        assert_eq!(line.byte(0, byte, &mut [0; 10]), Ok(0));
    }
    // 3E ^ 3F.
    assert_eq!((head.bits_hit(), line.bits_hit(0)), (1, Ok(1)));
    assert_eq!(line.bits_hit(1), Err(Refusal::HeadNumber));
    head.restart();
    assert_eq!(head.bits_hit(), 0);
}
