//! Each refusal number that calls on a line can draw, what goes before what, and that nothing changes.

mod common;
use common::{Desk, READ};
use reference::line::{Line, Refusal};

#[test]
fn refusal_1_node_number() {
    let mut desk = Desk::with_heads(&[]);
    for node in ["0", "128", "300", "4294967295"] {
        assert_eq!(desk.line(&format!("head {node} 4711")), "refused 1");
    }
    assert_eq!(desk.line("power 0"), "refused 3");
    desk.ok("head 1 4711");
    desk.ok("head 127 4712");
}

#[test]
fn refusal_2_thirty_third_head_goes_before_1_and_17() {
    let nodes: Vec<u32> = (1..=32).collect();
    let mut desk = Desk::with_heads(&nodes);
    // A serial of its own, that of the last head, and that with a node number that is none.
    for line in ["head 33 4711", "head 33 32", "head 0 32", "head 0 4711"] {
        assert_eq!(desk.line(line), "refused 2", "{line}");
    }
    assert_eq!(desk.line("power 32"), "refused 3");
    desk.ok("power 31");
}

#[test]
fn refusal_17_serial_goes_after_1() {
    let mut desk = Desk::with_heads(&[31, 12]);
    assert_eq!(desk.line("head 5 2"), "refused 17");
    assert_eq!(desk.line("head 0 2"), "refused 1");
    assert_eq!(desk.line("head 128 1"), "refused 1");
    assert_eq!(desk.line("power 2"), "refused 3");
    desk.ok("head 5 3");
}

#[test]
fn refusal_3_head_number_goes_before_4_and_5() {
    let mut desk = Desk::with_heads(&[31]);
    for line in
        ["measure 1 0", "measure 1 3000000", "keys 1 0", "keys 4294967295 9", "power 1", "xor 1", "bring 1"]
    {
        assert_eq!(desk.line(line), "refused 3", "{line}");
    }
}

#[test]
fn refusal_4_measurement() {
    let mut desk = Desk::with_heads(&[31]);
    desk.ok("measure 0 2500000");
    for value in ["2500001", "-2500001", "3000000", "2147483647", "-2147483648"] {
        assert_eq!(desk.line(&format!("measure 0 {value}")), "refused 4");
    }
    assert_eq!(desk.read(0xFE), 2_500_000);
    desk.ok("measure 0 -2500000");
    assert_eq!(desk.read(0xFE), -2_500_000);
}

#[test]
fn refusal_5_key_state() {
    let mut desk = Desk::with_heads(&[31]);
    desk.ok("keys 0 7");
    assert_eq!(desk.line("keys 0 8"), "refused 5");
    assert_eq!(desk.line("keys 0 4294967295"), "refused 5");
    assert_eq!(desk.status() >> 13, 7);
}

#[test]
fn refusal_6_reply_space_at_any_byte() {
    let mut desk = Desk::with_heads(&[]);
    desk.ok("space 9");
    assert_eq!(desk.line("send 0 00"), "refused 6");
    desk.ok("head 31 4711");
    desk.ok("space 0");
    assert_eq!(desk.line("send 0 001F2000"), "refused 6");
    desk.ok("space 10");
    // Had a head heard the refused bytes, this would not be its telegram.
    assert_eq!(desk.telegram(READ, 31, 0x20, 0, 0), "001F200000000000053A");
}

#[test]
fn refusal_10_command_or_node_goes_before_6() {
    let mut desk = Desk::with_heads(&[31]);
    for size in [10, 9] {
        desk.ok(&format!("space {size}"));
        for fields in ["3 31 32 0 0", "0 128 32 0 0", "255 255 255 65535 4294967295"] {
            assert_eq!(desk.line(&format!("ask 0 {fields}")), "refused 10", "{fields}");
        }
    }
    assert_eq!(desk.line("ask 0 0 31 32 0 0"), "refused 6");
    desk.ok("space 10");
    assert_eq!(desk.line("ask 0 0 31 32 0 0"), "asked value 5");
}

#[test]
fn the_space_past_a_reply_and_under_a_collision_is_unchanged() {
    let mut line = Line::new();
    line.grow(31, 1).unwrap();
    line.grow(12, 2).unwrap();
    let read_of_31 = [0x00, 0x1F, 0x20, 0, 0, 0, 0, 0, 0, 0x3F];
    let mut space = [0xEE; 12];
    for &byte in &read_of_31[..9] {
        assert_eq!(line.byte(0, byte, &mut space), Ok(0));
        assert_eq!(space, [0xEE; 12]);
    }
    assert_eq!(line.byte(0, 0x3F, &mut space), Ok(1));
    assert_eq!(space, [0x00, 0x1F, 0x20, 0, 0, 0, 0, 0, 5, 0x3A, 0xEE, 0xEE]);

    line.grow(31, 3).unwrap();
    let mut space = [0xEE; 12];
    for &byte in &read_of_31[..9] {
        assert_eq!(line.byte(0, byte, &mut space), Ok(0));
    }
    assert_eq!(line.byte(0, 0x3F, &mut space), Ok(2));
    assert_eq!(space, [0xEE; 12]);

    let mut short = [0xEE; 9];
    assert_eq!(line.byte(0, 0x3F, &mut short), Err(Refusal::ReplySpace));
    assert_eq!(short, [0xEE; 9]);
}
