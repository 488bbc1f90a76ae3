//! Request (xii), incremental measurement is retired: what up does now, status bit 9, the row of 35h, sheets from
//! before and the word `bring`. Telegrams are worked out by hand: 1F ^ 35 = 2A, 01 ^ 1F ^ 35 = 2B, and an error reply
//! of a write at 31 begins with 01 ^ 1F ^ FD = E3. Older heads themselves are in the tests of head.rs and line.rs, as
//! no call makes one.

mod common;
use common::{code_of, Desk, READ, WRITE};
use reference::line::{Line, Refusal};
use reference::telegram::BROADCAST;

const READ_35H: &str = "001F350000000000002A";
/// 1F ^ 35 ^ 00: the telegram and its reply are the same.
const IT_IS_0: &str = READ_35H;
/// E3 ^ 02 ^ 82 and E3 ^ 03 ^ 85.
const ABOVE_HIGH: &str = "011FFD00000000028263";
const LOCKED: &str = "011FFD00000000038565";

const UP: u16 = 1 << 15;
const CHARACTERS: u16 = 1 << 7;

/// The sheet of one row, 35h.
fn sheet(value: u32) -> String {
    format!("01350004{value:08X}")
}

fn saved(desk: &mut Desk, head: u32) -> String {
    desk.ok("space 274");
    let answer = desk.line(&format!("save {head}"));
    answer.strip_prefix("saved ").expect("the sheet is written").to_string()
}

/// What the sheet of a head has at 35h: it is the thirtieth row, its body at 118 + 29 * 4 = 234, EAh.
fn saved_35h(desk: &mut Desk, head: u32) -> String {
    let sheet = saved(desk, head);
    assert_eq!(&sheet[2 + 29 * 6..][..6], "3500EA");
    sheet[2 * 234..][..8].to_string()
}

// "Up no longer switches it and status bit 9 stays 0 outside mode 3."

/// 1000 with offset 7, however often up is pressed or let go; the status word has the key and nothing else.
#[test]
fn up_without_an_offer_does_nothing() {
    let mut desk = Desk::with_heads(&[31]);
    desk.write(0x1E, 7);
    desk.ok("measure 0 1000");
    for state in [4, 4, 0, 4, 6, 4, 2, 6, 0, 4] {
        desk.ok(&format!("keys 0 {state}"));
        assert_eq!((desk.status(), desk.read(0xFE)), (state << 13, 1_007), "{state}");
    }
    desk.ok("measure 0 1003");
    assert_eq!(desk.read(0xFE), 1_010);
}

/// Nor in the other modes of 28h; in mode 3 the position is absolute too.
#[test]
fn up_does_nothing_in_any_mode() {
    for mode in 0..=3 {
        let mut desk = Desk::with_heads(&[31]);
        desk.write(0x28, mode);
        desk.ok("measure 0 40");
        desk.ok("keys 0 4");
        desk.ok("measure 0 43");
        assert_eq!((desk.status(), desk.read(0xFE)), (UP, 43), "{mode}");
    }
}

/// The windows go by the absolute position: S 43 is not reached at 40 with a window of 0, and is at 43: bits 15, 10
/// and 0, then 15, 10, 5, 4 and 3. FCh is 40 - 43.
#[test]
fn windows_and_the_differential_value_go_by_the_absolute_position() {
    let mut desk = Desk::with_heads(&[31]);
    desk.write(0x20, 0);
    desk.write_with(0xFF, 1 << 9, 43);
    desk.ok("measure 0 40");
    desk.ok("keys 0 4");
    assert_eq!((desk.status(), desk.read(0xFC)), (UP | 0x0401, -3));
    desk.ok("measure 0 43");
    assert_eq!(desk.status(), UP | 0x0438);
}

/// Left does what it did: it calibrates, and up beside it does nothing.
#[test]
fn left_and_up_at_once_calibrate() {
    let mut desk = Desk::with_heads(&[31]);
    desk.ok("measure 0 40");
    desk.ok("keys 0 5");
    desk.ok("measure 0 45");
    assert_eq!((desk.status(), desk.read(0xFE)), (0xA000, 5));
}

/// With an error left acknowledges it and does not calibrate.
#[test]
fn left_and_up_at_once_acknowledge() {
    let mut desk = Desk::with_heads(&[31]);
    desk.ok("measure 0 40");
    for _ in 0..3 {
        desk.damaged(READ, 99);
    }
    desk.ok("keys 0 5");
    assert_eq!((desk.status(), desk.read(0xFE), desk.read(0xFD)), (0xA000, 40, 0));
}

/// What AAh keeps is the absolute position, and up between the two changes nothing.
#[test]
fn up_leaves_a_kept_value() {
    let mut desk = Desk::with_heads(&[31]);
    desk.ok("measure 0 40");
    desk.ok("keys 0 4");
    desk.write(0xAA, 1);
    desk.ok("keys 0 0");
    desk.ok("measure 0 50");
    desk.ok("keys 0 4");
    assert_eq!((desk.status(), desk.read(0xFE), desk.read(0xFE)), (UP | 1 << 8, 40, 50));
}

/// Bit 9 of the status word in every way in which a word is shown: FAh, the reply of a write, of an error, of FFh and
/// of A0h 9. S 1000 lies below A 1020: bits 15, 10, 6 and 1.
#[test]
fn bit_9_is_0_in_every_reply() {
    let mut desk = Desk::with_heads(&[31]);
    desk.ok("measure 0 1020");
    desk.ok("keys 0 4");
    desk.write_with(0xFF, 1 << 9 | CHARACTERS, 1_000);
    // FAh in both places: 1F ^ FA. 20h 5: 01 ^ 1F ^ 20 ^ 84 ^ 42 ^ 05 = FD.
    assert_eq!(desk.send("001FFA000000000000E5"), "001FFA844200008442E5");
    assert_eq!(desk.send("011F200000000000053B"), "011F20844200000005FD");
    // 35h 1: 02 82, E3 ^ 84 ^ 42 ^ 02 ^ 82 = A5.
    assert_eq!(desk.send("011F350000000000012A"), "011FFD844200000282A5");
    // 01 ^ 1F ^ A0 ^ 09 = B7, and B7 ^ 84 ^ 42 = 71.
    assert_eq!(desk.send("011FA0000000000009B7"), "011FA084420000000971");
    assert_eq!(desk.status(), 0);
}

/// In mode 3 it is bit 7 of the last taken control word, as before, whatever up does.
#[test]
fn bit_9_in_mode_3_is_the_taken_word() {
    let mut desk = Desk::with_heads(&[31]);
    desk.write_with(0xFB, CHARACTERS, 7);
    desk.ok("keys 0 4");
    assert_eq!(desk.status(), UP);
    desk.write(0x28, 3);
    assert_eq!(desk.status(), UP | 1 << 9);
    desk.ok("keys 0 0");
    desk.ok("keys 0 4");
    assert_eq!(desk.status(), UP | 1 << 9);
    desk.write_with(0xFB, 0, 7);
    assert_eq!(desk.status(), UP);
    desk.write_with(0xFB, CHARACTERS, 7);
    desk.write(0x28, 1);
    assert_eq!(desk.status(), UP);
}

// Request (ii): with an offer up adopts.

/// 01 ^ 1F ^ D2 ^ 05 = C9. Then 5 ^ 35 = 30, and FEh: 05 ^ FE ^ 28 = D3, as 40 is still 40.
#[test]
fn up_with_an_offer_adopts() {
    for is_written in [false, true] {
        let mut desk = Desk::with_heads(&[31]);
        desk.ok("measure 0 40");
        if is_written {
            desk.write(0x35, 0);
        }
        // A stroke before the offer does nothing.
        desk.ok("keys 0 4");
        desk.ok("keys 0 0");
        assert_eq!(desk.send("011FD2000000000005C9"), "");
        assert_eq!(desk.line("keys 0 4"), "ok 011FD2000000000005C9");
        assert_eq!(desk.send("00053500000000000030"), "00053500000000000030");
        assert_eq!(desk.send("0005FE000000000000FB"), "0005FE000000000028D3");
        // Up again, which is newly pressed and has nothing to adopt: D3 ^ 80.
        desk.ok("keys 0 4");
        assert_eq!(desk.send("0005FE000000000000FB"), "0005FE80000000002853");
    }
}

// "35h remains an address and always reads 0; writing 0 is accepted, writing 1 or more is 02 82."

#[test]
fn the_bytes_of_35h() {
    let mut desk = Desk::with_heads(&[31]);
    assert_eq!(desk.send(READ_35H), IT_IS_0);
    assert_eq!(desk.send("011F350000000000002B"), "011F350000000000002B");
    // 1, 2, 256, 16777216 and 4294967295, which is no -1.
    for write in [
        "011F350000000000012A",
        "011F3500000000000229",
        "011F350000000001002A",
        "011F350000010000002A",
        "011F350000FFFFFFFF2B",
    ] {
        assert_eq!(desk.send(write), ABOVE_HIGH, "{write}");
        assert_eq!(desk.send(READ_35H), IT_IS_0);
    }
    // Five of them in the input list, the last 02 82.
    assert_eq!(desk.read(0x96), 5);
    assert_eq!(desk.ask("0 31 150 0 83886080"), "value 83886722");
}

/// One head that is made at 31 and one that is not; 35h is no bus parameter, so that A0h 5 leaves it, and it is 0 anyway.
#[test]
fn zero_is_the_delivery_and_the_reset_value() {
    let mut desk = Desk::with_heads(&[31, 12]);
    assert_eq!((desk.ask("0 31 53 0 0"), desk.ask("0 12 53 0 0")), ("value 0".into(), "value 0".into()));
    for command in [1, 2, 5, 7, 8] {
        desk.write(0xA0, command);
        assert_eq!(desk.read(0x35), 0, "A0h {command}");
        assert_eq!(saved_35h(&mut desk, 0), "00000000", "A0h {command}");
    }
    desk.write(0xA0, 9);
    assert_eq!(desk.read(0x35), 0);
    desk.ok("power 0");
    assert_eq!(desk.read(0x35), 0);
    // To all.
    for command in [1, 2] {
        assert_eq!(desk.telegram(BROADCAST, 0, 0xA0, 0, command), "");
        assert_eq!(desk.ask("0 12 53 0 0"), "value 0", "A0h {command}");
    }
}

/// After a reset up does no more than before.
#[test]
fn up_does_nothing_after_a_reset() {
    for command in [1, 2, 5, 9] {
        let mut desk = Desk::with_heads(&[31]);
        desk.ok("measure 0 40");
        desk.write(0xA0, command);
        desk.ok("keys 0 4");
        assert_eq!((desk.status(), desk.read(0xFE)), (UP, 40), "A0h {command}");
    }
}

/// 35h is one of the 39: locked, its writes are 03 85 before any range, also that of 0.
#[test]
fn a_locked_35h_is_03_85_first() {
    let mut desk = Desk::with_heads(&[31]);
    desk.write(0x0E, 1);
    for write in ["011F350000000000002B", "011F350000000000012A", "011F350000FFFFFFFF2B"] {
        assert_eq!(desk.send(write), LOCKED, "{write}");
    }
    assert_eq!(desk.send(READ_35H), IT_IS_0);
    desk.write(0xA8, 1);
    assert_eq!(desk.send("011F350000000000012A"), ABOVE_HIGH);
    assert_eq!(desk.send("011F350000000000002B"), "011F350000000000002B");
}

/// It allows no broadcast: silence whatever the value, and nothing in the input list. 02 ^ 1F ^ 35 = 28.
#[test]
fn a_broadcast_of_35h_is_silent() {
    let mut desk = Desk::with_heads(&[31, 12]);
    for broadcast in
        ["021F3500000000000028", "021F3500000000000129", "02003500000000000136", "021F350000FFFFFFFF28"]
    {
        assert_eq!(desk.send(broadcast), "", "{broadcast}");
    }
    assert_eq!((desk.read(0x35), desk.read(0x96)), (0, 0));
    assert_eq!(desk.ask("0 12 53 0 0"), "value 0");
    desk.ok("measure 0 40");
    desk.ok("keys 0 4");
    assert_eq!((desk.status(), desk.read(0xFE)), (UP, 40));
}

/// The checks before it are as for all others: damaged, another node, a command that there is none of.
#[test]
fn the_checks_before_the_range_go_first() {
    let mut desk = Desk::with_heads(&[31]);
    assert_eq!(code_of(&desk.send("011F350000000000012B")), 0x0080);
    assert_eq!(desk.telegram(WRITE, 30, 0x35, 0, 1), "");
    assert_eq!(desk.refusal(3, 0x35, 1), 0x0084);
}

// "A sheet with 35h at 1 loads as a write of 0; newly written sheets carry 0."

#[test]
fn a_sheet_with_35h_at_0_or_1_loads_and_2_is_13() {
    let mut desk = Desk::with_heads(&[31]);
    desk.ok("measure 0 40");
    for value in [0, 1] {
        desk.ok(&format!("load 0 {}", sheet(value)));
        assert_eq!(desk.read(0x35), 0, "{value}");
        assert_eq!(saved_35h(&mut desk, 0), "00000000", "{value}");
        desk.ok("keys 0 0");
        desk.ok("keys 0 4");
        assert_eq!((desk.status(), desk.read(0xFE)), (UP, 40), "{value}");
    }
    for value in [2, 3, 256, 257, 0x0100_0000, 0x8000_0001, u32::MAX] {
        assert_eq!(desk.line(&format!("load 0 {}", sheet(value))), "refused 13", "{value}");
        assert_eq!(desk.read(0x35), 0, "{value}");
    }
}

/// The other rows of such a sheet count: 20h 9, 35h 1 and 40h 0. With 35h at 2 none of them does, nor is 13 before 12.
#[test]
fn a_sheet_from_before_loads_whole_or_not_at_all() {
    let mut desk = Desk::with_heads(&[31]);
    desk.ok("load 0 0320000A35000E400012000000090000000100000000");
    assert_eq!((desk.read(0x20), desk.read(0x35), desk.read(0x40)), (9, 0, 0));
    assert_eq!(desk.line("load 0 0320000A35000E400012000000080000000200000001"), "refused 13");
    assert_eq!((desk.read(0x20), desk.read(0x35), desk.read(0x40)), (9, 0, 0));
    // 36h is not stored.
    assert_eq!(desk.line("load 0 0235000736000B0000000200000000"), "refused 12");
    assert_eq!(desk.line("load 0 0235000736000B0000000100000000"), "refused 12");
    // And with 35h at 1 a bad value elsewhere is still 13.
    assert_eq!(desk.line("load 0 0220000735000B0000271000000001"), "refused 13");
}

/// The interlock has no say, and 35h at 1 is no step of the mode: the set points stay valid.
#[test]
fn a_sheet_from_before_loads_into_a_locked_head_in_mode_3() {
    let mut desk = Desk::with_heads(&[31]);
    desk.write(0x28, 3);
    desk.write(0x0E, 1);
    desk.write_with(0xFB, 1 << 2 | CHARACTERS, 7);
    desk.ok(&format!("load 0 {}", sheet(1)));
    assert_eq!((desk.status(), desk.read(0x35)), (0x0204, 0));
}

/// A sheet written by a head from before: that of a new head then, with 35h at 1. What is written from the head that has
/// loaded it differs in that row alone.
#[test]
fn the_sheet_of_a_head_from_before_is_brought_up_to_date() {
    let mut desk = Desk::with_heads(&[31]);
    let new = saved(&mut desk, 0);
    let mut old = new.clone();
    old.replace_range(2 * 234..2 * 234 + 8, "00000001");
    assert_ne!(old, new);
    desk.ok(&format!("load 0 {old}"));
    assert_eq!(saved(&mut desk, 0), new);
    desk.ok(&format!("load 0 {new}"));
    assert_eq!(saved(&mut desk, 0), new);
}

// "Brought over by a call that names it", and the word `bring`.

type Preparation = fn(&mut Desk);

/// Heads with something of everything that they can have; none is an older one.
const HEADS: [(&str, Preparation); 11] = [
    ("new", |_| {}),
    ("moved", |desk| desk.ok("measure 0 40")),
    ("calibrated", |desk| {
        desk.ok("measure 0 40");
        desk.write(0x1F, 7);
        desk.write(0xA7, 1);
    }),
    ("frozen", |desk| {
        desk.ok("measure 0 40");
        desk.write(0xAA, 1);
        desk.ok("measure 0 50");
    }),
    ("static, with set points", |desk| {
        desk.write_with(0xFB, 1 << 2, 5);
        desk.write_with(0xFF, 1 << 9, 3);
    }),
    ("in the window and no longer static", |desk| {
        desk.write_with(0xFF, 1 << 9, 3);
        desk.read(0xFA);
    }),
    ("with keys down", |desk| desk.ok("keys 0 6")),
    ("with errors", |desk| {
        for _ in 0..3 {
            desk.damaged(READ, 31);
        }
    }),
    ("in mode 3", |desk| {
        desk.write(0x28, 3);
        desk.write_with(0xFB, 1 << 2 | CHARACTERS | 1 << 10, 5);
    }),
    ("locked, with another number stored", |desk| {
        desk.write(0x00, 12);
        desk.write(0x0E, 1);
    }),
    ("from a sheet of before", |desk| desk.ok(&format!("load 0 {}", sheet(1)))),
];

/// Everything that reads and a sheet tell of head 0: the status word, the functional values, both lists, the settings.
fn everything(desk: &mut Desk) -> Vec<String> {
    let parameters = [0x65, 0xFA, 0xFB, 0xFC, 0xFD, 0xFE, 0xFE, 0xFF, 0x80, 0x81, 0x96, 0x35];
    let mut told: Vec<String> =
        parameters.iter().map(|&parameter| desk.telegram(READ, 31, parameter, 0, 0)).collect();
    told.push(desk.line("xor 0"));
    told.push(saved(desk, 0));
    told
}

#[test]
fn bring_changes_nothing_at_a_head_that_is_not_older() {
    for (name, prepare) in HEADS {
        let mut plain = Desk::with_heads(&[31]);
        let mut brought = Desk::with_heads(&[31]);
        prepare(&mut plain);
        prepare(&mut brought);
        brought.ok("bring 0");
        brought.ok("bring 0");
        assert_eq!(everything(&mut brought), everything(&mut plain), "{name}");
    }
}

/// It is no telegram: the gap, the monitor, the damaged ones in a row, an offer and a telegram that was begun are as
/// they were.
#[test]
fn bring_is_no_telegram() {
    let mut desk = Desk::with_heads(&[31]);
    desk.write(0x02, 1);
    desk.time = 60;
    desk.ok("bring 0");
    desk.ok("tick 99");
    assert_eq!(desk.line("tick 100"), "ok");
    desk.ok("bring 0");
    assert_eq!(desk.read(0xFD), 0x81);

    let mut desk = Desk::with_heads(&[31]);
    for _ in 0..3 {
        desk.damaged(READ, 99);
        desk.ok("bring 0");
    }
    assert_eq!(desk.read(0xFD), 0x80);

    let mut desk = Desk::with_heads(&[31]);
    assert_eq!(desk.send("001F35"), "");
    desk.ok("bring 0");
    assert_eq!(desk.send("0000000000002A"), IT_IS_0);
    assert_eq!(desk.send("011FD2000000000005C9"), "");
    desk.ok("bring 0");
    assert_eq!(desk.line("keys 0 4"), "ok 011FD2000000000005C9");
}

/// Up that is held is not newly pressed after it, so that it does not adopt.
#[test]
fn bring_leaves_the_keys() {
    let mut desk = Desk::with_heads(&[31]);
    desk.ok("keys 0 4");
    assert_eq!(desk.send("011FD2000000000005C9"), "");
    desk.ok("bring 0");
    assert_eq!(desk.status(), UP);
    desk.ok("keys 0 4");
    assert_eq!(desk.read(0x00), 31);
}

/// "Refusals: 3 for that call", and no other: it lends no space.
#[test]
fn bring_is_refused_3_past_the_count() {
    let mut desk = Desk::with_heads(&[]);
    for head in ["0", "1", "4294967295"] {
        assert_eq!(desk.line(&format!("bring {head}")), "refused 3", "{head}");
    }
    let mut desk = Desk::with_heads(&[31, 12, 31]);
    for size in [0, 10] {
        desk.ok(&format!("space {size}"));
        for head in ["0", "1", "2", "000002"] {
            desk.ok(&format!("bring {head}"));
        }
        for head in ["3", "8", "32", "256", "65536", "4294967295"] {
            assert_eq!(desk.line(&format!("bring {head}")), "refused 3", "{head}");
        }
    }
    let mut line = Line::new();
    assert_eq!(line.bring(0), Err(Refusal::HeadNumber));
    line.grow(31, 1).unwrap();
    assert_eq!((line.bring(0), line.bring(1)), (Ok(()), Err(Refusal::HeadNumber)));
}

#[test]
fn what_is_none_of_the_word_is_an_error() {
    let mut desk = Desk::with_heads(&[31]);
    let lines = [
        "bring",
        "bring 0 0",
        "bring 0 #",
        "bring -0",
        "bring +0",
        "bring -1",
        "bring x",
        "bring 0x0",
        "bring 4294967296",
        "bring 18446744073709551616",
        "BRING 0",
        "brings 0",
        "bring0",
    ];
    for (line, number) in lines.into_iter().zip(2..) {
        assert_eq!(desk.line(line), format!("error at line {number}"), "{line}");
    }
    assert_eq!(desk.line("\tbring  000 "), "ok");
}

/// Two heads on one line: each call is for the head that it names, and the other is no older one either.
#[test]
fn bring_concerns_one_head() {
    let mut desk = Desk::with_heads(&[31, 12]);
    desk.ok("measure 1 40");
    desk.ok("keys 1 4");
    let before = saved(&mut desk, 1);
    desk.ok("bring 0");
    desk.ok("bring 1");
    assert_eq!(saved(&mut desk, 1), before);
    // 0C ^ FE ^ 80 ^ 28 = 5A.
    assert_eq!(desk.send("000CFE000000000000F2"), "000CFE8000000000285A");
}
