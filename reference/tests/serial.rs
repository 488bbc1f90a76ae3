//! Request (xi), serials belong to heads: what a head is made with and keeps, a line of up to 32 of them, the refusals
//! 2, 1 and 17, and the word `head NODE SERIAL`.

mod common;
use common::{Desk, READ, WRITE};
use reference::head::Head;
use reference::line::{Line, Refusal, MOST_HEADS};
use reference::script::{hex, meaning, Command, Meaning};
use reference::telegram::{Telegram, BROADCAST};

/// The lowest, the highest, and those in which a sign or the upper bytes might get lost.
const SERIALS: [u32; 9] = [0, 1, 255, 256, 65_536, 0x0100_0000, 0x7FFF_FFFF, 0x8000_0000, 0xFFFF_FFFF];

/// The sheet of one row that stores 5 as the node number: its body stands at place 4.
const NUMBER_5: &str = "0100000400000005";

/// Heads at 1, 2 and so on, with serials from 1001 on.
fn line_of(count: u32) -> Line {
    let mut line = Line::new();
    for number in 1..=count {
        line.grow(number, 1_000 + number).unwrap();
    }
    line
}

fn serials(line: &Line) -> Vec<u32> {
    line.heads().iter().map(Head::serial).collect()
}

fn feed(line: &mut Line, telegram: Telegram) -> usize {
    let replies = telegram.bytes().map(|byte| line.byte(0, byte, &mut [0; 10]).unwrap());
    replies.iter().sum()
}

/// A desk with the heads 0, 1 and 2 at 31, 12 and 5 and the serials 1, 2 and 3.
fn desk_of_three() -> Desk {
    Desk::with_heads(&[31, 12, 5])
}

/// What the heads were made with is refused, and what nobody was made with is not.
fn assert_kept(desk: &mut Desk, when: &str) {
    for serial in 1..=3 {
        assert_eq!(desk.line(&format!("head 77 {serial}")), "refused 17", "{serial} {when}");
    }
    assert_eq!(desk.line("xor 3"), "refused 3", "{when}");
    desk.ok("head 77 0");
    desk.ok("head 77 31");
}

// A head has one.

/// "A head is made with a serial number", any of 32 bits.
#[test]
fn a_head_is_made_with_a_serial() {
    for serial in SERIALS {
        let head = Head::new(12, serial);
        assert_eq!((head.serial(), head.number_in_force(), head.value(0x00)), (serial, 12, 12));
        let mut line = Line::new();
        assert_eq!(line.grow(12, serial), Ok(()));
        assert_eq!(line.serial(0), Ok(serial));
    }
}

/// "The factory head of refusal 1 too."
#[test]
fn the_factory_head_has_one_too() {
    for serial in SERIALS {
        let head = Head::factory(serial);
        assert_eq!((head.serial(), head.number_in_force()), (serial, 31));
    }
}

#[test]
fn the_call_that_reads_it_names_a_head() {
    let line = line_of(3);
    assert_eq!([0, 1, 2].map(|head| line.serial(head)), [Ok(1_001), Ok(1_002), Ok(1_003)]);
    for missing in [3, 31, 32, 256, u32::MAX] {
        assert_eq!(line.serial(missing), Err(Refusal::HeadNumber));
    }
    assert_eq!(Line::new().serial(0), Err(Refusal::HeadNumber));
}

/// No telegram has it: 65h, 67h and all that can be read are the same at heads that differ in it alone.
#[test]
fn nothing_on_the_line_shows_it() {
    let mut one = Head::new(31, 0);
    let mut other = Head::new(31, u32::MAX);
    for parameter in 0..=255 {
        for byte in Telegram::new(READ, 31, parameter, 0, 0).bytes() {
            assert_eq!(one.byte(0, byte), other.byte(0, byte), "{parameter:02X}h");
        }
    }
}

// And keeps it.

/// "Every reset": A0h 1, 2 and 5; and calibration and the emptied memory, which are none.
#[test]
fn resets_keep_it() {
    for command in [1, 2, 5, 7, 8] {
        let mut line = line_of(3);
        assert_eq!(feed(&mut line, Telegram::new(WRITE, 2, 0xA0, 0, command)), 1);
        assert_eq!(serials(&line), [1_001, 1_002, 1_003], "A0h {command}");
        let mut desk = desk_of_three();
        desk.write(0xA0, i64::from(command));
        assert_kept(&mut desk, &format!("after A0h {command}"));
    }
}

#[test]
fn broadcast_resets_and_restarts_keep_it_in_all_heads() {
    let mut line = line_of(32);
    let before = serials(&line);
    for command in [1, 2, 5, 9] {
        assert_eq!(feed(&mut line, Telegram::new(BROADCAST, 0, 0xA0, 0, command)), 0);
        assert_eq!(serials(&line), before, "A0h {command}");
    }
    // They all heard it: 31 is in force.
    assert!(line.heads().iter().all(|head| head.number_in_force() == 31));
}

/// "Restart": by A0h 9, by power, and by a head's own call.
#[test]
fn restarts_keep_it() {
    let mut desk = desk_of_three();
    assert_eq!(desk.send("011FA0000000000009B7"), "011FA0000000000009B7");
    desk.ok("power 1");
    assert_kept(&mut desk, "after restarts");
    let mut line = line_of(2);
    line.power(1).unwrap();
    assert_eq!(serials(&line), [1_001, 1_002]);
    let mut head = Head::factory(u32::MAX);
    head.restart();
    assert_eq!(head.serial(), u32::MAX);
}

/// The adoption of a number is a restart too, and the number that is adopted is no serial.
#[test]
fn auto_id_keeps_it() {
    let mut desk = desk_of_three();
    assert_eq!(desk.ask("1 31 210 0 7"), "");
    // 01 ^ 1F ^ D2 ^ 07.
    assert_eq!(desk.line("keys 0 4"), "ok 011FD2000000000007CB");
    assert_eq!(desk.ask("0 7 0 0 0"), "value 7");
    desk.ok("head 77 7");
    for serial in 1..=3 {
        assert_eq!(desk.line(&format!("head 77 {serial}")), "refused 17");
    }
}

/// "Sheet": one that is loaded, one that is refused, and one of another head, whose serial it does not carry.
#[test]
fn sheets_keep_it() {
    let mut desk = desk_of_three();
    desk.ok(&format!("load 0 {NUMBER_5}"));
    assert_eq!(desk.line("load 1 0100000400000080"), "refused 13");
    desk.ok("power 0");
    assert_kept(&mut desk, "after a sheet");

    let mut line = line_of(2);
    let mut sheets = [[0; 274], [0; 274]];
    line.save(0, &mut sheets[0]).unwrap();
    line.load(1, &sheets[0]).unwrap();
    assert_eq!(serials(&line), [1_001, 1_002]);
    line.save(1, &mut sheets[1]).unwrap();
    assert_eq!(sheets[0], sheets[1], "a sheet has nothing of it");
    assert_eq!(line.grow(5, 1_002), Err(Refusal::SerialOnTheLine));
}

#[test]
fn measurements_keys_and_ticks_keep_it() {
    let mut line = line_of(1);
    line.measure(0, -2_500_000).unwrap();
    line.keys(0, 7, &mut [0; 10]).unwrap();
    line.tick(u32::MAX);
    assert_eq!(serials(&line), [1_001]);
}

// Up to 32 heads.

#[test]
fn a_line_takes_32_heads() {
    assert_eq!(MOST_HEADS, 32);
    let mut line = line_of(32);
    assert_eq!(serials(&line), (1_001..=1_032).collect::<Vec<u32>>());
    assert_eq!(line.grow(33, 1_033), Err(Refusal::ThirtyThirdHead));
    assert_eq!(line.heads().len(), 32);
}

#[test]
fn calls_name_the_last_of_32() {
    let nodes: Vec<u32> = (1..=32).collect();
    let mut desk = Desk::with_heads(&nodes);
    desk.ok("measure 31 -7");
    assert_eq!(desk.ask("0 32 254 0 0"), "value 4294967289");
    desk.ok("keys 31 2");
    // Star is bit 14: 20 ^ 65 = 45, and 45 ^ 40 ^ 0B = 0E.
    assert_eq!(desk.send("00206500000000000045"), "00206540000000000B0E");
    assert_eq!(desk.line("xor 31"), "xor 00");
    desk.ok("power 31");
    desk.ok("space 274");
    let sheet = desk.line("save 31").strip_prefix("saved ").unwrap().to_string();
    // The first body: 32 is 20h.
    assert_eq!(&sheet[2 * 118..2 * 122], "00000020");
    desk.ok(&format!("load 31 {NUMBER_5}"));
    for line in ["measure 32 0", "keys 32 0", "xor 32", "power 32", "save 32", "load 32 00", "bring 32"] {
        assert_eq!(desk.line(line), "refused 3", "{line}");
    }
}

/// "Byte and tick calls reach every head."
#[test]
fn every_one_of_32_hears_and_looks_at_the_clock() {
    let nodes: Vec<u32> = (1..=32).collect();
    let mut desk = Desk::with_heads(&nodes);
    for node in 1..=32 {
        assert_eq!(desk.ask(&format!("0 {node} 0 0 0")), format!("value {node}"));
        assert_eq!(desk.ask(&format!("1 {node} 2 0 1")), "value 1");
    }
    // Freezing is bit 8; FEh is read last, as it releases.
    assert_eq!(desk.telegram(BROADCAST, 0, 0xAA, 0, 1), "");
    for node in 1..=32 {
        assert_eq!(desk.ask(&format!("0 {node} 250 0 0")), "value 256", "{node}");
    }
    desk.ok("tick 100");
    for node in 1..=32 {
        assert_eq!(desk.ask(&format!("0 {node} 253 0 0")), "value 129", "{node}");
    }
    // For nobody, and damaged: 63 ^ 20 ^ 40 = 03.
    assert_eq!(desk.send("00632000000000000040"), "");
    for head in 0..32 {
        assert_eq!(desk.line(&format!("xor {head}")), "xor 03");
    }
}

// Serials differ.

/// "No two heads of a line may share a serial": the first head's, the last one's and any other.
#[test]
fn the_serial_of_any_head_is_refused() {
    for count in [1, 2, 9, 31] {
        let mut line = line_of(count);
        for serial in 1_001..=1_000 + count {
            assert_eq!(line.grow(31, serial), Err(Refusal::SerialOnTheLine), "{serial} of {count}");
        }
        assert_eq!(line.heads().len() as u32, count);
        assert_eq!(line.grow(31, 1_001 + count), Ok(()));
    }
    assert_eq!(Refusal::SerialOnTheLine.number(), 17);
}

/// All 32 bits count: one bit otherwise, and it is another.
#[test]
fn serials_that_are_near_each_other_differ() {
    let mut line = Line::new();
    line.grow(31, 0).unwrap();
    // With 0 these are 32 heads.
    for bit in 0..31 {
        assert_eq!(line.grow(31, 1 << bit), Ok(()), "{bit}");
    }
    let mut line = Line::new();
    line.grow(31, u32::MAX).unwrap();
    for bit in 1..32 {
        assert_eq!(line.grow(31, !(1 << bit)), Ok(()), "{bit}");
    }
    let mut desk = Desk::with_heads(&[]);
    for serial in SERIALS {
        desk.ok(&format!("head 31 {serial}"));
        assert_eq!(desk.line(&format!("head 12 {serial}")), "refused 17");
    }
}

/// Node numbers are no serials, whether given or in force.
#[test]
fn a_serial_may_be_a_node_number() {
    let mut desk = Desk::with_heads(&[]);
    for line in ["head 31 31", "head 12 5", "head 5 12", "head 31 127", "head 127 1", "head 1 2"] {
        desk.ok(line);
    }
    assert_eq!(desk.line("head 12 31"), "refused 17");
}

/// "Two heads may still share a node number": their replies collide, and they still act.
#[test]
fn heads_of_one_number_collide() {
    for count in [2, 8, 9, 32] {
        let mut desk = Desk::with_heads(&vec![31; count]);
        assert_eq!(desk.ask("0 31 32 0 0"), format!("collision {count}"));
        assert_eq!(desk.ask("1 31 0 0 9"), format!("collision {count}"));
        desk.ok(&format!("power {}", count - 1));
        assert_eq!(desk.ask("0 9 0 0 0"), "value 9");
        assert_eq!(desk.line(&format!("xor {count}")), "refused 3");
    }
}

// The order of the refusals.

/// "17 for a serial already on the line, after 2 and 1."
#[test]
fn refusal_2_then_1_then_17() {
    let mut line = line_of(31);
    for node in [0, 128, 255, 256, u32::MAX] {
        for serial in [1_001, 1_031, 7] {
            assert_eq!(line.grow(node, serial), Err(Refusal::NodeNumber), "{node} {serial}");
        }
    }
    assert_eq!(line.grow(7, 1_016), Err(Refusal::SerialOnTheLine));
    line.grow(7, 7).unwrap();
    for node in [7, 0, 128] {
        for serial in [1_001, 1_031, 7, 8] {
            assert_eq!(line.grow(node, serial), Err(Refusal::ThirtyThirdHead), "{node} {serial}");
        }
    }
    assert_eq!([Refusal::ThirtyThirdHead, Refusal::NodeNumber].map(Refusal::number), [2, 1]);
}

/// A refused head leaves no serial behind, and no head.
#[test]
fn a_refused_head_takes_no_serial() {
    let mut desk = Desk::with_heads(&[31]);
    assert_eq!(desk.line("head 0 4711"), "refused 1");
    assert_eq!(desk.line("head 128 4711"), "refused 1");
    assert_eq!(desk.line("head 12 1"), "refused 17");
    assert_eq!(desk.line("xor 1"), "refused 3");
    desk.ok("head 12 4711");
    assert_eq!(desk.line("head 12 4711"), "refused 17");
    assert_eq!(desk.ask("0 12 0 0 0"), "value 12");
}

#[test]
fn a_refused_head_changes_no_other() {
    let mut desk = Desk::with_heads(&[31]);
    assert_eq!(desk.send("001F20"), "");
    for line in ["head 31 1", "head 0 1", "head 0 2"] {
        assert!(desk.line(line).starts_with("refused "), "{line}");
    }
    assert_eq!(desk.send("0000000000003F"), "001F200000000000053A");
}

/// No space is lent when a head is made.
#[test]
fn short_space_is_no_matter() {
    let mut desk = Desk::with_heads(&[31]);
    desk.ok("space 0");
    assert_eq!(desk.line("head 12 1"), "refused 17");
    desk.ok("head 12 2");
}

// The word.

#[test]
fn the_words_of_head() {
    for (line, node, serial) in [
        (&b"head 31 4711"[..], 31, 4_711),
        (b"head 0 0", 0, 0),
        (b"head 4294967295 4294967295", u32::MAX, u32::MAX),
        (b"\thead  0031\t00000000004711 \r", 31, 4_711),
    ] {
        assert_eq!(meaning(line), Meaning::Command(Command::Head { node, serial }), "{}", hex(line));
    }
}

/// A word too few, a word too many, a number that does not fit or has a sign: the line is none, and its serial is as
/// free as it was.
#[test]
fn what_is_no_head_is_an_error_and_changes_nothing() {
    let mut desk = Desk::with_heads(&[31]);
    let lines = [
        "head",
        "head 12",
        "head 12 2 0",
        "head 12 2 #",
        "head 12 -2",
        "head 12 +2",
        "head 12 -0",
        "head -12 2",
        "head 12 4294967296",
        "head 12 4294967298",
        "head 4294967308 2",
        "head 12 18446744073709551618",
        "head 12 2h",
        "head 12 0x2",
        "head 12,2",
        "HEAD 12 2",
        "head12 2",
        // Before 17 is looked for.
        "head 12 1 1",
    ];
    for (number, line) in lines.into_iter().enumerate() {
        // The head took the first line.
        assert_eq!(desk.line(line), format!("error at line {}", number + 2), "{line}");
    }
    assert_eq!(desk.line("xor 1"), "refused 3");
    desk.ok("head 12 2");
}
