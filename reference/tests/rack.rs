//! Request (x), a rack of telegrams in one call: what is dropped before it, where its replies are laid, what it counts,
//! the refusals 15 and 16, and the word `rack TIME PLACE [HEX]`. All bytes are worked out by hand: of sound telegrams
//! the last one is the exclusive-or of the nine before it.

mod common;
use common::Desk;
use reference::line::{Line, Racked, Refusal};
use reference::script::{hex, meaning, Command, Meaning};
use reference::telegram::{Telegram, WRITE};

/// 1F ^ 20; the reply has 5, 3F ^ 05.
const READ_20H: &str = "001F200000000000003F";
const IT_IS_5: &str = "001F200000000000053A";

/// 1F ^ 65; the reply has 11, 7A ^ 0B.
const READ_65H: &str = "001F650000000000007A";
const IT_IS_11: &str = "001F6500000000000B71";

/// At 12: 0C ^ 20; the reply has 5, 2C ^ 05.
const READ_20H_AT_12: &str = "000C200000000000002C";
const IT_IS_5_AT_12: &str = "000C2000000000000529";

/// A write is answered with the value written, so that with word 0 on both sides the reply is the telegram again:
/// 01 ^ 1F ^ 20 ^ 07.
const WRITE_20H_7: &str = "011F2000000000000739";

/// 3E for 3F; the reply is 1F ^ FD ^ 80.
const DAMAGED: &str = "001F200000000000003E";
const IT_IS_DAMAGED: &str = "001FFD00000000008062";

/// 02 ^ AA ^ 01.
const FREEZE_ALL: &str = "0200AA000000000001A9";

/// 01 ^ 1F ^ A0 ^ 09, answered with the same, as the word is that before the restart.
const RESTART: &str = "011FA0000000000009B7";

/// Sound, and read at node 0, which is nobody's.
const FOR_NOBODY: &str = "00000000000000000000";

/// 63 ^ 20 ^ 40 = 03.
const DAMAGED_FOR_99: &str = "00632000000000000040";

/// What the space has where nothing is laid; no reply here is made of it.
const MARK: u8 = 0xA5;

fn bytes(digits: &str) -> Vec<u8> {
    let byte = |place| u8::from_str_radix(&digits[place..place + 2], 16).unwrap();
    (0..digits.len()).step_by(2).map(byte).collect()
}

fn line_at(nodes: &[u32]) -> Line {
    let mut line = Line::new();
    for (&node, serial) in nodes.iter().zip(1..) {
        line.grow(node, serial).unwrap();
    }
    line
}

fn racked(replies: usize, collisions: usize) -> Result<Racked, Refusal> {
    Ok(Racked { replies, collisions })
}

/// Puts telegrams to a line with the space of this size, and holds the whole space against what is to be laid in it.
fn assert_laid(
    line: &mut Line,
    telegrams: &[&str],
    place: usize,
    size: usize,
    laid: &[&str],
    collisions: usize,
) {
    let mut space = vec![MARK; size];
    let answer = line.rack(0, &bytes(&telegrams.concat()), place, &mut space);
    assert_eq!(answer, racked(laid.len(), collisions), "{telegrams:?}");
    let laid = bytes(&laid.concat());
    let after = vec![MARK; size - place - laid.len()];
    assert_eq!(hex(&space), hex(&[vec![MARK; place], laid, after].concat()), "{telegrams:?}");
}

/// A head that is monitored (02h 1, 01 ^ 1F ^ 02 ^ 01), has kept a value, has 7 on offer (01 ^ 1F ^ D2 ^ 07), holds star
/// and has heard two damaged telegrams.
fn line_with_a_past() -> Line {
    let mut line = line_at(&[31]);
    for telegram in ["011F020000000000011D", FREEZE_ALL, "011FD2000000000007CB", DAMAGED, DAMAGED_FOR_99] {
        feed(&mut line, 0, telegram);
    }
    line.keys(0, 2, &mut [0; 10]).unwrap();
    line
}

/// All that the heads of a line hold.
fn held(line: &Line) -> String {
    format!("{line:?}")
}

fn feed(line: &mut Line, time: u32, digits: &str) -> Vec<usize> {
    bytes(digits).iter().map(|&byte| line.byte(time, byte, &mut [0; 10]).unwrap()).collect()
}

// Where replies are laid.

/// "Replies are laid one after another from a place the caller names in the reply space; bytes before it and after the
/// last reply keep their content."
#[test]
fn replies_stand_one_after_another_from_the_place_on() {
    for place in [0, 1, 9, 10, 11, 77] {
        let mut line = line_at(&[31, 12]);
        let size = place + 100;
        assert_laid(&mut line, &[READ_20H], place, size, &[IT_IS_5], 0);
        assert_laid(&mut line, &[READ_65H, READ_20H], place, size, &[IT_IS_11, IT_IS_5], 0);
        assert_laid(
            &mut line,
            &[READ_20H, READ_20H_AT_12, READ_65H],
            place,
            size,
            &[IT_IS_5, IT_IS_5_AT_12, IT_IS_11],
            0,
        );
    }
}

#[test]
fn a_space_of_just_the_length_is_filled() {
    let mut line = line_at(&[31]);
    assert_laid(&mut line, &[READ_65H], 0, 10, &[IT_IS_11], 0);
    assert_laid(&mut line, &[READ_65H, READ_20H, READ_65H], 5, 35, &[IT_IS_11, IT_IS_5, IT_IS_11], 0);
}

/// Broadcasts, telegrams for others and damaged ones for others have no reply and leave no gap, wherever they stand.
#[test]
fn silent_telegrams_leave_no_gap() {
    // A broadcast of FEh, which allows none: 02 ^ FE.
    let silent = ["0200FE000000000000FC", READ_20H_AT_12, FOR_NOBODY, DAMAGED_FOR_99];
    for one in silent {
        let mut line = line_at(&[31]);
        assert_laid(&mut line, &[one], 3, 60, &[], 0);
        assert_laid(&mut line, &[one, READ_20H, one, one, READ_65H, one], 3, 63, &[IT_IS_5, IT_IS_11], 0);
    }
    let mut line = line_at(&[31]);
    let [first, second, third, fourth] = silent;
    assert_laid(
        &mut line,
        &[READ_65H, first, second, READ_20H, third, READ_65H, fourth],
        0,
        70,
        &[IT_IS_11, IT_IS_5, IT_IS_11],
        0,
    );
    // Nobody answers at all.
    assert_laid(&mut line, &silent, 20, 60, &[], 0);
}

/// The order is that of the telegrams: writes of 20h, 0 to 63, each answered with itself.
#[test]
fn a_full_rack_has_64_replies() {
    let telegrams: Vec<String> =
        (0..64).map(|value| hex(&Telegram::new(WRITE, 31, 0x20, 0, value).bytes())).collect();
    assert_eq!(telegrams[7], WRITE_20H_7);
    let telegrams: Vec<&str> = telegrams.iter().map(String::as_str).collect();
    for (place, size) in [(0, 640), (0, 1_024), (384, 1_024), (100, 741)] {
        let mut line = line_at(&[31]);
        assert_laid(&mut line, &telegrams, place, size, &telegrams, 0);
    }
}

/// The lent space may be larger than a script's.
#[test]
fn a_place_may_be_far_into_the_space() {
    assert_laid(&mut line_at(&[31]), &[READ_20H], 70_000, 70_010, &[IT_IS_5], 0);
}

// "Each head first drops the bytes it has gathered."

/// Nine bytes of a read, a rack without any telegram, and the tenth: it is the first of another telegram.
#[test]
fn a_rack_of_none_drops_what_is_gathered() {
    let mut line = line_at(&[31]);
    assert_eq!(feed(&mut line, 0, "001F20000000000000"), [0; 9]);
    assert_laid(&mut line, &[], 0, 10, &[], 0);
    assert_eq!(line.heads()[0].gathered_count(), 0);
    assert_eq!(feed(&mut line, 0, "3F"), [0]);
    assert_eq!(line.heads()[0].gathered_count(), 1);
}

/// Gathered, they would have made other telegrams of all that follow.
#[test]
fn a_rack_begins_at_its_first_byte() {
    for gathered in 1..=9 {
        let mut line = line_at(&[31]);
        feed(&mut line, 0, &READ_65H[..2 * gathered]);
        assert_laid(&mut line, &[READ_20H, READ_65H], 0, 20, &[IT_IS_5, IT_IS_11], 0);
        assert_eq!(line.bits_hit(0), Ok(0), "nothing of them was checked");
    }
}

/// A head that was made later has gathered fewer; the third was switched on last and has gathered none.
#[test]
fn every_head_drops_its_own() {
    let mut line = line_at(&[31]);
    feed(&mut line, 0, "001F20");
    line.grow(12, 2).unwrap();
    feed(&mut line, 0, "000000");
    line.grow(5, 3).unwrap();
    let counts = |line: &Line| line.heads().iter().map(|head| head.gathered_count()).collect::<Vec<_>>();
    assert_eq!(counts(&line), [6, 3, 0]);
    // At 5: 05 ^ 20, and 25 ^ 05.
    assert_laid(
        &mut line,
        &[READ_20H, READ_20H_AT_12, "00052000000000000025"],
        0,
        30,
        &[IT_IS_5, IT_IS_5_AT_12, "00052000000000000520"],
        0,
    );
    assert_eq!(counts(&line), [0, 0, 0]);
}

#[test]
fn every_one_of_32_heads_drops() {
    let mut line = line_at(&[31; 32]);
    feed(&mut line, 0, "001F20000000000000");
    assert_laid(&mut line, &[], 0, 0, &[], 0);
    assert!(line.heads().iter().all(|head| head.gathered_count() == 0));
}

#[test]
fn nothing_else_is_dropped() {
    let mut line = line_with_a_past();
    let before = held(&line);
    feed(&mut line, 0, "001F20000000000000");
    assert_ne!(held(&line), before);
    assert_eq!(line.rack(0, &[], 10, &mut [MARK; 10]), racked(0, 0));
    assert_eq!(held(&line), before);
}

/// It is as if they had not been heard: they are no damaged telegram, no sound one, and start no monitor.
#[test]
fn what_is_dropped_is_no_telegram() {
    let mut desk = Desk::with_heads(&[31]);
    assert_eq!(desk.send(DAMAGED), IT_IS_DAMAGED);
    assert_eq!(desk.send(DAMAGED), IT_IS_DAMAGED);
    assert_eq!(desk.send("FFFFFFFFFFFFFFFFFF"), "");
    assert_eq!(desk.line("rack 0 0"), "racked 0 0");
    assert_eq!(desk.line("xor 0"), "xor 01");
    // Still the third in a row: bit 7 of the word, 1F ^ FD ^ 80 ^ 80.
    assert_eq!(desk.send(DAMAGED), "001FFD008000000080E2");
}

#[test]
fn a_rack_of_none_starts_no_monitor() {
    let mut desk = Desk::with_heads(&[31]);
    desk.write(0x02, 1);
    assert_eq!(desk.send("000000"), "");
    assert_eq!(desk.line("rack 50 0"), "racked 0 0");
    desk.ok("tick 100");
    desk.time = 100;
    assert_eq!(desk.read(0xFD), 0x81);
}

/// A length of whole telegrams, and every head had gathered none when it began.
#[test]
fn nothing_is_gathered_after_a_rack() {
    for telegrams in
        [vec![READ_20H], vec![FOR_NOBODY; 64], vec![DAMAGED, FREEZE_ALL], vec![READ_20H, RESTART]]
    {
        let mut line = line_at(&[31, 12]);
        feed(&mut line, 0, "001F2000");
        line.rack(5, &bytes(&telegrams.concat()), 0, &mut [0; 640]).unwrap();
        assert!(line.heads().iter().all(|head| head.gathered_count() == 0), "{telegrams:?}");
        assert_eq!(feed(&mut line, 5, READ_20H_AT_12), [0, 0, 0, 0, 0, 0, 0, 0, 0, 1]);
    }
}

// "The results equal feeding the bytes one at a time, all at the given time, to that line."

/// 20h is 5 before and 7 after.
#[test]
fn a_read_sees_what_was_written_before_it_in_the_rack() {
    assert_laid(
        &mut line_at(&[31]),
        &[READ_20H, WRITE_20H_7, READ_20H],
        0,
        30,
        &[IT_IS_5, WRITE_20H_7, "001F2000000000000738"],
        0,
    );
}

/// Both heads freeze, which is bit 8 of the word in FAh: 1F ^ FA ^ 01 ^ 01, and 0C ^ FA likewise. A read of FEh releases
/// one of them: 1F ^ FE, with the word of after.
#[test]
fn a_broadcast_reaches_all_heads_before_the_next_telegram() {
    assert_laid(
        &mut line_at(&[31, 12]),
        &[
            FREEZE_ALL,
            "001FFA000000000000E5",
            "000CFA000000000000F6",
            "001FFE000000000000E1",
            "001FFA000000000000E5",
        ],
        0,
        50,
        &["001FFA010000000100E5", "000CFA010000000100F6", "001FFE000000000000E1", "001FFA000000000000E5"],
        0,
    );
}

/// 00h to 12 (0Ch): 31 still speaks and reads 12, and 12 is nobody's; after A0h 9 only 12 speaks.
#[test]
fn a_restart_brings_a_new_number_into_force_within_the_rack() {
    // 01 ^ 1F ^ 0C; 1F; 1F ^ 0C; 0C; 0C ^ 0C.
    let write_00h_12 = "011F0000000000000C12";
    let (read_at_31, it_is_12) = ("001F000000000000001F", "001F0000000000000C13");
    let (read_at_12, it_is_12_at_12) = ("000C000000000000000C", "000C0000000000000C00");
    assert_laid(
        &mut line_at(&[31]),
        &[write_00h_12, read_at_31, read_at_12, RESTART, read_at_31, read_at_12],
        7,
        70,
        &[write_00h_12, it_is_12, RESTART, it_is_12_at_12],
        0,
    );
}

/// To all heads, by broadcast: 02 ^ A0 ^ 09.
#[test]
fn a_restart_of_all_heads_brings_their_numbers_into_force() {
    // 31 to 5: 01 ^ 1F ^ 05; 12 to 31: 01 ^ 0C ^ 1F.
    let (to_5, to_31) = ("011F000000000000051B", "010C0000000000001F12");
    assert_laid(
        &mut line_at(&[31, 12]),
        &[to_5, to_31, "0200A0000000000009AB", READ_20H_AT_12, READ_20H, "00052000000000000025"],
        0,
        60,
        &[to_5, to_31, IT_IS_5, "00052000000000000520"],
        0,
    );
}

/// The error reply is one like any other.
#[test]
fn the_reply_to_a_damaged_telegram_is_laid() {
    let mut line = line_at(&[31]);
    assert_laid(&mut line, &[READ_65H, DAMAGED, READ_20H], 2, 32, &[IT_IS_11, IT_IS_DAMAGED, IT_IS_5], 0);
    assert_eq!(line.bits_hit(0), Ok(0x01));
    // Refused: 63h is unknown, 1F ^ 63 and 1F ^ FD ^ 83; command 03h, 03 ^ 1F ^ 20 and 03 ^ 1F ^ FD ^ 84.
    assert_laid(
        &mut line,
        &["001F630000000000007C", "031F200000000000003C"],
        0,
        20,
        &["001FFD00000000008361", "031FFD00000000008465"],
        0,
    );
}

/// Three in a row raise 0080h, be the one between for another head, and the third shows it: 1F ^ FD ^ 80 ^ 80. A sound
/// one between them sets the count to 0.
#[test]
fn damaged_telegrams_count_within_a_rack_and_over_its_end() {
    let mut line = line_at(&[31]);
    assert_laid(
        &mut line,
        &[DAMAGED, READ_65H, DAMAGED],
        0,
        30,
        &[IT_IS_DAMAGED, IT_IS_11, IT_IS_DAMAGED],
        0,
    );
    assert_laid(&mut line, &[DAMAGED_FOR_99, DAMAGED], 0, 20, &["001FFD008000000080E2"], 0);
    assert_eq!(line.bits_hit(0), Ok(0x01));
}

/// 7 is offered to 31, 01 ^ 1F ^ D2 ^ 07, which has no reply until up is pressed. The word is that before the call.
#[test]
fn a_number_is_offered_in_a_rack() {
    let mut line = line_at(&[31]);
    let offer = "011FD2000000000007CB";
    assert_laid(&mut line, &[offer, READ_20H], 0, 20, &[IT_IS_5], 0);
    let mut space = [0; 10];
    assert_eq!(line.keys(0, 4, &mut space), Ok(true));
    assert_eq!(hex(&space), offer);
}

/// Whatever the telegrams are: replies, collisions and all that the heads hold.
#[test]
fn a_rack_is_the_same_as_its_bytes() {
    let telegrams = [
        READ_20H,
        WRITE_20H_7,
        DAMAGED,
        FREEZE_ALL,
        READ_20H_AT_12,
        "011F020000000000011D",
        RESTART,
        FOR_NOBODY,
        DAMAGED_FOR_99,
        READ_20H,
    ];
    for first in 0..telegrams.len() {
        for nodes in [vec![31], vec![31, 12], vec![31, 31, 12], vec![]] {
            let (mut whole, mut one_at_a_time) = (line_at(&nodes), line_at(&nodes));
            let mut rack = telegrams;
            rack.rotate_left(first);
            let replies = feed(&mut one_at_a_time, 4_711, &rack.concat());
            let count =
                |is_meant: fn(&usize) -> bool| replies.iter().filter(|&count| is_meant(count)).count();
            let answer = whole.rack(4_711, &bytes(&rack.concat()), 0, &mut [0; 100]);
            assert_eq!(answer, racked(count(|&count| count == 1), count(|&count| count > 1)));
            assert_eq!(held(&whole), held(&one_at_a_time));
        }
    }
}

#[test]
fn a_line_of_no_head_takes_a_rack_too() {
    let mut line = Line::new();
    assert_laid(&mut line, &[], 0, 0, &[], 0);
    assert_laid(&mut line, &[READ_20H, FREEZE_ALL, DAMAGED], 4, 34, &[], 0);
    assert_eq!(line.rack(0, &[0; 9], 0, &mut [0; 10]), Err(Refusal::RackLength));
    assert_eq!(line.rack(0, &[0; 10], 1, &mut [0; 10]), Err(Refusal::RackSpace));
}

#[test]
fn every_one_of_32_heads_answers_in_a_rack() {
    let nodes: Vec<u32> = (1..=32).collect();
    let mut line = line_at(&nodes);
    let both_ways = (1..=32).chain((1..=32).rev());
    let telegrams: Vec<String> =
        both_ways.map(|node| hex(&Telegram::new(WRITE, node, 0x04, 0, 60).bytes())).collect();
    // The last one is 01 ^ 01 ^ 04 ^ 3C.
    assert_eq!(telegrams[63], "01010400000000003C38");
    let telegrams: Vec<&str> = telegrams.iter().map(String::as_str).collect();
    assert_laid(&mut line, &telegrams, 0, 640, &telegrams, 0);
}

// "All at the given time."

/// 02h is 1, written at time 0. A tick 99 ms after the rack raises nothing, one 100 ms after it 0081h, whomever the
/// telegram was for.
#[test]
fn the_monitor_starts_at_the_time_of_the_rack() {
    for (time, tick, error) in [
        (50, 149, 0),
        (50, 150, 0x81),
        (1_000, 1_099, 0),
        (1_000, 1_100, 0x81),
        (u32::MAX, 98, 0),
        (u32::MAX, 99, 0x81),
        (u32::MAX - 99, u32::MAX, 0),
        (u32::MAX - 99, 0, 0x81),
    ] {
        for telegram in [READ_20H, FOR_NOBODY, READ_20H_AT_12, FREEZE_ALL] {
            let mut desk = Desk::with_heads(&[31]);
            desk.write(0x02, 1);
            assert!(desk.line(&format!("rack {time} 0 {telegram}")).starts_with("racked "));
            desk.ok(&format!("tick {tick}"));
            desk.time = tick;
            assert_eq!(desk.read(0xFD), error, "{telegram} at {time}, tick at {tick}");
        }
    }
}

/// A0h 9 stops the monitor; the sound telegram after it in the same rack starts it again, a damaged one does not.
#[test]
fn a_restart_in_the_rack_stops_the_monitor() {
    for (last, error) in [(READ_20H_AT_12, 0x81), (DAMAGED_FOR_99, 0), ("", 0)] {
        let mut desk = Desk::with_heads(&[31]);
        desk.ok("space 20");
        desk.write(0x02, 1);
        let answer = desk.line(&format!("rack 70 0 {RESTART}{last}"));
        assert_eq!(answer, format!("racked 1 0 {RESTART}"));
        desk.ok("tick 170");
        desk.time = 170;
        assert_eq!(desk.read(0xFD), error, "{last}");
    }
}

/// No byte of a rack is parted from the one before it, however long before the rack the last one was heard.
#[test]
fn a_rack_has_no_gap() {
    for time in [0, 10, 11, 1 << 31, u32::MAX] {
        let mut desk = Desk::with_heads(&[31]);
        desk.ok("space 20");
        assert_eq!(desk.send("001F20"), "");
        let answer = desk.line(&format!("rack {time} 0 {READ_65H}{READ_20H}"));
        assert_eq!(answer, format!("racked 2 0 {IT_IS_11} {IT_IS_5}"));
    }
}

// Collisions.

/// "A collision lays nothing and is counted", as one, however many heads took part; the heads still act.
#[test]
fn a_collision_of_several_heads_counts_one() {
    for count in [2, 3, 8, 32] {
        let mut line = line_at(&vec![31; count]);
        assert_laid(&mut line, &[READ_20H], 0, 10, &[], 1);
        assert_laid(&mut line, &[WRITE_20H_7, READ_20H], 6, 30, &[], 2);
        // The error reply collides too, and what nobody answers does not.
        assert_laid(&mut line, &[DAMAGED, FOR_NOBODY, FREEZE_ALL, DAMAGED_FOR_99], 0, 50, &[], 1);
        for head in 0..count {
            assert_eq!(line.heads()[head].value(0x20), 7);
            assert_eq!(line.bits_hit(head as u32), Ok(0x03));
        }
    }
}

#[test]
fn a_full_rack_may_collide_64_times() {
    assert_laid(&mut line_at(&[31, 31, 31]), &[READ_20H; 64], 0, 640, &[], 64);
}

/// Single replies stand one after another all the same.
#[test]
fn a_collision_leaves_no_gap() {
    let mut line = line_at(&[31, 12, 31]);
    assert_laid(
        &mut line,
        &[READ_20H_AT_12, READ_65H, READ_20H_AT_12, READ_20H, READ_20H],
        5,
        60,
        &[IT_IS_5_AT_12, IT_IS_5_AT_12],
        3,
    );
    assert_laid(&mut line, &[READ_20H, READ_20H_AT_12], 0, 20, &[IT_IS_5_AT_12], 1);
}

/// Heads at 31 and 12; the second takes 31 (01 ^ 0C ^ 1F) by its restart (01 ^ 0C ^ A0 ^ 09), and from there on they
/// collide.
#[test]
fn heads_may_come_to_collide_within_a_rack() {
    let (to_31, restart) = ("010C0000000000001F12", "010CA0000000000009A4");
    assert_laid(
        &mut line_at(&[31, 12]),
        &[READ_20H, to_31, READ_20H, restart, READ_20H, READ_20H_AT_12],
        0,
        60,
        &[IT_IS_5, to_31, IT_IS_5, restart],
        1,
    );
}

// Refusals.

/// "15 for a length that is no multiple of ten or above 640."
#[test]
fn refusal_15_for_the_length() {
    for length in 0..=1_300 {
        let mut line = line_at(&[31]);
        let answer = line.rack(0, &vec![0; length], 0, &mut [MARK; 1_300]);
        match length {
            0 | 10 | 20 | 630 | 640 => assert_eq!(answer, racked(0, 0), "{length}"),
            1 | 9 | 11 | 639 | 641 | 650 | 1_280 => {
                assert_eq!(answer, Err(Refusal::RackLength), "{length}");
            }
            _ => assert_eq!(answer.is_ok(), length <= 640 && length.to_string().ends_with('0'), "{length}"),
        }
    }
    assert_eq!(Refusal::RackLength.number(), 15);
}

/// "16 for space from that place under the input's length, a place beyond the end included."
#[test]
fn refusal_16_for_the_space() {
    let answer = |size: usize, place: usize, length: usize| {
        line_at(&[31]).rack(0, &vec![0; length], place, &mut vec![MARK; size])
    };
    for (size, place, length) in [
        // Without a telegram every place is fine up to the end.
        (0, 0, 0),
        (10, 0, 0),
        (10, 9, 0),
        (10, 10, 0),
        // The last place from which there is room.
        (10, 0, 10),
        (11, 1, 10),
        (30, 20, 10),
        (30, 0, 30),
        (640, 0, 640),
        (641, 1, 640),
        (1_024, 384, 640),
        (1_024, 1_014, 10),
    ] {
        assert_eq!(answer(size, place, length), racked(0, 0), "{size} {place} {length}");
        for beyond in [size + 1, size + 10, 1 << 16, u32::MAX as usize, usize::MAX - 9, usize::MAX] {
            assert_eq!(answer(size, beyond, length), Err(Refusal::RackSpace), "{size} {beyond} {length}");
        }
    }
    for (size, place, length) in [
        (0, 0, 10),
        (9, 0, 10),
        (10, 1, 10),
        (10, 10, 10),
        (30, 21, 10),
        (30, 30, 10),
        (30, 1, 30),
        (639, 0, 640),
        (640, 1, 640),
        (1_024, 385, 640),
        (1_024, 1_015, 10),
    ] {
        assert_eq!(answer(size, place, length), Err(Refusal::RackSpace), "{size} {place} {length}");
    }
    assert_eq!(Refusal::RackSpace.number(), 16);
}

/// "15 first."
#[test]
fn refusal_15_goes_before_16() {
    let mut line = line_at(&[31]);
    for length in [1, 9, 11, 639, 641, 650, 2_000] {
        for place in [0, 1, 10, 11, usize::MAX] {
            let answer = line.rack(0, &vec![0; length], place, &mut [MARK; 10]);
            assert_eq!(answer, Err(Refusal::RackLength), "{length} at {place}");
        }
        assert_eq!(line.rack(0, &vec![0; length], 0, &mut []), Err(Refusal::RackLength));
    }
}

/// "Nothing done": the nine bytes of a read are still gathered, so that the tenth draws its reply; no telegram of the
/// rack is heard; and the space is as it was.
#[test]
fn a_refused_rack_does_nothing() {
    let full = [WRITE_20H_7; 65].concat();
    for (digits, place, size, refusal) in [
        ("00", 0, 100, Refusal::RackLength),
        (&WRITE_20H_7[..18], 0, 100, Refusal::RackLength),
        (&full[..22], 0, 100, Refusal::RackLength),
        (&full[..1_282], 0, 1_000, Refusal::RackLength),
        (&full, 0, 1_000, Refusal::RackLength),
        (&full[..1_280], 361, 1_000, Refusal::RackSpace),
        (WRITE_20H_7, 0, 9, Refusal::RackSpace),
        (RESTART, 1, 10, Refusal::RackSpace),
        (WRITE_20H_7, 10, 10, Refusal::RackSpace),
        (WRITE_20H_7, 11, 10, Refusal::RackSpace),
        (WRITE_20H_7, usize::MAX, 10, Refusal::RackSpace),
        ("", 11, 10, Refusal::RackSpace),
        ("", 1, 0, Refusal::RackSpace),
        ("", usize::MAX, 10, Refusal::RackSpace),
    ] {
        let mut line = line_at(&[31, 12]);
        feed(&mut line, 0, "001F20000000000000");
        let mut space = vec![MARK; size];
        // At a time from which the tenth byte would be parted from a byte of the rack.
        assert_eq!(line.rack(5_000, &bytes(digits), place, &mut space), Err(refusal), "{place} {size}");
        assert!(space.iter().all(|&byte| byte == MARK));
        let mut reply = [0; 10];
        assert_eq!(line.byte(10, 0x3F, &mut reply), Ok(1), "{place} {size}");
        assert_eq!(hex(&reply), IT_IS_5);
    }
}

#[test]
fn a_refused_rack_leaves_all_that_heads_hold() {
    let mut line = line_with_a_past();
    feed(&mut line, 0, "001F20");
    let before = held(&line);
    for (digits, place) in [("00", 0), (READ_20H, 1), (READ_20H, 11), ("", 11)] {
        assert!(line.rack(7, &bytes(digits), place, &mut [MARK; 10]).is_err());
        assert_eq!(held(&line), before, "{digits} at {place}");
    }
}

/// "Refusal 6 does not occur here": what is too short for a reply is 16 if there is a telegram, and fine if there is none.
#[test]
fn refusal_6_does_not_occur() {
    let mut desk = Desk::with_heads(&[31]);
    for size in 0..10 {
        desk.ok(&format!("space {size}"));
        assert_eq!(desk.line(&format!("rack 0 0 {READ_20H}")), "refused 16");
        assert_eq!(desk.line("rack 0 0"), "racked 0 0");
        assert_eq!(desk.line(&format!("rack 0 {size}")), "racked 0 0");
        assert_eq!(desk.line(&format!("rack 0 {}", size + 1)), "refused 16");
    }
}

// The word.

#[test]
fn the_words_of_rack() {
    for (line, time, place, bytes) in [
        (&b"rack 7 20 00fFA0"[..], 7, 20, vec![0x00, 0xFF, 0xA0]),
        (b"rack 7 20", 7, 20, vec![]),
        (b"rack 0 0 00", 0, 0, vec![0x00]),
        (b"rack 4294967295 4294967295", u32::MAX, u32::MAX, vec![]),
        (b"\track  007\t00000000000020 aB \r", 7, 20, vec![0xAB]),
    ] {
        assert_eq!(meaning(line), Meaning::Command(Command::Rack { time, place, bytes }), "{}", hex(line));
    }
}

/// Ten bytes are lent where no `space` was said.
#[test]
fn the_answers_to_rack() {
    let mut desk = Desk::with_heads(&[31, 12, 31]);
    assert_eq!(desk.line("rack 0 0"), "racked 0 0");
    assert_eq!(desk.line("rack 0 10"), "racked 0 0");
    assert_eq!(desk.line("rack 0 11"), "refused 16");
    assert_eq!(desk.line(&format!("rack 0 0 {READ_20H_AT_12}")), format!("racked 1 0 {IT_IS_5_AT_12}"));
    assert_eq!(desk.line(&format!("rack 0 1 {READ_20H_AT_12}")), "refused 16");
    assert_eq!(desk.line(&format!("rack 0 0 {READ_20H}")), "racked 0 1");
    assert_eq!(desk.line(&format!("rack 0 0 {READ_20H}00")), "refused 15");
    desk.ok("space 1024");
    let digits = [READ_20H_AT_12, READ_65H, FREEZE_ALL, READ_20H_AT_12].concat();
    // 12 is frozen by then, bit 8: 29 ^ 01.
    let laid = [IT_IS_5_AT_12, "000C2001000000000528"].join(" ");
    assert_eq!(desk.line(&format!("rack 0 984 {}", digits.to_lowercase())), format!("racked 2 1 {laid}"));
    assert_eq!(desk.line(&format!("rack 0 985 {digits}")), "refused 16");
    assert_eq!(desk.line("rack 0 1024"), "racked 0 0");
    assert_eq!(desk.line("rack 0 1025"), "refused 16");
    for place in [65_536, 4_294_966_656, 4_294_967_286, 4_294_967_295_u32] {
        assert_eq!(desk.line(&format!("rack 0 {place}")), "refused 16");
        assert_eq!(desk.line(&format!("rack 0 {place} {READ_65H}")), "refused 16");
    }
}

/// The longest that a line has room for is refused for its length, not for being a line that is none.
#[test]
fn long_racks_are_refused_15() {
    let mut desk = Desk::with_heads(&[31]);
    desk.ok("space 1024");
    let all = vec![READ_20H; 64];
    assert_eq!(
        desk.line(&format!("rack 0 384 {}", all.concat())),
        format!("racked 64 0 {}", [IT_IS_5; 64].join(" "))
    );
    for length in [641, 650, 1_024, 1_030, 2_040, 2_043] {
        assert_eq!(desk.line(&format!("rack 0 0 {}", "00".repeat(length))), "refused 15", "{length}");
    }
    // 9 and 4088 make 4097.
    assert_eq!(desk.line(&format!("rack 0 0 {}", "00".repeat(2_044))), "error at line 10");
}

/// A word too few, a word too many, half a byte, a number that does not fit or has a sign: the line is none, and what is
/// gathered stays so.
#[test]
fn what_is_no_rack_is_an_error_and_changes_nothing() {
    let mut desk = Desk::with_heads(&[31]);
    assert_eq!(desk.send("001F20000000000000"), "");
    let lines = [
        "rack",
        "rack 0",
        "rack 0 0 00 00",
        "rack 0 0 #",
        "rack 0 0 00 #",
        "rack 0 0 0",
        "rack 0 0 000",
        "rack 0 0 001F200000000000003",
        "rack 0 0 0G",
        "rack 0 0 0x00",
        "rack 0 0 -0",
        "rack 0 -0",
        "rack 0 -1 00",
        "rack 0 +0",
        "rack -0 0",
        "rack +0 0",
        "rack 4294967296 0",
        "rack 0 4294967296",
        "rack 0 4294967296 00",
        "rack 0 18446744073709551616",
        "rack 0 0x0",
        "rack 0 A",
        "rack x 0",
        "rack 0,0",
        "rack0 0",
        "rack 0 0,00",
        "racks 0 0",
        "racked 0 0",
        "RACK 0 0",
    ];
    for (number, line) in lines.into_iter().enumerate() {
        // The head and the send took the first two lines.
        assert_eq!(desk.line(line), format!("error at line {}", number + 3), "{line}");
    }
    assert_eq!(desk.send("3F"), IT_IS_5);
}
