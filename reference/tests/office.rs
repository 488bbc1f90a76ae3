//! Request (xiii): the simulator in the office, which knows whole telegrams alone. All answers are worked out from
//! document 01 as amended, sentence by sentence; then its engine is held to the byte-fed head.

use reference::head::{engine, Head, HIGHEST_MEASUREMENT};
use reference::office::Office;
use reference::rows::ROWS;
use reference::script::hex;
use reference::sheet::{written, Setting};
use reference::telegram::{Reply, Telegram, BROADCAST, READ, TELEGRAM_LENGTH, WRITE};
use std::collections::BTreeMap;
use std::io::Write;
use std::process::{Command, Output, Stdio};

/// Document 01's table as it stands there, but for 3Eh, which has 0 or 2, and for 28h and 35h, of which requests (ix)
/// and (xii) have changed high and default.
const TABLE: &str = "\
    00 1..127, 31 | 01 0..2, 1 | 02 0..20, 0 | 03 0..2, 0 |\
    04 1..60, 5 | 05 0..1, 1 | 06 0..1, 0 | 07 0..1, 1 |\
    08 0..1, 1 | 09 0..1, 1 | 0A 0..4, 0 | 0B 0..3, 0 |\
    0C 0..2, 0 | 0D 0..1, 0 | 0E 0..1, 0 | 0F 0..99999, 0 |\
    1B 0..1, 0 | 1C 1..65535, 720 | 1E -19999..19999, 0 | 1F -19999..99999, 0 |\
    20 0..9999, 5 | 21 0..2, 0 | 22 0..9999, 0 | 28 0..3, 0 |\
    30 0..1, 0 | 31 0..9999, 0 | 32 0..1, 0 | 33 0..2, 0 |\
    34 0..1, 0 | 35 0..0, 0 | 39 0..1, 1 | 3A 0..1, 0 |\
    3B 0..1, 1 | 3C 0..1, 1 | 3D 0..1, 1 | 3E 0..2, 0 |\
    3F 0..8, 0 | 40 0..1, 1 | D0 0..20, 0";

/// Address, low, high and default of the 39.
fn table() -> Vec<(u8, i64, i64, i64)> {
    let row = |row: &str| {
        let (address, rest) = row.trim().split_once(' ').unwrap();
        let (range, default) = rest.split_once(", ").unwrap();
        let (low, high) = range.split_once("..").unwrap();
        let [low, high, default] = [low, high, default].map(|number| number.parse().unwrap());
        (u8::from_str_radix(address, 16).unwrap(), low, high, default)
    };
    TABLE.split('|').map(row).collect()
}

/// A telegram or reply of these fields, command, node, parameter, word and data, with the check sum that the formula
/// gives; behind a ^ stand bits that were hit in it.
fn spelt(fields: &str) -> String {
    let (fields, hit) = fields.split_once('^').unwrap_or((fields, "00"));
    let digits = fields.replace(' ', "");
    let byte = |digits: &str| u8::from_str_radix(digits, 16).unwrap();
    let sum = (0..18).step_by(2).fold(byte(hit), |sum, place| sum ^ byte(&digits[place..place + 2]));
    format!("{digits}{sum:02X}")
}

/// Telegrams, and what each draws.
fn says(office: &mut Office, conversation: &[(&str, &str)]) {
    for &(asked, answer) in conversation {
        let answer = if answer == "silence" { answer.to_string() } else { spelt(answer) };
        assert_eq!(office.answer(spelt(asked).as_bytes()), Some(answer), "{asked}");
    }
}

/// The same of a fresh head, which is handed out.
fn fresh_head_says(conversation: &[(&str, &str)]) -> Office {
    let mut office = Office::new();
    says(&mut office, conversation);
    office
}

/// The code with which a fresh head refuses a telegram, or none if it sends a value.
fn code_of_fresh_head(command: u8, parameter: u8, data: i64) -> Option<u16> {
    let telegram = spelt(&format!("{command:02X}1F{parameter:02X}0000{:08X}", data as u32));
    let reply = Office::new().answer(telegram.as_bytes()).unwrap();
    assert_eq!(reply[..4], format!("{command:02X}1F"));
    if reply[4..6] != *"FD" {
        assert_eq!(reply[4..6], format!("{parameter:02X}"));
        return None;
    }
    Some(u16::from_str_radix(&reply[14..18], 16).unwrap())
}

// "Sums at the edges."

#[test]
fn the_two_telegrams_of_the_bench() {
    let mut office = Office::new();
    assert_eq!(office.answer(b"001F200000000000003F").unwrap(), "001F200000000000053A");
    assert_eq!(office.answer(b"011F0400000000005A40").unwrap(), "011FFD00000000028263");
}

#[test]
fn the_values_of_the_marked_cases() {
    for (parameter, value, code) in [
        (0x3E, 1, Some(0x0082)),
        (0x3E, 3, Some(0x0282)),
        (0x00, 0, Some(0x0182)),
        (0x00, 128, Some(0x0282)),
        (0x1C, 65_535, None),
        (0x1C, 65_536, Some(0x0282)),
        (0x1E, -19_999, None),
        (0x1E, -20_000, Some(0x0182)),
    ] {
        assert_eq!(code_of_fresh_head(WRITE, parameter, value), code, "{parameter:02X}h {value}");
    }
}

/// "S 2147483647, A 0: differential -5242880", and with 34h 1 S - A is held at 5242880.
#[test]
fn the_differential_value_is_held() {
    fresh_head_says(&[
        ("01 1F FF 0000 7FFFFFFF", "01 1F FF 0000 7FFFFFFF"),
        ("00 1F FC 0000 00000000", "00 1F FC 0000 FFB00000"),
        ("01 1F 34 0000 00000001", "01 1F 34 0000 00000001"),
        ("00 1F FC 0000 00000000", "00 1F FC 0000 00500000"),
    ]);
}

/// "Two damaged, one sound, two damaged: no error."
#[test]
fn two_damaged_one_sound_two_damaged() {
    fresh_head_says(&[
        ("00 1F 20 0000 00000000^01", "00 1F FD 0000 00000080"),
        ("00 1F 20 0000 00000000^02", "00 1F FD 0000 00000080"),
        ("00 1F 20 0000 00000000", "00 1F 20 0000 00000005"),
        ("00 1F 20 0000 00000000^04", "00 1F FD 0000 00000080"),
        ("00 1F 20 0000 00000000^08", "00 1F FD 0000 00000080"),
        ("00 1F FD 0000 00000000", "00 1F FD 0000 00000000"),
        ("00 1F 80 0000 00000000", "00 1F 80 0000 00000000"),
    ]);
}

// Reads and writes of the 39.

/// "Delivery value of 00h is the number given when the head is made."
#[test]
fn delivery_values_are_read() {
    let mut office = Office::new();
    for (address, _, _, default) in table() {
        let telegram = format!("00 1F {address:02X} 0000 00000000");
        let reply = format!("00 1F {address:02X} 0000 {default:08X}");
        says(&mut office, &[(&telegram, &reply)]);
    }
}

/// "A read's data are ignored, save for 96h", and so is its control word: "Other telegrams' control words are
/// ignored."
#[test]
fn a_read_ignores_its_word_and_data() {
    fresh_head_says(&[
        ("00 1F 20 FFFF FFFFFFFF", "00 1F 20 0000 00000005"),
        ("00 1F FF 0200 00000064", "00 1F FF 0000 00000000"),
        ("00 1F FB 0004 00000064", "00 1F FB 0000 00000000"),
        ("01 1F 20 0234 00000006", "01 1F 20 0000 00000006"),
        ("00 1F FA 0000 00000000", "00 1F FA 0000 00000000"),
    ]);
}

/// "A write is answered with the value written", and "Value below low: 01 82; above high: 02 82; in between and not
/// listed: 00 82." What lies below an unsigned row's 0 are the highest 32 bits.
#[test]
fn every_row_takes_its_range_and_no_more() {
    for (address, low, high, _) in table() {
        let below = if low == 0 { 0x0282 } else { 0x0182 };
        assert_eq!(code_of_fresh_head(WRITE, address, low - 1), Some(below), "{address:02X}h");
        assert_eq!(code_of_fresh_head(WRITE, address, high + 1), Some(0x0282), "{address:02X}h");
        for value in [low, high] {
            let data = format!("{:08X}", value as u32);
            fresh_head_says(&[
                (&format!("01 1F {address:02X} 0000 {data}"), &format!("01 1F {address:02X} 0000 {data}")),
                (&format!("00 1F {address:02X} 0000 00000000"), &format!("00 1F {address:02X} 0000 {data}")),
            ]);
        }
    }
}

/// "35h remains an address and always reads 0; writing 0 is accepted, writing 1 or more is 02 82."
#[test]
fn what_is_retired_takes_0_alone() {
    fresh_head_says(&[
        ("01 1F 35 0000 00000001", "01 1F FD 0000 00000282"),
        ("01 1F 35 0000 00000000", "01 1F 35 0000 00000000"),
        ("00 1F 35 0000 00000000", "00 1F 35 0000 00000000"),
    ]);
}

// Checks 2 to 5.

/// "Not a broadcast, and node byte not the number in force: silence", whatever else is wrong with it.
#[test]
fn other_nodes_are_met_with_silence() {
    for node in (0..=0xFF).filter(|&node| node != 31) {
        for rest in ["20 0000 00000000", "10 0000 00000000", "A0 0000 00000009"] {
            for command in [READ, WRITE, 3, 0xFF] {
                fresh_head_says(&[(&format!("{command:02X} {node:02X} {rest}"), "silence")]);
            }
        }
    }
}

/// "Command above 02h: 00 84", before an unknown parameter and all else; "A reply copies command, node and parameter;
/// an error reply has FDh as parameter".
#[test]
fn commands_above_2_are_00_84() {
    for command in 3..=0xFF {
        for parameter in [0x20, 0x10, 0xA0, 0x65, 0xD2] {
            let telegram = format!("{command:02X} 1F {parameter:02X} 0000 FFFFFFFF");
            let reply = format!("{command:02X} 1F FD 0000 00000084");
            fresh_head_says(&[(&telegram, &reply)]);
        }
    }
}

/// "Each parameter address falls in exactly one access group": unknown 00 83, write to read only 01 84, read of write
/// only 02 84, of which D2h is one by request (ii).
#[test]
fn every_address_is_in_its_access_group() {
    for address in 0..=0xFF {
        let is_stored = table().iter().any(|row| row.0 == address);
        let (read, write) = match address {
            0xFB | 0xFF => (None, None),
            _ if is_stored => (None, None),
            0x65 | 0x67 | 0x80 | 0x81..=0x8A | 0x96 | 0xFA | 0xFC | 0xFD | 0xFE => (None, Some(0x0184)),
            0xA0 | 0xA7 | 0xA8 | 0xAA => (Some(0x0284), None),
            // An offer draws no reply.
            0xD2 => continue,
            _ => (Some(0x0083), Some(0x0083)),
        };
        // 1 is a value of all that can be written, but for 35h, which has 0 alone, and 3Eh.
        let value = i64::from(!matches!(address, 0x35 | 0x3E));
        if address != 0xFD {
            assert_eq!(code_of_fresh_head(READ, address, 0), read, "read of {address:02X}h");
        }
        assert_eq!(code_of_fresh_head(WRITE, address, value), write, "write of {address:02X}h");
    }
}

/// 65h 11 and 67h 100; all that counts and remembers is 0 in a new head.
#[test]
fn what_can_only_be_read() {
    fresh_head_says(&[
        ("00 1F 65 0000 00000000", "00 1F 65 0000 0000000B"),
        ("00 1F 67 0000 00000000", "00 1F 67 0000 00000064"),
        ("00 1F 80 0000 00000000", "00 1F 80 0000 00000000"),
        ("00 1F 81 0000 00000000", "00 1F 81 0000 00000000"),
        ("00 1F 8A 0000 00000000", "00 1F 8A 0000 00000000"),
        ("00 1F 8B 0000 00000000", "00 1F FD 0000 00000083"),
        ("00 1F FC 0000 00000000", "00 1F FC 0000 00000000"),
        ("00 1F FD 0000 00000000", "00 1F FD 0000 00000000"),
        ("00 1F FE 0000 00000000", "00 1F FE 0000 00000000"),
    ]);
}

// Broadcasts: "ignores the node byte and is never answered"; "A refused broadcast is silent."

#[test]
fn a_broadcast_is_obeyed_in_silence() {
    fresh_head_says(&[
        ("01 1F 1F 0000 00000032", "01 1F 1F 0000 00000032"),
        // "Of these A0h, A8h and AAh may be broadcast": A0h 7 calibrates, which adopts 1Fh; AAh 1 freezes, bit 8.
        ("02 63 A0 0000 00000007", "silence"),
        ("02 00 AA 0000 00000001", "silence"),
        ("00 1F 65 0000 00000000", "00 1F 65 0100 0000000B"),
        ("00 1F FE 0000 00000000", "00 1F FE 0000 00000032"),
    ]);
}

#[test]
fn a_refused_broadcast_is_silent_and_changes_nothing() {
    fresh_head_says(&[
        ("01 1F 1F 0000 00000032", "01 1F 1F 0000 00000032"),
        // "Broadcast to a parameter that allows none: silence."
        ("02 1F 20 0000 00000064", "silence"),
        ("02 1F A7 0000 00000001", "silence"),
        ("02 1F FF 0200 00000064", "silence"),
        ("02 1F 65 0000 00000000", "silence"),
        ("02 1F D2 0000 00000005", "silence"),
        // Unknown; not listed; below low; above high.
        ("02 1F 10 0000 00000000", "silence"),
        ("02 1F A0 0000 00000004", "silence"),
        ("02 1F AA 0000 00000000", "silence"),
        ("02 1F A8 0000 00000002", "silence"),
        ("00 1F 20 0000 00000000", "00 1F 20 0000 00000005"),
        ("00 1F FE 0000 00000000", "00 1F FE 0000 00000000"),
        ("00 1F FF 0000 00000000", "00 1F FF 0000 00000000"),
        // "Every error reply enters the input list", and none was sent.
        ("00 1F 96 0000 00000000", "00 1F 96 0000 00000000"),
    ]);
}

// Check 1: damaged telegrams.

/// "Three in a row raise error 0080h", and by request (iii) "error replies included" have the word after the effects,
/// so that the third shows bit 7 itself. Nothing that they ask for is done.
#[test]
fn the_third_damaged_telegram_shows_the_error_in_its_own_reply() {
    let office = fresh_head_says(&[
        ("00 1F 20 0000 00000000^01", "00 1F FD 0000 00000080"),
        ("01 1F FF 0220 00000064^80", "01 1F FD 0000 00000080"),
        ("01 1F A0 0000 00000009^FF", "01 1F FD 0080 00000080"),
        ("00 1F FD 0000 00000000", "00 1F FD 0080 00000080"),
        ("00 1F 80 0000 00000000", "00 1F 80 0080 00000001"),
        ("00 1F 81 0000 00000000", "00 1F 81 0080 00000080"),
        ("00 1F 82 0000 00000000", "00 1F 82 0080 00000000"),
        ("00 1F 96 0000 00000000", "00 1F 96 0080 00000003"),
        ("00 1F FF 0000 00000000", "00 1F FF 0080 00000000"),
    ]);
    // Request (i): "keeps the last non-zero result".
    assert_eq!(office.head().bits_hit(), 0xFF);
}

/// "Replied only if the node byte is the number in force and the command is not 02h. Every such telegram heard
/// counts, whatever its node".
#[test]
fn damaged_telegrams_count_in_silence_too() {
    fresh_head_says(&[
        ("00 05 20 0000 00000000^01", "silence"),
        ("02 1F A0 0000 00000009^01", "silence"),
        ("00 1F FD 0000 00000000^01", "00 1F FD 0080 00000080"),
        // "And the count returns to 0": two more raise nothing, the third does.
        ("01 9F 20 0000 00000000^01", "silence"),
        ("02 00 A0 0000 00000008^01", "silence"),
        ("00 1F 80 0000 00000000", "00 1F 80 0080 00000001"),
        ("00 05 20 0000 00000000^01", "silence"),
        ("00 05 20 0000 00000000^01", "silence"),
        ("00 05 20 0000 00000000^01", "silence"),
        ("00 1F 80 0000 00000000", "00 1F 80 0080 00000002"),
        // The one reply that was sent.
        ("00 1F 96 0000 00000000", "00 1F 96 0080 00000001"),
    ]);
}

/// "Any sound telegram sets it to 0": one for another node, a refused one, a broadcast, an offer.
#[test]
fn any_sound_telegram_sets_the_count_to_0() {
    for (sound, answer) in [
        ("00 05 20 0000 00000000", "silence"),
        ("00 1F 10 0000 00000000", "00 1F FD 0000 00000083"),
        ("02 00 20 0000 00000000", "silence"),
        ("01 1F D2 0000 00000005", "silence"),
    ] {
        fresh_head_says(&[
            ("00 05 20 0000 00000000^01", "silence"),
            ("00 05 20 0000 00000000^01", "silence"),
            (sound, answer),
            ("00 05 20 0000 00000000^01", "silence"),
            ("00 05 20 0000 00000000^01", "silence"),
            ("00 1F FD 0000 00000000", "00 1F FD 0000 00000000"),
        ]);
    }
}

/// Check 1 leaves out 02h alone, so that an unknown command is answered with it.
#[test]
fn a_damaged_telegram_with_an_unknown_command_is_00_80() {
    fresh_head_says(&[("07 1F 20 0000 00000000^01", "07 1F FD 0000 00000080")]);
}

/// "A full list drops its oldest": ten of eleven errors are kept. "A0h 8 empties the error memory" and leaves the
/// rest.
#[test]
fn ten_errors_are_remembered_until_a0h_8() {
    let mut office = Office::new();
    for _ in 0..33 {
        says(&mut office, &[("00 05 20 0000 00000000^01", "silence")]);
    }
    says(
        &mut office,
        &[
            ("00 1F 80 0000 00000000", "00 1F 80 0080 0000000A"),
            ("00 1F 8A 0000 00000000", "00 1F 8A 0080 00000080"),
            ("01 1F A0 0000 00000008", "01 1F A0 0080 00000008"),
            ("00 1F 80 0000 00000000", "00 1F 80 0080 00000000"),
            ("00 1F 81 0000 00000000", "00 1F 81 0080 00000000"),
            ("00 1F FD 0000 00000000", "00 1F FD 0080 00000080"),
        ],
    );
}

// Set points and the status word.

/// Request (iii): "FBh and FFh writes keep the old word". A is 0 throughout.
#[test]
fn a_set_point_write_keeps_the_old_word() {
    fresh_head_says(&[
        ("01 1F FF 0200 00000064", "01 1F FF 0000 00000064"),
        // 10 valid; outside 20h 0, "A below S with 1Bh 0".
        ("00 1F FF 0000 00000000", "00 1F FF 0401 00000064"),
        ("01 1F FF 0200 00000003", "01 1F FF 0401 00000003"),
        // 5 "distance of A and S at most 20h", which is 5; 4 static, "set at ... FFh write after which bit 5 holds".
        ("00 1F 65 0000 00000000", "00 1F 65 0430 0000000B"),
        // "Bit 4 clears the static bit, before an FFh write may set it": not set at distance 10; 6 "A above S", and
        // 1.
        ("01 1F FF 0210 FFFFFFF6", "01 1F FF 0430 FFFFFFF6"),
        ("00 1F 65 0000 00000000", "00 1F 65 0442 0000000B"),
        // Cleared and set.
        ("01 1F FF 0210 FFFFFFFF", "01 1F FF 0442 FFFFFFFF"),
        ("00 1F 65 0000 00000000", "00 1F 65 0470 0000000B"),
        // "Such a write clears it first only by control bit 4": it stays where 5 no longer holds.
        ("01 1F FF 0200 00000064", "01 1F FF 0470 00000064"),
        ("00 1F 65 0000 00000000", "00 1F 65 0411 0000000B"),
        // FBh: 2 "set point 1 valid".
        ("01 1F FB 0004 00000007", "01 1F FB 0411 00000007"),
        ("00 1F FB 0000 00000000", "00 1F FB 0415 00000007"),
        ("01 1F FB 0010 00000008", "01 1F FB 0415 00000008"),
        ("00 1F FB 0000 00000000", "00 1F FB 0401 00000008"),
        // Not valid: 4 alone is not under "only with 10", and is not set without 5.
        ("01 1F FF 0000 00000000", "01 1F FF 0401 00000000"),
        ("00 1F 65 0000 00000000", "00 1F 65 0000 0000000B"),
    ]);
}

/// "Every other reply ... carries the word after its effects."
#[test]
fn every_other_write_has_the_new_word() {
    fresh_head_says(&[
        ("01 1F FF 0200 00000064", "01 1F FF 0000 00000064"),
        // Distance 100 is at most 20h: 5. It is neither a measurement nor an FFh write, so not static.
        ("01 1F 20 0000 00000064", "01 1F 20 0420 00000064"),
        // 3 "at most 31h".
        ("01 1F 31 0000 00000064", "01 1F 31 0428 00000064"),
        ("01 1F 20 0000 00000063", "01 1F 20 0409 00000063"),
        // "0 (A below S with 1Bh 0, or A above S with 1Bh 1) or 1."
        ("01 1F 1B 0000 00000001", "01 1F 1B 040A 00000001"),
        // A 250, 150 above.
        ("01 1F 1E 0000 000000FA", "01 1F 1E 0441 000000FA"),
        ("01 1F 1B 0000 00000000", "01 1F 1B 0442 00000000"),
        // A refused one changes nothing that the word shows.
        ("01 1F 1B 0000 00000002", "01 1F FD 0442 00000282"),
    ]);
}

/// "FFh by 03h with 0 the set point, 1 the current value as FEh would show it unfrozen, 2 the differential value,
/// both after the write."
#[test]
fn an_ffh_write_is_answered_by_03h() {
    fresh_head_says(&[
        ("01 1F 03 0000 00000002", "01 1F 03 0000 00000002"),
        ("01 1F FF 0200 00000064", "01 1F FF 0000 FFFFFF9C"),
        ("01 1F 34 0000 00000001", "01 1F 34 0401 00000001"),
        ("01 1F FF 0200 00000065", "01 1F FF 0401 00000065"),
        ("01 1F 03 0000 00000001", "01 1F 03 0401 00000001"),
        // -12345 "by 10 is -1235", far below S.
        ("01 1F 1E 0000 FFFFCFC7", "01 1F 1E 0401 FFFFCFC7"),
        ("01 1F 0B 0000 00000001", "01 1F 0B 0401 00000001"),
        ("01 1F FF 0200 00000066", "01 1F FF 0401 FFFFFB2D"),
        ("00 1F FE 0000 00000000", "00 1F FE 0401 FFFFFB2D"),
        // "FEh shows A if 33h is 0, else the position", and A is divided with 33h 1 still: S - A is 102 + 1235.
        ("01 1F 33 0000 00000001", "01 1F 33 0401 00000001"),
        ("01 1F FF 0200 00000066", "01 1F FF 0401 FFFFCFC7"),
        ("00 1F FC 0000 00000000", "00 1F FC 0401 00000539"),
        // With 33h 2 it is the position itself: 102 + 12345. FBh is answered with the value written.
        ("01 1F 33 0000 00000002", "01 1F 33 0401 00000002"),
        ("00 1F FC 0000 00000000", "00 1F FC 0401 0000309F"),
        ("01 1F FB 0000 00000007", "01 1F FB 0401 00000007"),
    ]);
}

/// "12348 by 10 is 1235", and halves away from zero: 12345 is 1235 too, by 1000 it is 12, and 12500 is 13.
#[test]
fn a_is_rounded_to_nearest() {
    fresh_head_says(&[
        ("01 1F 1E 0000 0000303C", "01 1F 1E 0000 0000303C"),
        ("01 1F 0B 0000 00000001", "01 1F 0B 0000 00000001"),
        ("00 1F FE 0000 00000000", "00 1F FE 0000 000004D3"),
        ("01 1F 1E 0000 00003039", "01 1F 1E 0000 00003039"),
        ("00 1F FE 0000 00000000", "00 1F FE 0000 000004D3"),
        ("01 1F 0B 0000 00000003", "01 1F 0B 0000 00000003"),
        ("00 1F FE 0000 00000000", "00 1F FE 0000 0000000C"),
        ("01 1F 1E 0000 000030D4", "01 1F 1E 0000 000030D4"),
        ("00 1F FE 0000 00000000", "00 1F FE 0000 0000000D"),
    ]);
}

/// "Bit 5 acknowledges the error if the last taken word had it 0", of FBh and FFh together.
#[test]
fn control_bit_5_acknowledges_when_it_is_new() {
    let raised = [("00 05 20 0000 00000000^01", "silence"); 3];
    let mut office = fresh_head_says(&raised);
    says(
        &mut office,
        &[
            // Only FBh and FFh take the control word, and only a write of them.
            ("01 1F 20 0020 00000005", "01 1F 20 0080 00000005"),
            ("00 1F FB 0020 00000000", "00 1F FB 0080 00000000"),
            ("01 1F FB 0020 00000000", "01 1F FB 0080 00000000"),
            ("00 1F FD 0000 00000000", "00 1F FD 0000 00000000"),
            ("00 1F 80 0000 00000000", "00 1F 80 0000 00000001"),
        ],
    );
    says(&mut office, &raised);
    says(
        &mut office,
        &[
            ("01 1F FF 0020 00000000", "01 1F FF 0080 00000000"),
            ("00 1F FD 0000 00000000", "00 1F FD 0080 00000080"),
            ("01 1F FB 0000 00000000", "01 1F FB 0080 00000000"),
            ("01 1F FF 0020 00000000", "01 1F FF 0080 00000000"),
            ("00 1F FD 0000 00000000", "00 1F FD 0000 00000000"),
        ],
    );
}

/// "FAh reads the status word, then clears the static bit", and by request (iii) shows "the word before the static
/// bit is cleared, in the data and in the status place".
#[test]
fn fah_shows_the_static_bit_that_it_clears() {
    fresh_head_says(&[
        ("01 1F FF 0200 00000000", "01 1F FF 0000 00000000"),
        // Distance 0 is at most 31h, 0, too.
        ("00 1F FA 0000 00000000", "00 1F FA 0438 00000438"),
        ("00 1F FA 0000 00000000", "00 1F FA 0428 00000428"),
        // "Set at a measurement or FFh write": by FBh, by a write of 20h or by A7h it is not, though 5 holds.
        ("01 1F FB 0000 00000007", "01 1F FB 0428 00000007"),
        ("01 1F 20 0000 00000006", "01 1F 20 0428 00000006"),
        ("01 1F A7 0000 00000001", "01 1F A7 0428 00000001"),
        ("01 1F FF 0200 00000000", "01 1F FF 0428 00000000"),
        ("00 1F FA 0000 00000000", "00 1F FA 0438 00000438"),
    ]);
}

/// "AAh keeps the value FEh would now show unfrozen until FEh is next read; that read shows the kept value and
/// releases it", and by request (iii) "shows bit 8 as 0".
#[test]
fn feh_after_aah_shows_the_kept_value_and_releases_it() {
    fresh_head_says(&[
        ("01 1F 1E 0000 0000000A", "01 1F 1E 0000 0000000A"),
        ("01 1F AA 0000 00000001", "01 1F AA 0100 00000001"),
        ("01 1F 1E 0000 00000014", "01 1F 1E 0100 00000014"),
        ("00 1F FE 0000 00000000", "00 1F FE 0000 0000000A"),
        ("00 1F FE 0000 00000000", "00 1F FE 0000 00000014"),
        // "A second AAh keeps anew"; neither 0Bh nor FFh's answer by 03h 1 has anything to do with what is kept.
        ("01 1F AA 0000 00000001", "01 1F AA 0100 00000001"),
        ("01 1F 1E 0000 0000001E", "01 1F 1E 0100 0000001E"),
        ("01 1F AA 0000 00000001", "01 1F AA 0100 00000001"),
        ("01 1F 0B 0000 00000001", "01 1F 0B 0100 00000001"),
        ("01 1F 03 0000 00000001", "01 1F 03 0100 00000001"),
        ("01 1F FF 0000 00000000", "01 1F FF 0100 00000003"),
        ("00 1F FE 0000 00000000", "00 1F FE 0000 0000001E"),
        ("00 1F FE 0000 00000000", "00 1F FE 0000 00000003"),
        // "AAh (1)".
        ("01 1F AA 0000 00000000", "01 1F FD 0000 00000182"),
        ("01 1F AA 0000 00000002", "01 1F FD 0000 00000282"),
    ]);
}

/// "Calibration makes m the zero and adopts 1Fh", by A7h and A0h 7; "Adopting 1Fh when written instead of when
/// calibrating" is an error that others made. The word is that after it, and it is no FFh write, so not static.
#[test]
fn calibration_adopts_1fh() {
    fresh_head_says(&[
        ("01 1F FF 0200 00000032", "01 1F FF 0000 00000032"),
        ("01 1F 1F 0000 00000032", "01 1F 1F 0401 00000032"),
        ("00 1F FE 0000 00000000", "00 1F FE 0401 00000000"),
        ("01 1F A7 0000 00000001", "01 1F A7 0428 00000001"),
        ("00 1F FE 0000 00000000", "00 1F FE 0428 00000032"),
        ("01 1F 1F 0000 FFFFFFCE", "01 1F 1F 0428 FFFFFFCE"),
        ("00 1F FE 0000 00000000", "00 1F FE 0428 00000032"),
        ("01 1F A0 0000 00000007", "01 1F A0 0401 00000007"),
        ("00 1F FE 0000 00000000", "00 1F FE 0401 FFFFFFCE"),
        // "A7h (1)".
        ("01 1F A7 0000 00000000", "01 1F FD 0401 00000182"),
        ("01 1F A7 0000 00000002", "01 1F FD 0401 00000282"),
    ]);
}

// Restart and resets.

/// "00h to 12: 31 still speaks and reads 12; after A0h 9 only 12", and by request (iii) "After A0h 9 it is the word
/// before the restart".
#[test]
fn a0h_9_takes_a_new_number_into_force() {
    fresh_head_says(&[
        ("01 1F 00 0000 0000000C", "01 1F 00 0000 0000000C"),
        ("00 0C 00 0000 00000000", "silence"),
        ("00 1F 00 0000 00000000", "00 1F 00 0000 0000000C"),
        ("01 1F FF 0200 00000064", "01 1F FF 0000 00000064"),
        ("01 1F AA 0000 00000001", "01 1F AA 0501 00000001"),
        ("00 1F 10 0000 00000000", "00 1F FD 0501 00000083"),
        ("01 1F A0 0000 00000009", "01 1F A0 0501 00000009"),
        ("00 1F 00 0000 00000000", "silence"),
        ("00 0C 00 0000 00000000", "00 0C 00 0000 0000000C"),
        // "Clears everything else: set points 0 and invalid, ... input list, ... freezing".
        ("00 0C FF 0000 00000000", "00 0C FF 0000 00000000"),
        ("00 0C 96 0000 00000000", "00 0C 96 0000 00000000"),
        // Request (ii): "number in force not 31 gives 00 85, in check 6's place", so before the range and after a
        // read's 02 84.
        ("01 0C D2 0000 00000005", "01 0C FD 0000 00000085"),
        ("01 0C D2 0000 00000000", "01 0C FD 0000 00000085"),
        ("00 0C D2 0000 00000000", "00 0C FD 0000 00000284"),
        // "A0h: 1 all 39 to the manual's default, 00h to 31", in force after a restart, here by broadcast.
        ("01 0C A0 0000 00000001", "01 0C A0 0000 00000001"),
        ("00 0C 00 0000 00000000", "00 0C 00 0000 0000001F"),
        ("02 00 A0 0000 00000009", "silence"),
        ("00 0C 00 0000 00000000", "silence"),
        ("00 1F 00 0000 00000000", "00 1F 00 0000 0000001F"),
    ]);
}

/// "Takes 00h and 01h into force."
#[test]
fn a0h_9_takes_a_new_baud_rate_into_force() {
    let mut office = fresh_head_says(&[("01 1F 01 0000 00000002", "01 1F 01 0000 00000002")]);
    assert_eq!(office.head().baud_in_force(), 1);
    says(&mut office, &[("01 1F A0 0000 00000009", "01 1F A0 0000 00000009")]);
    assert_eq!(office.head().baud_in_force(), 2);
}

/// "Restart: keeps the 39, interlock, error memory, calibration", and clears "pending error, counts".
#[test]
fn a_restart_keeps_the_error_memory_and_the_calibration() {
    fresh_head_says(&[
        ("01 1F 1F 0000 00000032", "01 1F 1F 0000 00000032"),
        ("01 1F A7 0000 00000001", "01 1F A7 0000 00000001"),
        ("00 05 20 0000 00000000^01", "silence"),
        ("00 05 20 0000 00000000^01", "silence"),
        ("00 05 20 0000 00000000^01", "silence"),
        ("01 1F FB 0020 00000000", "01 1F FB 0080 00000000"),
        ("00 05 20 0000 00000000^01", "silence"),
        ("00 05 20 0000 00000000^01", "silence"),
        ("00 05 20 0000 00000000^01", "silence"),
        ("01 1F A0 0000 00000009", "01 1F A0 0080 00000009"),
        ("00 1F FD 0000 00000000", "00 1F FD 0000 00000000"),
        ("00 1F 80 0000 00000000", "00 1F 80 0000 00000002"),
        ("00 1F FE 0000 00000000", "00 1F FE 0000 00000032"),
        ("00 05 20 0000 00000000^01", "silence"),
        ("00 05 20 0000 00000000^01", "silence"),
        ("00 05 20 0000 00000000^01", "silence"),
        // "Taken control word 0": bit 5 is new again.
        ("01 1F FB 0020 00000000", "01 1F FB 0080 00000000"),
        ("00 1F FD 0000 00000000", "00 1F FD 0000 00000000"),
    ]);
}

/// "A0h: 1 all 39 to the manual's default, 00h to 31; 2 all but the bus six; 5 the bus six." "Bus parameters: 00, 01,
/// 02, 03, 0E, D0." Each row is first given a value that is not its default; 0Eh last, with the interlock open.
#[test]
fn each_reset_has_its_rows() {
    let is_of_the_bus = |address| [0x00, 0x01, 0x02, 0x03, 0x0E, 0xD0].contains(&address);
    let rows: Vec<_> = table().into_iter().filter(|row| row.0 != 0x35).collect();
    for number in [1, 2, 5] {
        let mut office = fresh_head_says(&[("01 1F A8 0000 00000001", "01 1F A8 0000 00000001")]);
        let mut exchange = |command: u8, address: u8, data: i64| {
            let fields = format!("{command:02X} 1F {address:02X} 0000 {:08X}", data as u32);
            let reply = office.answer(spelt(&fields).as_bytes()).unwrap();
            i64::from(i32::from_str_radix(&reply[10..18], 16).unwrap())
        };
        for &(address, low, high, default) in &rows {
            let other = if default == high { low } else { high };
            assert_eq!(exchange(WRITE, address, other), other, "{address:02X}h");
        }
        exchange(WRITE, 0xA0, number);
        for &(address, low, high, default) in &rows {
            let is_reset = number == 1 || (number == 5) == is_of_the_bus(address);
            let other = if default == high { low } else { high };
            let expected = if is_reset { default } else { other };
            assert_eq!(exchange(READ, address, 0), expected, "A0h {number}: {address:02X}h");
        }
    }
}

/// "A0h (1, 2, 5, 7, 8, 9)".
#[test]
fn system_commands_that_are_not_listed() {
    for (value, code) in [(0, 0x0182), (3, 0x0082), (4, 0x0082), (6, 0x0082), (10, 0x0282), (-1, 0x0282)] {
        assert_eq!(code_of_fresh_head(WRITE, 0xA0, value), Some(code), "{value}");
    }
}

// Locks.

/// "0Eh is 1 and the interlock closed, and the write or broadcast is to one of the 39 or A0h: 03 85. A8h is never
/// locked".
#[test]
fn a_locked_head_refuses_the_39_and_a0h() {
    fresh_head_says(&[
        ("01 1F 0E 0000 00000001", "01 1F 0E 0000 00000001"),
        // "Locked write out of range: 03 85", and a command that is not listed.
        ("01 1F 04 0000 0000005A", "01 1F FD 0000 00000385"),
        ("01 1F 0E 0000 00000000", "01 1F FD 0000 00000385"),
        ("01 1F A0 0000 00000009", "01 1F FD 0000 00000385"),
        ("01 1F A0 0000 00000004", "01 1F FD 0000 00000385"),
        ("02 00 A0 0000 00000001", "silence"),
        ("00 1F 0E 0000 00000000", "00 1F 0E 0000 00000001"),
        // Checks 3 to 5 come before it.
        ("03 1F 04 0000 00000000", "03 1F FD 0000 00000084"),
        ("01 1F 10 0000 00000000", "01 1F FD 0000 00000083"),
        ("01 1F 65 0000 00000000", "01 1F FD 0000 00000184"),
        ("00 1F A0 0000 00000000", "00 1F FD 0000 00000284"),
        // What is neither of the 39 nor A0h.
        ("01 1F FF 0200 00000064", "01 1F FF 0000 00000064"),
        ("01 1F A7 0000 00000001", "01 1F A7 0401 00000001"),
        ("01 1F AA 0000 00000001", "01 1F AA 0501 00000001"),
        ("01 1F D2 0000 00000005", "silence"),
        // "A8h 1 opens the interlock, 0 closes it"; it may be broadcast.
        ("02 00 A8 0000 00000001", "silence"),
        ("01 1F 04 0000 0000003C", "01 1F 04 0501 0000003C"),
        // "And a restart keeps it."
        ("01 1F A0 0000 00000009", "01 1F A0 0501 00000009"),
        ("01 1F 04 0000 0000003B", "01 1F 04 0000 0000003B"),
        ("01 1F A8 0000 00000002", "01 1F FD 0000 00000282"),
        ("01 1F A8 0000 00000000", "01 1F A8 0000 00000000"),
        ("01 1F 04 0000 0000003C", "01 1F FD 0000 00000385"),
        ("00 1F 04 0000 00000000", "00 1F 04 0000 0000003B"),
    ]);
}

/// "New heads are closed", and closed without 0Eh it locks nothing; "no reset touches it".
#[test]
fn the_interlock_needs_0eh() {
    fresh_head_says(&[
        ("01 1F 04 0000 00000006", "01 1F 04 0000 00000006"),
        ("01 1F A8 0000 00000001", "01 1F A8 0000 00000001"),
        ("01 1F A0 0000 00000001", "01 1F A0 0000 00000001"),
        ("01 1F 0E 0000 00000001", "01 1F 0E 0000 00000001"),
        ("01 1F 04 0000 00000007", "01 1F 04 0000 00000007"),
    ]);
}

// The input list.

/// "96h takes its number in the first data byte and returns it there: 0 gives the count, n the nth oldest code in the
/// low bytes." "For 96h a number above the count: 02 82."
#[test]
fn input_errors_are_read_by_number() {
    let mut office = fresh_head_says(&[
        ("00 1F 96 0000 01000000", "00 1F FD 0000 00000282"),
        // "Every error reply enters the input list", that one too.
        ("00 1F 96 0000 01000000", "00 1F 96 0000 01000282"),
        ("00 1F 63 0000 00000000", "00 1F FD 0000 00000083"),
        ("00 1F 96 0000 00ABCDEF", "00 1F 96 0000 00000002"),
        ("00 1F 96 0000 02FFFFFF", "00 1F 96 0000 02000083"),
        ("00 1F 96 0000 03000000", "00 1F FD 0000 00000282"),
        ("00 1F 96 0000 FF000000", "00 1F FD 0000 00000282"),
        ("00 1F 96 0000 00000000", "00 1F 96 0000 00000004"),
        ("01 1F 96 0000 00000000", "01 1F FD 0000 00000184"),
    ]);
    // Five so far; the eleventh drops the first, 02 82.
    for _ in 0..6 {
        says(&mut office, &[("07 1F 00 0000 00000000", "07 1F FD 0000 00000084")]);
    }
    says(
        &mut office,
        &[
            ("00 1F 96 0000 00000000", "00 1F 96 0000 0000000A"),
            ("00 1F 96 0000 01000000", "00 1F 96 0000 01000083"),
            ("00 1F 96 0000 04000000", "00 1F 96 0000 04000184"),
            ("00 1F 96 0000 0A000000", "00 1F 96 0000 0A000084"),
            ("00 1F 96 0000 0B000000", "00 1F FD 0000 00000282"),
            ("00 1F 96 0000 01000000", "00 1F 96 0000 01000282"),
        ],
    );
}

// Auto-ID.

fn offered(office: &Office) -> Option<u8> {
    office.head().number_on_offer()
}

/// Request (ii): "A write of D2h, 1 to 31, to a head whose number in force is 31 is remembered without a reply."
#[test]
fn an_offer_is_silent_and_remembered() {
    let mut office = fresh_head_says(&[("01 1F D2 0000 00000005", "silence")]);
    assert_eq!(offered(&office), Some(5));
    // Whatever is refused for another reason than the range leaves it, and so does what is for others.
    says(
        &mut office,
        &[
            ("00 1F D2 0000 00000000", "00 1F FD 0000 00000284"),
            ("02 1F D2 0000 00000000", "silence"),
            ("03 1F D2 0000 00000000", "03 1F FD 0000 00000084"),
            ("01 05 D2 0000 00000000", "silence"),
            ("01 1F D2 0000 00000000^01", "01 1F FD 0000 00000080"),
            ("01 1F 00 0000 00000000", "01 1F FD 0000 00000182"),
            ("01 1F A0 0000 00000001", "01 1F A0 0000 00000001"),
        ],
    );
    assert_eq!(offered(&office), Some(5));
    says(&mut office, &[("01 1F D2 0000 0000001F", "silence")]);
    assert_eq!(offered(&office), Some(31));
}

/// "To a head whose number in force is 31", whatever 00h has stored.
#[test]
fn an_offer_goes_by_the_number_in_force() {
    let office = fresh_head_says(&[
        ("01 1F 00 0000 0000000C", "01 1F 00 0000 0000000C"),
        ("01 1F D2 0000 00000005", "silence"),
    ]);
    assert_eq!(offered(&office), Some(5));
    fresh_head_says(&[
        ("01 1F 00 0000 0000000C", "01 1F 00 0000 0000000C"),
        ("01 1F A0 0000 00000009", "01 1F A0 0000 00000009"),
        ("01 0C 00 0000 0000001F", "01 0C 00 0000 0000001F"),
        ("01 0C D2 0000 00000005", "01 0C FD 0000 00000085"),
    ]);
}

/// "A value outside the range drops the offer"; "the range gives 01 82 or 02 82". "A restart drops it too."
#[test]
fn a_number_out_of_range_and_a_restart_drop_the_offer() {
    for (telegram, answer) in [
        ("01 1F D2 0000 00000000", "01 1F FD 0000 00000182"),
        ("01 1F D2 0000 00000020", "01 1F FD 0000 00000282"),
        ("01 1F D2 0000 00000105", "01 1F FD 0000 00000282"),
        ("01 1F D2 0000 FFFFFFFF", "01 1F FD 0000 00000282"),
        ("01 1F A0 0000 00000009", "01 1F A0 0000 00000009"),
        ("02 00 A0 0000 00000009", "silence"),
    ] {
        let office = fresh_head_says(&[("01 1F D2 0000 00000005", "silence"), (telegram, answer)]);
        assert_eq!(offered(&office), None, "{telegram}");
    }
}

// Alpha-numeric display, request (ix).

#[test]
fn mode_3_shows_characters_and_acknowledgements() {
    fresh_head_says(&[
        // "Value 3 of 28h is accepted, so 28h runs 0..3."
        ("01 1F 28 0000 00000004", "01 1F FD 0000 00000282"),
        ("01 1F 28 0000 00000003", "01 1F 28 0000 00000003"),
        // "Numbers or four characters, ... by bit 7 of the last taken control word, shown in status bit 9."
        ("01 1F FB 0084 4A4F4237", "01 1F FB 0000 4A4F4237"),
        ("00 1F FA 0000 00000000", "00 1F FA 0204 00000204"),
        // "Then control word bits 10 and 6 give it, for 1 and 2": 6 for set point 2, shown in 5. S 0 lies in all
        // windows at A 0, but "nothing sets the static bit", and 3 is not 31h's.
        ("01 1F FF 0240 00000000", "01 1F FF 0204 00000000"),
        ("00 1F FA 0000 00000000", "00 1F FA 0424 00000424"),
        // "A write of a set point withdraws its acknowledgement"; 10 gives it to set point 1, shown in 3. "Status
        // bits 0, 1, 4 and 6 are 0", though A lies far below S.
        ("01 1F FF 0600 00000064", "01 1F FF 0424 00000064"),
        ("00 1F FA 0000 00000000", "00 1F FA 040C 0000040C"),
        // "To valid ones only": set point 1 is made invalid. A word of FBh gives it to set point 2 as well.
        ("01 1F FB 0440 00000001", "01 1F FB 040C 00000001"),
        ("00 1F FA 0000 00000000", "00 1F FA 0420 00000420"),
        // "Bits 3 and 5 do not wait for bit 10": set point 2 invalid, set point 1 acknowledged.
        ("01 1F FF 0000 00000000", "01 1F FF 0420 00000000"),
        ("01 1F FB 0404 00000001", "01 1F FB 0000 00000001"),
        ("00 1F FA 0000 00000000", "00 1F FA 000C 0000000C"),
    ]);
}

/// "Entering or leaving mode 3, by write, reset or sheet, makes both set points invalid and unacknowledged and clears
/// the static bit." By request (iii) the reply has the word after that.
#[test]
fn a_step_into_mode_3_or_out_of_it_makes_set_points_invalid() {
    for (step_out, answer) in [
        ("01 1F 28 0000 00000000", "01 1F 28 0000 00000000"),
        ("01 1F 28 0000 00000002", "01 1F 28 0000 00000002"),
        ("01 1F A0 0000 00000001", "01 1F A0 0000 00000001"),
        ("01 1F A0 0000 00000002", "01 1F A0 0000 00000002"),
        ("02 00 A0 0000 00000002", "silence"),
    ] {
        fresh_head_says(&[
            ("01 1F FB 0004 00000007", "01 1F FB 0000 00000007"),
            ("01 1F FF 0200 00000000", "01 1F FF 0004 00000000"),
            ("00 1F 65 0000 00000000", "00 1F 65 043C 0000000B"),
            ("01 1F 28 0000 00000003", "01 1F 28 0000 00000003"),
            ("01 1F FB 0404 00000008", "01 1F FB 0000 00000008"),
            ("01 1F FF 0240 00000003", "01 1F FF 000C 00000003"),
            ("00 1F 65 0000 00000000", "00 1F 65 042C 0000000B"),
            // 3 over 3 and the bus parameters' reset are no steps.
            ("01 1F 28 0000 00000003", "01 1F 28 042C 00000003"),
            ("01 1F A0 0000 00000005", "01 1F A0 042C 00000005"),
            (step_out, answer),
            ("00 1F FA 0000 00000000", "00 1F FA 0000 00000000"),
            // The numbers stay.
            ("00 1F FB 0000 00000000", "00 1F FB 0000 00000008"),
            ("00 1F FF 0000 00000000", "00 1F FF 0000 00000003"),
        ]);
    }
}

/// Outside, 28h 0 to 2, nothing of this: bits 6, 7 and 10 of the control word do nothing, and "status bit 9 stays 0
/// outside mode 3" by request (xii).
#[test]
fn outside_mode_3_nothing_is_acknowledged() {
    fresh_head_says(&[
        ("01 1F FB 04C4 00000007", "01 1F FB 0000 00000007"),
        ("01 1F FF 06C0 00000064", "01 1F FF 0004 00000064"),
        ("01 1F 28 0000 00000002", "01 1F 28 0405 00000002"),
        ("01 1F 28 0000 00000001", "01 1F 28 0405 00000001"),
    ]);
}

// Lines.

fn answers_to(text: &[u8]) -> String {
    let mut output = Vec::new();
    reference::office::run(text, &mut output).unwrap();
    String::from_utf8(output).unwrap()
}

const READ_20H: &str = "001F200000000000003F";
const REPLY_20H: &str = "001F200000000000053A\n";

#[test]
fn digits_of_either_case_between_blanks_and_tabs() {
    for line in ["001F200000000000003F", "001f200000000000003f", " \t001F200000000000003f\t  "] {
        for ending in ["\n", "\r\n", "", "\r"] {
            assert_eq!(answers_to(format!("{line}{ending}").as_bytes()), REPLY_20H, "{line:?} {ending:?}");
        }
    }
}

#[test]
fn replies_are_upper_case() {
    // 01 ^ 1F ^ FF ^ FF ^ FF ^ FF ^ FE = E0.
    assert_eq!(answers_to(b"011fff0000fffffffee0\n"), "011FFF0000FFFFFFFEE0\n");
}

#[test]
fn blank_lines_and_comments_draw_nothing_and_count() {
    let text = "\n \t \n\r\n# x\n  #001F200000000000003F\n#\n\t#\r\nx\n001F200000000000003F";
    assert_eq!(answers_to(text.as_bytes()), format!("error at line 8: not twenty hex digits\n{REPLY_20H}"));
    assert_eq!(answers_to(b""), "");
    assert_eq!(answers_to(b"\n"), "");
    assert_eq!(answers_to(b"\r"), "");
}

#[test]
fn whatever_is_not_one_word_of_twenty_digits_is_an_error() {
    let lines = b"x|0|001F200000000000003|001F200000000000003F0|001F200000000000003F00|001F200000000000003G|\
        0x1F200000000000003F|001F200000000000003F #|001F200000000000003F#|001F200000000000003F x|\
        001F 200000000000003F|00 1F 20 00 00 00 00 00 00 3F|001F200000000000003F 001F200000000000003F|\
        001F200000000000003F,|+01F200000000000003F|-001F200000000000003F|001F200000000000003F\r\r|\
        001F200000000000003F\r |\r001F200000000000003F|\r |\x0B|\x0C001F200000000000003F|\0|\xA0|\
        001F200000000000003F\0|001F20000000000000\xD9\xA0|\xEF\xBB\xBF001F200000000000003F|\xEF\xBB\xBF|silence|help";
    for line in lines.split(|&byte| byte == b'|') {
        let text = [line, b"\n"].concat();
        let answer = "error at line 1: not twenty hex digits\n";
        assert_eq!(answers_to(&text), answer, "{}", line.escape_ascii());
    }
}

/// "Then the head is not touched and the program goes on": the two damaged ones are still in a row.
#[test]
fn an_error_does_not_touch_the_head() {
    let damaged = "001F200000000000003E\n";
    let reply = "001FFD00000000008062\n";
    let text = format!("{damaged}{damaged}001F200000000000003F 0\n{damaged}");
    let third = "001FFD008000000080E2\n";
    let error = "error at line 3: not twenty hex digits\n";
    assert_eq!(answers_to(text.as_bytes()), format!("{reply}{reply}{error}{third}"));
}

#[test]
fn a_line_has_up_to_4096_bytes() {
    let error = "error at line 1: not twenty hex digits\n";
    for (length, ending, is_answered) in [
        (4_096, "\n", true),
        (4_096, "\r\n", true),
        (4_096, "", true),
        (4_096, "\r", true),
        (4_097, "\n", false),
        (4_097, "\r\n", false),
        (4_097, "", false),
        (60_000, "\r\n", false),
    ] {
        let line = |begun: &str| format!("{begun:<length$}{ending}");
        let expected = |answer: &str| if is_answered { answer.to_string() } else { error.to_string() };
        assert_eq!(answers_to(line(READ_20H).as_bytes()), expected(REPLY_20H), "{length} {ending:?}");
        // "Also where it would be passed over."
        assert_eq!(answers_to(line("#").as_bytes()), expected(""), "{length} {ending:?}");
        assert_eq!(answers_to(line("").as_bytes()), expected(""), "{length} {ending:?}");
    }
}

// The program.

fn run_office(text: &[u8]) -> Output {
    let mut child = Command::new(env!("CARGO_BIN_EXE_reference"))
        .arg("office")
        .stdin(Stdio::piped())
        .stdout(Stdio::piped())
        .stderr(Stdio::piped())
        .spawn()
        .unwrap();
    child.stdin.take().unwrap().write_all(text).unwrap();
    child.wait_with_output().unwrap()
}

#[test]
fn the_program_ends_well_and_quietly_whatever_the_lines_are() {
    let text = b"# desk\r\n001F200000000000003F\r\n00012000000000000021\nx\n011F0400000000005A40";
    let output = run_office(text);
    let answers =
        "001F200000000000053A\nsilence\nerror at line 4: not twenty hex digits\n011FFD00000000028263\n";
    assert_eq!(String::from_utf8_lossy(&output.stdout), answers);
    assert_eq!(output.stderr, b"");
    assert_eq!(output.status.code(), Some(0));
    let output = run_office(b"");
    assert_eq!((output.stdout, output.stderr, output.status.code()), (Vec::new(), Vec::new(), Some(0)));
}

/// All at time 0, serial 0.
#[test]
fn the_head_is_the_factory_head() {
    let office = Office::new();
    assert_eq!(format!("{:?}", office.head()), format!("{:?}", Head::factory(0)));
    let office = fresh_head_says(&[("00 05 20 0000 00000000", "silence")]);
    assert_eq!(office.head().monitor_started_at(), Some(0));
}

// The engine and the byte-fed head agree.

/// All that a head holds, but for the time of the last byte, which means nothing without bytes gathered.
fn held(head: &Head) -> String {
    let text = format!("{head:?}");
    let (before, after) = text.split_once("last_byte_at: ").expect("a head keeps that time");
    before.to_string() + after.trim_start_matches(|digit: char| digit.is_ascii_digit())
}

type Gaps = [u32; TELEGRAM_LENGTH - 1];

/// In ms, between the bytes of a telegram: none, the longest, and some.
const GAPS: [Gaps; 3] = [[0; 9], [10; 9], [0, 1, 9, 10, 5, 10, 0, 10, 3]];

/// Feeds the bytes one by one so that the last comes at this time, and gives the reply to it.
fn fed(head: &mut Head, time: u32, gaps: &Gaps, bytes: [u8; TELEGRAM_LENGTH]) -> Option<Reply> {
    let mut now = time.wrapping_sub(gaps.iter().sum());
    for (byte, gap) in bytes.iter().zip(gaps) {
        assert_eq!(head.byte(now, *byte), None, "no reply comes before the last byte");
        now = now.wrapping_add(*gap);
    }
    assert_eq!(now, time);
    head.byte(now, bytes[9])
}

/// The same telegram to two equal heads, at once to the first and byte by byte to the second.
fn agree(heads: &mut [Head; 2], time: u32, gaps: &Gaps, bytes: [u8; TELEGRAM_LENGTH]) -> Option<Reply> {
    let before = heads[0].clone();
    let reply = engine::answer(&mut heads[0], time, bytes);
    let reply_of_bytes = fed(&mut heads[1], time, gaps, bytes);
    let case = || format!("{} at {time} to {before:?}", hex(&bytes));
    assert_eq!(reply.map(|reply| hex(&reply)), reply_of_bytes.map(|reply| hex(&reply)), "{}", case());
    assert_eq!(held(&heads[0]), held(&heads[1]), "{}", case());
    reply
}

/// One that has some of everything, at 31, in or out of mode 3.
fn with_a_past(mode: u32) -> Head {
    let mut head = Head::factory(4_711);
    let mut write = |parameter, control_word, data: i32| {
        fed(&mut head, 7, &GAPS[1], Telegram::new(WRITE, 31, parameter, control_word, data as u32).bytes());
    };
    write(0x28, 0, mode as i32);
    write(0x1F, 0, -70);
    write(0xA7, 0, 1);
    write(0xFB, 0x0404, 1_234);
    write(0xFF, 0x02E0, -72);
    write(0xAA, 0, 1);
    write(0x02, 0, 3);
    write(0x00, 0, 12);
    write(0xD2, 0, 5);
    write(0x63, 0, 0);
    write(0x0E, 0, 1);
    write(0x0E, 0, 0);
    head.tick(5_000);
    head.set_keys(2);
    head.measure(-3);
    let mut damaged = Telegram::new(READ, 31, 0x20, 0, 0).bytes();
    damaged[9] ^= 0x55;
    fed(&mut head, 6_000, &GAPS[0], damaged);
    fed(&mut head, 6_000, &GAPS[0], damaged);
    head
}

/// Fresh ones, locked ones and such that have a past.
fn all_sorts_of_heads() -> Vec<Head> {
    let mut unlocked = with_a_past(1);
    fed(&mut unlocked, 0, &GAPS[0], Telegram::new(WRITE, 31, 0xA8, 0, 1).bytes());
    vec![Head::factory(0), Head::new(12, 1), with_a_past(0), with_a_past(3), unlocked]
}

/// About every limit of document 01, in 32 bits with and without a sign, and in the first byte for 96h.
const EDGES: [u32; 43] = [
    0, 1, 2, 3, 4, 5, 6, 7, 8, 9, 10, 20, 21, 31, 32, 60, 61, 127, 128, 9_999, 10_000, 19_999, 20_000,
    65_535, 65_536, 99_999, 100_000, 5_242_880, 0x01000000, 0x02000000, 0x03000000, 0x0A000000, 0x0B000000,
    0x7FFFFFFF, 0x80000000, 0xFFFFFFFF, 0xFFFFFFBA, 0xFFFFFFB8, 0xFFFFFF9C, 0xFFFFB1E1, 0xFFFFB1E0,
    0xFFFFB1DF, 0xFFAFFFFF,
];

/// Every parameter with every sort of command and values about every limit.
#[test]
fn every_telegram_about_the_limits_agrees() {
    for head in all_sorts_of_heads() {
        for parameter in 0..=0xFF {
            for (number, data) in EDGES.iter().enumerate() {
                for command in [READ, WRITE, BROADCAST, 3 + number as u8] {
                    let control_word = (number as u16).wrapping_mul(0x9E37) ^ u16::from(parameter) << 4;
                    let node = head.number_in_force();
                    let bytes = Telegram::new(command, node, parameter, control_word, *data).bytes();
                    agree(&mut [head.clone(), head.clone()], number as u32, &GAPS[number % 3], bytes);
                }
            }
        }
    }
}

/// Of every node, sound and with each bit hit; a third damaged one in a row among them.
#[test]
fn every_node_and_every_bit_that_is_hit_agrees() {
    for head in all_sorts_of_heads() {
        for node in 0..=0xFF {
            for command in [READ, WRITE, BROADCAST, 3] {
                let sound = Telegram::new(command, node, 0xAA, 0, 1).bytes();
                agree(&mut [head.clone(), head.clone()], u32::MAX, &GAPS[1], sound);
            }
        }
        for (command, parameter, data) in
            [(READ, 0xFA, 0), (WRITE, 0xA0, 9), (WRITE, 0xFF, 7), (BROADCAST, 0xAA, 1)]
        {
            for bit in 0..8 * TELEGRAM_LENGTH {
                let mut hit = Telegram::new(command, head.number_in_force(), parameter, 0x0200, data).bytes();
                hit[bit / 8] ^= 1 << (bit % 8);
                let mut heads = [head.clone(), head.clone()];
                for _ in 0..4 {
                    agree(&mut heads, 0, &GAPS[2], hit);
                }
            }
        }
    }
}

/// What is gathered, however little, is dropped, as if it had not been heard.
#[test]
fn bytes_gathered_are_dropped() {
    let telegram = Telegram::new(WRITE, 31, 0x20, 0, 7).bytes();
    for count in 0..TELEGRAM_LENGTH {
        for head in all_sorts_of_heads() {
            let mut begun = head.clone();
            telegram[..count].iter().for_each(|byte| assert_eq!(begun.byte(50, *byte), None));
            assert_eq!(begun.gathered_count(), count);
            let mut clear = head;
            let replies = [&mut begun, &mut clear].map(|head| engine::answer(head, 55, telegram));
            assert_eq!(replies[0], replies[1]);
            assert_eq!(held(&begun), held(&clear));
            assert_eq!(begun.gathered_count(), 0);
        }
    }
}

/// splitmix64.
struct Dice(u64);

impl Dice {
    fn next(&mut self) -> u64 {
        self.0 = self.0.wrapping_add(0x9E37_79B9_7F4A_7C15);
        let mut mixed = self.0;
        mixed = (mixed ^ (mixed >> 30)).wrapping_mul(0xBF58_476D_1CE4_E5B9);
        mixed = (mixed ^ (mixed >> 27)).wrapping_mul(0x94D0_49BB_1331_11EB);
        mixed ^ (mixed >> 31)
    }

    fn below(&mut self, bound: u32) -> u32 {
        (self.next() % u64::from(bound)) as u32
    }

    fn between(&mut self, low: i32, high: i32) -> i32 {
        low + self.below((high - low + 1) as u32) as i32
    }

    fn chance(&mut self, percent: u32) -> bool {
        self.below(100) < percent
    }

    fn pick<T: Copy>(&mut self, from: &[T]) -> T {
        from[self.below(from.len() as u32) as usize]
    }
}

/// The parameters that do most, some of them more than once.
const BUSY: [u8; 40] = [
    0x00, 0x02, 0x03, 0x03, 0x0B, 0x0B, 0x0E, 0x1B, 0x1E, 0x1E, 0x1F, 0x20, 0x28, 0x28, 0x31, 0x33, 0x33,
    0x34, 0x35, 0x3E, 0x80, 0x81, 0x8A, 0x96, 0x96, 0xA0, 0xA0, 0xA7, 0xA8, 0xA8, 0xAA, 0xAA, 0xD2, 0xFA,
    0xFB, 0xFB, 0xFD, 0xFE, 0xFF, 0xFF,
];

fn random_parameter(dice: &mut Dice) -> u8 {
    match dice.below(10) {
        0 => dice.next() as u8,
        1 => dice.pick(&ROWS).address,
        2..=3 => dice.pick(&[0xFF, 0xFF, 0xFB, 0xFA, 0xFE, 0xAA]),
        _ => dice.pick(&BUSY),
    }
}

/// Mostly such that the parameter takes it, and that A stays near S.
fn random_data(dice: &mut Dice, parameter: u8) -> u32 {
    match (parameter, dice.below(8)) {
        (_, 0) => dice.next() as u32,
        (_, 1) => dice.pick(&EDGES),
        (0x96, _) => dice.below(13) << 24 | dice.pick(&[0, 0, 0x00FF_FFFF]),
        (0xA0, _) => dice.pick(&[0, 1, 2, 2, 3, 5, 6, 7, 7, 7, 8, 9, 9, 10]),
        (0xD2, _) => dice.pick(&[0, 1, 5, 12, 30, 31, 31, 32]),
        (0x00, _) => dice.pick(&[12, 31, 31, 31, 31, 127, 128, 0]),
        (0x1E | 0x1F, 2..=4) => dice.between(-20_001, 20_001) as u32,
        (0x1E | 0x1F | 0xFB | 0xFF, _) => dice.between(-20, 20) as u32,
        (0x20 | 0x31, _) => dice.below(25),
        _ => dice.below(5),
    }
}

fn random_telegram(dice: &mut Dice, head: &Head) -> [u8; TELEGRAM_LENGTH] {
    let command = match dice.below(20) {
        0 => dice.pick(&[3, 4, 0x80, 0xFF]),
        1..=2 => BROADCAST,
        3..=8 => READ,
        _ => WRITE,
    };
    let node = match dice.below(20) {
        0 => dice.next() as u8,
        1 => dice.pick(&[0, 12, 31, 159, head.value(0x00) as u8]),
        _ => head.number_in_force(),
    };
    let parameter = random_parameter(dice);
    let control_word = if dice.chance(80) { dice.next() as u16 } else { 0 };
    let data = random_data(dice, parameter);
    let mut bytes = Telegram::new(command, node, parameter, control_word, data).bytes();
    if dice.chance(15) {
        bytes[dice.below(10) as usize] ^= 1 << dice.below(8);
    }
    bytes
}

/// Something else than a telegram, the same for both heads.
fn random_call(dice: &mut Dice, heads: &mut [Head; 2], time: u32) {
    let (what, number, near) = (dice.below(20), dice.next() as u32, dice.between(-20, 20));
    for head in heads {
        match what {
            0 => head.restart(),
            1..=3 => drop(head.set_keys((number % 8) as u8)),
            4..=6 => head.tick(time),
            7 => head.load(&written(&[Setting { address: 0x28, value: number % 4 }])).unwrap(),
            8 => head.measure((number % 5_000_001) as i32 - HIGHEST_MEASUREMENT),
            9..=10 => head.measure(100 * near),
            _ => head.measure(near),
        }
    }
}

#[test]
fn long_random_sequences_agree() {
    let mut seen: BTreeMap<String, u32> = BTreeMap::new();
    for seed in 1..=60 {
        let mut dice = Dice(seed);
        let mut time = dice.next() as u32;
        let head = Head::new(dice.pick(&[31, 31, 31, 1, 127]), seed as u32);
        let mut heads = [head.clone(), head];
        for _ in 0..2_000 {
            time = time.wrapping_add(dice.pick(&[0, 1, 10, 11, 99, 100, 2_000, 1 << 31]));
            if dice.chance(20) {
                random_call(&mut dice, &mut heads, time);
            }
            let bytes = random_telegram(&mut dice, &heads[0]);
            let gaps = dice.pick(&GAPS);
            let reply = agree(&mut heads, time, &gaps, bytes);
            for what in facts(&heads[0], reply) {
                *seen.entry(what).or_default() += 1;
            }
        }
    }
    assert_all_seen(&seen);
}

/// What there is to be seen of a head after a telegram.
fn facts(head: &Head, reply: Option<Reply>) -> Vec<String> {
    let answer = match reply {
        None => "silence".to_string(),
        Some(reply) if reply[2] == 0xFD => hex(&reply[7..9]),
        Some(_) => "value".to_string(),
    };
    let word = head.status_word();
    let is_alpha_numeric = head.is_alpha_numeric();
    let states = [
        (is_alpha_numeric, "mode 3"),
        (head.is_locked(), "locked"),
        (head.number_on_offer().is_some(), "offer"),
        (head.number_in_force() == 12, "at 12"),
        (word & 1 << 7 != 0, "error"),
        (word & 1 << 8 != 0, "frozen"),
        (word & 1 << 4 != 0, "static"),
        (is_alpha_numeric && word & 1 << 3 != 0, "acknowledged"),
    ];
    states.into_iter().filter(|(holds, _)| *holds).map(|(_, name)| name.to_string()).chain([answer]).collect()
}

/// A sequence in which little happens would prove little.
fn assert_all_seen(seen: &BTreeMap<String, u32>) {
    let answers = "0080 0082 0182 0282 0083 0084 0184 0284 0085 0385 silence value".split(' ');
    let states = "mode 3,locked,offer,at 12,error,frozen,static,acknowledged".split(',');
    for (what, least) in answers.map(|what| (what, 200)).chain(states.map(|what| (what, 1_000))) {
        assert!(seen.get(what).is_some_and(|&count| count >= least), "{what}: {seen:?}");
    }
}
