//! Request (vii), settings travel on a sheet: one that is read row by row, one that is loaded into a head, one that
//! is written from a head, and the words `save` and `load`. All bytes are worked out by hand: a sheet of n rows has
//! its bodies from place 1 + 3n on, so from 4 with one row, 7 with two, 10 (0Ah) with three and 118 (76h) with 39.

mod common;
use common::{code_of, Desk, READ, WRITE};
use reference::line::{Line, Refusal};
use reference::script::hex;
use reference::sheet::{loadable, written, Reader, Setting};

/// The sheet of a new head at 31: the contents, then the delivery values of document 01.
const NEW_HEAD: &str = "27\
    00007601007A02007E03008204008605008A06008E07009208009609009A0A009E0B00A20C00A60D00AA0E00AE\
    0F00B21B00B61C00BA1E00BE1F00C22000C62100CA2200CE2800D23000D63100DA3200DE3300E23400E63500EA\
    3900EE3A00F23B00F63C00FA3D00FE3E01023F010640010AD0010E\
    0000001F00000001000000000000000000000005000000010000000000000001000000010000000100000000\
    000000000000000000000000000000000000000000000000000002D000000000000000000000000500000000\
    0000000000000000000000000000000000000000000000000000000000000000000000010000000000000001\
    000000010000000100000000000000000000000100000000";

/// The 39 rows of document 01: address, low, high.
const TABLE: [(u8, i64, i64); 39] = [
    (0x00, 1, 127),
    (0x01, 0, 2),
    (0x02, 0, 20),
    (0x03, 0, 2),
    (0x04, 1, 60),
    (0x05, 0, 1),
    (0x06, 0, 1),
    (0x07, 0, 1),
    (0x08, 0, 1),
    (0x09, 0, 1),
    (0x0A, 0, 4),
    (0x0B, 0, 3),
    (0x0C, 0, 2),
    (0x0D, 0, 1),
    (0x0E, 0, 1),
    (0x0F, 0, 99_999),
    (0x1B, 0, 1),
    (0x1C, 1, 65_535),
    (0x1E, -19_999, 19_999),
    (0x1F, -19_999, 99_999),
    (0x20, 0, 9_999),
    (0x21, 0, 2),
    (0x22, 0, 9_999),
    (0x28, 0, 3),
    (0x30, 0, 1),
    (0x31, 0, 9_999),
    (0x32, 0, 1),
    (0x33, 0, 2),
    (0x34, 0, 1),
    (0x35, 0, 0),
    (0x39, 0, 1),
    (0x3A, 0, 1),
    (0x3B, 0, 1),
    (0x3C, 0, 1),
    (0x3D, 0, 1),
    (0x3E, 0, 2),
    (0x3F, 0, 8),
    (0x40, 0, 1),
    (0xD0, 0, 20),
];

fn bytes(digits: &str) -> Vec<u8> {
    let byte = |place| u8::from_str_radix(&digits[place..place + 2], 16).unwrap();
    (0..digits.len()).step_by(2).map(byte).collect()
}

/// The rows that a reader hands out, as address and value.
fn rows(digits: &str) -> Result<Vec<(u8, u32)>, u32> {
    let sheet = bytes(digits);
    let reader = Reader::new(&sheet).map_err(Refusal::number)?;
    Ok(reader.map(|setting| (setting.address, setting.value)).collect())
}

/// The number with which a sheet is refused, whatever the head; 0 if it is loaded.
fn refusal(digits: &str) -> u32 {
    loadable(&bytes(digits)).err().map_or(0, Refusal::number)
}

/// The sheet of one row.
fn one(address: u8, value: i64) -> String {
    format!("01{address:02X}0004{:08X}", value as u32)
}

fn whole(value: impl Fn(&(u8, i64, i64)) -> i64) -> Vec<u8> {
    let settings = TABLE.map(|row| Setting { address: row.0, value: value(&row) as u32 });
    written(&settings)
}

fn load(desk: &mut Desk, digits: &str) -> String {
    desk.line(&format!("load 0 {digits}"))
}

fn saved(desk: &mut Desk, head: u32) -> String {
    desk.ok("space 274");
    let answer = desk.line(&format!("save {head}"));
    answer.strip_prefix("saved ").expect("the sheet is written").to_string()
}

// "A reader ... hands out one row after another, then that none is left."

#[test]
fn rows_come_one_after_another_and_then_none() {
    let sheet = bytes("0304000A05000E1E0012000000010000000000000003");
    let mut reader = Reader::new(&sheet).unwrap();
    assert_eq!(reader.next(), Some(Setting { address: 0x04, value: 1 }));
    assert_eq!(reader.next(), Some(Setting { address: 0x05, value: 0 }));
    assert_eq!(reader.next(), Some(Setting { address: 0x1E, value: 3 }));
    assert_eq!(reader.next(), None);
    assert_eq!(reader.next(), None);
}

#[test]
fn a_sheet_of_no_rows_is_one_byte() {
    let mut reader = Reader::new(&[0]).unwrap();
    assert_eq!(reader.next(), None);
    assert_eq!(reader.next(), None);
    assert_eq!(rows("00"), Ok(vec![]));
    assert_eq!(refusal("00"), 0);
}

#[test]
fn bodies_stand_high_byte_first() {
    assert_eq!(rows("011E000412345678"), Ok(vec![(0x1E, 0x1234_5678)]));
    assert_eq!(rows("011E0004FFFFFFFE"), Ok(vec![(0x1E, 4_294_967_294)]));
}

#[test]
fn all_39_rows_of_a_new_head_are_read() {
    let read = rows(NEW_HEAD).unwrap();
    assert_eq!(read.len(), 39);
    let addresses: Vec<u8> = read.iter().map(|row| row.0).collect();
    assert_eq!(addresses, TABLE.map(|row| row.0));
    // The last four have places above 255: 0102h, 0106h, 010Ah and 010Eh.
    assert_eq!(read[35..], [(0x3E, 0), (0x3F, 0), (0x40, 1), (0xD0, 0)]);
    assert_eq!((read[0], read[17]), ((0x00, 31), (0x1C, 720)));
}

#[test]
fn a_reader_asks_neither_for_addresses_nor_for_values() {
    assert_eq!(rows("0263000764000BFFFFFFFF00000000"), Ok(vec![(0x63, u32::MAX), (0x64, 0)]));
    assert_eq!(rows("01FF000400000000"), Ok(vec![(0xFF, 0)]));
}

// "A malformed sheet gives 11."

#[test]
fn no_byte_at_all_is_malformed() {
    assert_eq!(rows(""), Err(11));
    assert_eq!(refusal(""), 11);
}

#[test]
fn equal_addresses_are_malformed() {
    assert_eq!(rows("0204000704000B0000000100000002"), Err(11));
    assert_eq!(rows("0304000A04000E050012000000010000000100000001"), Err(11));
    assert_eq!(rows("0304000A05000E050012000000010000000100000001"), Err(11));
}

#[test]
fn falling_addresses_are_malformed() {
    assert_eq!(rows("0205000704000B0000000100000001"), Err(11));
    assert_eq!(rows("0305000A04000E060012000000010000000100000001"), Err(11));
    assert_eq!(rows("0304000A06000E050012000000010000000100000001"), Err(11));
    // Equal to one that is not beside it.
    assert_eq!(rows("0304000A05000E040012000000010000000100000001"), Err(11));
}

#[test]
fn addresses_rise_as_numbers_without_a_sign() {
    assert_eq!(rows("027F000780000B0000000100000001"), Ok(vec![(0x7F, 1), (0x80, 1)]));
    assert_eq!(rows("02FF000700000B0000000100000001"), Err(11));
}

#[test]
fn the_place_of_a_body_has_one_value() {
    assert_eq!(rows("0104000400000001"), Ok(vec![(0x04, 1)]));
    for place in ["0000", "0001", "0003", "0005", "0008", "0104", "0400", "8004", "FFFF"] {
        assert_eq!(rows(&format!("0104{place}00000001")), Err(11), "{place}");
    }
}

#[test]
fn every_row_has_to_name_its_place() {
    for places in [["0008", "000B"], ["0006", "000B"], ["0007", "000C"], ["0007", "000A"], ["0107", "000B"]] {
        let [first, second] = places;
        assert_eq!(rows(&format!("0204{first}05{second}0000000100000001")), Err(11), "{places:?}");
    }
}

#[test]
fn the_high_byte_of_a_place_counts_above_255_too() {
    // D0h's place 010Eh as 000Eh, 020Eh and 0E01h.
    for place in ["D0000E", "D0020E", "D00E01"] {
        assert_eq!(refusal(&NEW_HEAD.replace("D0010E", place)), 11, "{place}");
    }
    assert_eq!(refusal(NEW_HEAD), 0);
}

#[test]
fn bodies_in_another_order_are_malformed() {
    // The second row's body first.
    assert_eq!(rows("0204000B0500070000000000000001"), Err(11));
}

#[test]
fn rows_that_share_a_body_are_malformed() {
    assert_eq!(rows("0204000705000700000001"), Err(11));
    assert_eq!(rows("020400070500070000000100000001"), Err(11));
}

#[test]
fn a_gap_is_malformed() {
    // A byte before the only body; one between two; four bytes, as long as a body.
    assert_eq!(rows("010400050000000001"), Err(11));
    assert_eq!(rows("0204000705000C000000010000000001"), Err(11));
    assert_eq!(rows("010400080000000000000001"), Err(11));
}

#[test]
fn bytes_after_the_last_body_are_malformed() {
    for more in ["00", "0000", "00000001", "05000B00000001"] {
        assert_eq!(rows(&format!("0104000400000001{more}")), Err(11), "{more}");
    }
    assert_eq!(rows("0000"), Err(11));
    assert_eq!(refusal(&format!("{NEW_HEAD}00")), 11);
}

#[test]
fn a_sheet_that_ends_too_soon_is_malformed() {
    let sheet = bytes(NEW_HEAD);
    for length in 0..274 {
        assert_eq!(Reader::new(&sheet[..length]).err(), Some(Refusal::MalformedSheet), "{length}");
    }
}

#[test]
fn a_count_that_is_not_that_of_the_rows_is_malformed() {
    for count in (0..=255_u8).filter(|&count| count != 39) {
        let mut sheet = bytes(NEW_HEAD);
        sheet[0] = count;
        assert_eq!(Reader::new(&sheet).err(), Some(Refusal::MalformedSheet), "{count}");
    }
}

#[test]
fn more_than_39_rows_are_malformed_though_all_else_fits() {
    for count in [38, 39, 40, 41, 100, 255] {
        let settings: Vec<Setting> = (0..count).map(|address| Setting { address, value: 1 }).collect();
        assert_eq!(Reader::new(&written(&settings)).is_ok(), count <= 39, "{count}");
    }
}

// "12 an address not among the 39, 13 a value out of its row; in this order."

#[test]
fn exactly_the_39_addresses_can_be_loaded() {
    for address in 0..=255 {
        let number = if TABLE.iter().any(|row| row.0 == address) { 0 } else { 12 };
        // 1 is in every row but 3Eh's, and 35h's, for which a sheet may have it all the same.
        let value = if address == 0x3E { 2 } else { 1 };
        assert_eq!(refusal(&one(address, value)), number, "{address:02X}h");
    }
}

#[test]
fn an_address_not_among_them_is_12_wherever_it_stands() {
    // 10h before 1Bh, between 0Fh and 1Bh, after 0Fh; FBh and D2h, which can be written, after D0h.
    assert_eq!(refusal("021000071B000B0000000000000000"), 12);
    assert_eq!(refusal("030F000A10000E1B0012000000000000000000000000"), 12);
    assert_eq!(refusal("020F000710000B0000000000000000"), 12);
    assert_eq!(refusal("02D00007FB000B0000000000000000"), 12);
    assert_eq!(refusal("02D00007D2000B0000000000000005"), 12);
}

#[test]
fn a_value_is_13_beside_both_ends_of_every_row() {
    for (address, low, high) in TABLE {
        assert_eq!(refusal(&one(address, low)), 0, "{address:02X}h {low}");
        assert_eq!(refusal(&one(address, high)), 0, "{address:02X}h {high}");
        // Below an unsigned 0 lies the highest of 32 bits.
        assert_eq!(refusal(&one(address, low - 1)), 13, "{address:02X}h {}", low - 1);
        // A sheet's 35h may be 1, which is loaded as 0.
        let above = if address == 0x35 { 2 } else { high + 1 };
        assert_eq!(refusal(&one(address, above)), 13, "{address:02X}h {above}");
    }
}

#[test]
fn between_its_limits_3eh_is_13() {
    for (value, number) in [(0, 0), (1, 13), (2, 0), (3, 13)] {
        assert_eq!(refusal(&one(0x3E, value)), number, "{value}");
    }
}

#[test]
fn all_32_bits_of_a_value_count() {
    for value in [0x0100, 0x0001_0000, 0x0100_0000, 0x8000_0000] {
        assert_eq!(refusal(&one(0x04, value + 5)), 13, "{value}");
        assert_eq!(refusal(&one(0x0E, value)), 13, "{value}");
    }
    // 45537 is the low half of -19999.
    assert_eq!(refusal("011E00040000B1E1"), 13);
    assert_eq!(refusal("011E0004FFFFB1E1"), 0);
}

#[test]
fn a_bad_value_is_13_wherever_it_stands() {
    assert_eq!(refusal("0304000A05000E200012000000000000000000000000"), 13);
    assert_eq!(refusal("0304000A05000E200012000000010000000200000000"), 13);
    assert_eq!(refusal("0304000A05000E200012000000010000000100002710"), 13);
    assert_eq!(refusal("0304000A05000E20001200000001000000010000270F"), 0);
}

#[test]
fn twelve_goes_before_13_in_either_order_of_the_rows() {
    // 04h has no 0, 20h no 10000; 10h stands between them.
    assert_eq!(refusal("0204000710000B0000000000000000"), 12);
    assert_eq!(refusal("0210000720000B0000000000002710"), 12);
    assert_eq!(refusal("0304000A10000E200012000000000000000000002710"), 12);
}

#[test]
fn eleven_goes_before_12_and_13() {
    // Falling; a byte too many; a byte too few; a place; with 10h and 04h 0 each.
    assert_eq!(refusal("0210000704000B0000000000000000"), 11);
    assert_eq!(refusal("0204000710000B000000000000000000"), 11);
    assert_eq!(refusal("0204000710000B00000000000000"), 11);
    assert_eq!(refusal("0204000710000C0000000000000000"), 11);
    // 40 rows, of which some are not stored.
    let settings: Vec<Setting> = (0..40).map(|address| Setting { address, value: 0 }).collect();
    assert_eq!(refusal(&hex(&written(&settings))), 11);
}

#[test]
fn the_refusals_have_the_numbers_of_document_02() {
    let refusals = [Refusal::MalformedSheet, Refusal::SheetAddress, Refusal::SheetValue, Refusal::SheetSpace];
    assert_eq!(refusals.map(Refusal::number), [11, 12, 13, 14]);
}

// Loading: "an accepted write of each row".

#[test]
fn what_is_loaded_is_read_back_over_the_line() {
    let mut desk = Desk::with_heads(&[31]);
    // 04h 60, 1Ch 258, 1Eh -19999, D0h 20.
    assert_eq!(load(&mut desk, "0404000D1C00111E0015D000190000003C00000102FFFFB1E100000014"), "ok");
    assert_eq!((desk.read(0x04), desk.read(0x1C)), (60, 258));
    assert_eq!((desk.read(0x1E), desk.read(0xD0)), (-19_999, 20));
}

#[test]
fn rows_that_are_not_on_the_sheet_keep_their_values() {
    let mut desk = Desk::with_heads(&[31]);
    desk.write(0x1C, 100);
    assert_eq!(load(&mut desk, "0104000400000007"), "ok");
    // 1Ch, the eighteenth row, has 100 for 720, and 04h, the fifth, 7 for 5.
    let mut expected = bytes(NEW_HEAD);
    expected[118 + 17 * 4..][..4].copy_from_slice(&[0, 0, 0, 100]);
    expected[118 + 4 * 4 + 3] = 7;
    assert_eq!(saved(&mut desk, 0), hex(&expected));
}

#[test]
fn an_empty_sheet_changes_nothing() {
    let mut desk = Desk::with_heads(&[31]);
    assert_eq!(load(&mut desk, "00"), "ok");
    assert_eq!(saved(&mut desk, 0), NEW_HEAD);
}

#[test]
fn loading_is_all_or_nothing() {
    let mut desk = Desk::with_heads(&[31]);
    for (sheet, number) in [
        ("", 11),
        ("0204000720000B00000007000000", 11),
        ("0204000720000B000000070000000800", 11),
        ("0220000704000B0000000700000008", 11),
        ("02040007FB000B0000000700000008", 12),
        ("0204000710000B0000000700000008", 12),
        ("02040007D0000B0000000700000015", 13),
        ("020400073E000B0000000700000001", 13),
    ] {
        assert_eq!(load(&mut desk, sheet), format!("refused {number}"), "{sheet}");
        assert_eq!(saved(&mut desk, 0), NEW_HEAD, "{sheet}");
    }
}

#[test]
fn every_row_is_loaded_at_its_highest_and_its_lowest() {
    let mut desk = Desk::with_heads(&[31]);
    for sheet in [whole(|row| row.2), whole(|row| row.1)] {
        assert_eq!(load(&mut desk, &hex(&sheet)), "ok");
        assert_eq!(saved(&mut desk, 0), hex(&sheet));
    }
}

#[test]
fn other_heads_are_not_touched() {
    let mut desk = Desk::with_heads(&[31, 12, 31]);
    assert_eq!(desk.line("load 1 0120000400000009"), "ok");
    assert_eq!(saved(&mut desk, 0), NEW_HEAD);
    assert_eq!(saved(&mut desk, 2), NEW_HEAD);
    assert_eq!(desk.ask("0 12 32 0 0"), "value 9");
}

// "Ignores the interlock."

#[test]
fn a_locked_head_is_loaded() {
    let mut desk = Desk::with_heads(&[31]);
    desk.write(0x0E, 1);
    assert_eq!(desk.refusal(WRITE, 0x20, 7), 0x0385);
    assert_eq!(load(&mut desk, "0120000400000007"), "ok");
    assert_eq!(desk.read(0x20), 7);
    assert_eq!(desk.refusal(WRITE, 0x20, 8), 0x0385);
    // Refusals are the same as without a lock.
    assert_eq!(load(&mut desk, "0120000400002710"), "refused 13");
}

#[test]
fn a_sheet_that_locks_loads_whole() {
    let mut desk = Desk::with_heads(&[31]);
    // 04h 9, 0Eh 1, 20h 8.
    assert_eq!(load(&mut desk, "0304000A0E000E200012000000090000000100000008"), "ok");
    assert_eq!((desk.read(0x04), desk.read(0x0E), desk.read(0x20)), (9, 1, 8));
    assert_eq!(desk.refusal(WRITE, 0x20, 5), 0x0385);
    // And one that unlocks is loaded too.
    assert_eq!(load(&mut desk, "010E000400000000"), "ok");
    desk.write(0x20, 5);
}

#[test]
fn the_interlock_stays_open_or_closed() {
    let mut desk = Desk::with_heads(&[31]);
    desk.write(0xA8, 1);
    assert_eq!(load(&mut desk, &one(0x0E, 1)), "ok");
    desk.write(0x20, 7);
    desk.write(0xA8, 0);
    assert_eq!(load(&mut desk, &one(0x0E, 0)), "ok");
    assert_eq!(load(&mut desk, &one(0x0E, 1)), "ok");
    assert_eq!(desk.refusal(WRITE, 0x20, 8), 0x0385);
}

// "Loading 00h or 01h stores it; it comes into force at the next restart."

#[test]
fn a_loaded_number_is_in_force_from_the_restart_on() {
    for restart in ["power 0", "send 0 011FA0000000000009B7"] {
        let mut desk = Desk::with_heads(&[31]);
        assert_eq!(load(&mut desk, "010000040000000C"), "ok");
        assert_eq!(desk.ask("0 31 0 0 0"), "value 12");
        assert_eq!(desk.ask("0 12 0 0 0"), "");
        assert_ne!(desk.line(restart), "refused 3");
        assert_eq!(desk.ask("0 31 0 0 0"), "");
        assert_eq!(desk.ask("0 12 0 0 0"), "value 12");
    }
}

#[test]
fn a_loaded_baud_rate_is_in_force_from_the_restart_on() {
    let mut line = Line::new();
    line.grow(31, 4_711).unwrap();
    line.load(0, &bytes("0101000400000002")).unwrap();
    assert_eq!((line.heads()[0].value(0x01), line.heads()[0].baud_in_force()), (2, 1));
    line.power(0).unwrap();
    assert_eq!(line.heads()[0].baud_in_force(), 2);
}

#[test]
fn a_swapped_head_takes_the_place_of_the_old_one() {
    let mut desk = Desk::with_heads(&[31, 12]);
    desk.write(0x20, 77);
    desk.write(0x1F, -5);
    let sheet = saved(&mut desk, 0);
    assert_eq!(desk.line(&format!("load 1 {sheet}")), "ok");
    assert_eq!(saved(&mut desk, 1), sheet);
    // The old one gets a number of its own.
    assert_eq!(load(&mut desk, &one(0x00, 100)), "ok");
    desk.ok("power 0");
    desk.ok("power 1");
    assert_eq!((desk.read(0x00), desk.read(0x20), desk.read(0x1F)), (31, 77, -5));
}

// "Loading touches nothing but the stored values."

#[test]
fn bytes_gathered_stay() {
    let mut desk = Desk::with_heads(&[31]);
    for sheet in ["0120000400000009", "0120000400002710", "00", "", "01FB000400000000"] {
        // A read of 20h, 1F ^ 20 = 3F: three bytes, the sheet, then the other seven.
        assert_eq!(desk.send("001F20"), "");
        load(&mut desk, sheet);
        // 1F ^ 20 ^ 09 = 36.
        assert_eq!(desk.send("0000000000003F"), "001F2000000000000936", "{sheet}");
    }
}

#[test]
fn an_offer_stays_and_goes_before_a_loaded_number() {
    let mut desk = Desk::with_heads(&[31]);
    assert_eq!(desk.ask("1 31 210 0 7"), "");
    assert_eq!(load(&mut desk, "0100000400000009"), "ok");
    assert_eq!(load(&mut desk, "0100000400000080"), "refused 13");
    // 01 ^ 1F ^ D2 ^ 07 = CB.
    assert_eq!(desk.line("keys 0 4"), "ok 011FD2000000000007CB");
    assert_eq!(desk.ask("0 7 0 0 0"), "value 7");
}

#[test]
fn a_kept_value_stays() {
    let mut desk = Desk::with_heads(&[31]);
    desk.ok("measure 0 40");
    desk.write(0xAA, 1);
    // 0Bh 1 and 1Eh 100: (40 + 100) / 10.
    assert_eq!(load(&mut desk, "020B00071E000B0000000100000064"), "ok");
    assert_eq!(desk.status(), 1 << 8);
    assert_eq!(desk.read(0xFE), 40);
    assert_eq!(desk.read(0xFE), 14);
}

#[test]
fn a_loaded_calibration_value_waits_for_the_calibration() {
    let mut desk = Desk::with_heads(&[31]);
    desk.ok("measure 0 40");
    assert_eq!(load(&mut desk, &one(0x1F, 700)), "ok");
    assert_eq!(desk.read(0xFE), 40);
    desk.write(0xA7, 1);
    assert_eq!(desk.read(0xFE), 700);
    assert_eq!(load(&mut desk, &one(0x1F, 0)), "ok");
    assert_eq!(desk.read(0xFE), 700);
}

#[test]
fn the_static_bit_is_neither_cleared_nor_set() {
    let mut desk = Desk::with_heads(&[31]);
    desk.write_with(0xFF, 0x0200, 0);
    // Bits 10, 5, 4 and 3; then A is 30 above S: 10, 6, 4 and 1.
    assert_eq!(desk.status(), 0x0438);
    assert_eq!(load(&mut desk, &one(0x1E, 30)), "ok");
    assert_eq!(desk.status(), 0x0452);
    // FAh clears it, and the window of 30 has A in it: 10, 6 and 5.
    assert_eq!(desk.read(0xFA), 0x0452);
    assert_eq!(load(&mut desk, &one(0x20, 30)), "ok");
    assert_eq!(desk.status(), 0x0460);
    // A measurement then sets it.
    desk.ok("measure 0 0");
    assert_eq!(desk.status(), 0x0470);
}

#[test]
fn the_monitor_runs_on_and_the_loaded_timeout_counts_at_the_tick() {
    let mut desk = Desk::with_heads(&[31]);
    desk.write(0x20, 5);
    assert_eq!(load(&mut desk, &one(0x02, 1)), "ok");
    desk.ok("tick 99");
    assert_eq!(desk.read(0xFD), 0);
    desk.ok("tick 100");
    assert_eq!(desk.read(0xFD), 0x81);
}

#[test]
fn loading_does_not_start_the_monitor() {
    let mut desk = Desk::with_heads(&[31]);
    assert_eq!(load(&mut desk, &one(0x02, 1)), "ok");
    desk.ok("tick 4000000000");
    assert_eq!(desk.read(0xFD), 0);
}

#[test]
fn damaged_telegrams_in_a_row_stay_so() {
    let mut desk = Desk::with_heads(&[31]);
    for _ in 0..2 {
        assert_eq!(code_of(&desk.damaged(READ, 31)), 0x0080);
    }
    assert_eq!(load(&mut desk, "0120000400000009"), "ok");
    assert_eq!(desk.line("xor 0"), "xor FF");
    assert_eq!(code_of(&desk.damaged(READ, 31)), 0x0080);
    assert_eq!(desk.read(0xFD), 0x80);
    // The pending error and the memory stay too.
    assert_eq!(load(&mut desk, NEW_HEAD), "ok");
    assert_eq!((desk.read(0xFD), desk.read(0x80)), (0x80, 1));
}

#[test]
fn a_refused_sheet_is_no_input_error() {
    let mut desk = Desk::with_heads(&[31]);
    assert_eq!(desk.refusal(WRITE, 0x04, 90), 0x0282);
    for (sheet, number) in [("", 11), ("0110000400000000", 12), ("0104000400000000", 13)] {
        assert_eq!(load(&mut desk, sheet), format!("refused {number}"));
    }
    assert_eq!(load(&mut desk, "00"), "ok");
    assert_eq!((desk.read(0x96), desk.read(0xFD), desk.read(0x80)), (1, 0, 0));
}

#[test]
fn set_points_and_the_taken_control_word_stay() {
    let mut desk = Desk::with_heads(&[31]);
    desk.write_with(0xFB, 1 << 2, 5);
    desk.write_with(0xFF, 1 << 5, 1_000);
    for _ in 0..3 {
        desk.damaged(READ, 31);
    }
    assert_eq!(load(&mut desk, NEW_HEAD), "ok");
    assert_eq!((desk.read(0xFB), desk.read(0xFF)), (5, 1_000));
    // Bit 5 was taken already, so that it acknowledges nothing; bit 2 is set point 1, bit 7 the error.
    desk.write_with(0xFF, 1 << 5, 1_000);
    assert_eq!(desk.status(), 1 << 2 | 1 << 7);
}

#[test]
fn keys_and_the_position_stay_whatever_35h_says() {
    for value in ["00000000", "00000001"] {
        let mut desk = Desk::with_heads(&[31]);
        desk.ok("measure 0 500");
        desk.ok("keys 0 4");
        desk.ok("measure 0 512");
        assert_eq!(load(&mut desk, &format!("0235000740000B{value}00000000")), "ok");
        assert_eq!((desk.status(), desk.read(0xFE)), (1 << 15, 512));
        desk.ok("keys 0 0");
        desk.ok("keys 0 4");
        assert_eq!((desk.status(), desk.read(0xFE)), (1 << 15, 512));
    }
}

// "A written sheet has all 39 rows, and the space after it is unchanged."

#[test]
fn the_sheet_of_a_new_head_has_the_delivery_values() {
    let mut desk = Desk::with_heads(&[31, 12]);
    assert_eq!(NEW_HEAD.len(), 2 * 274);
    assert_eq!(saved(&mut desk, 0), NEW_HEAD);
    // The number that it was made with.
    assert_eq!(saved(&mut desk, 1), NEW_HEAD.replace("0000001F", "0000000C"));
}

#[test]
fn negative_values_are_written_in_twos_complement() {
    let mut desk = Desk::with_heads(&[31]);
    desk.write(0x1E, -1);
    desk.write(0x1F, -19_999);
    let sheet = bytes(&saved(&mut desk, 0));
    // 1Eh is the nineteenth row: 118 + 18 * 4 = 190.
    assert_eq!(hex(&sheet[190..198]), "FFFFFFFFFFFFB1E1");
}

#[test]
fn the_stored_number_is_written_not_that_in_force() {
    let mut desk = Desk::with_heads(&[31]);
    desk.write(0x00, 100);
    desk.write(0x01, 2);
    assert_eq!(saved(&mut desk, 0), NEW_HEAD.replace("0000001F00000001", "0000006400000002"));
}

#[test]
fn only_the_first_274_bytes_of_the_space_are_written() {
    let mut line = Line::new();
    line.grow(31, 4_711).unwrap();
    for size in [274, 275, 300, 1_024] {
        let mut space = vec![0xEE; size];
        assert_eq!(line.save(0, &mut space), Ok(()));
        assert_eq!(hex(&space[..274]), NEW_HEAD);
        assert!(space[274..].iter().all(|&byte| byte == 0xEE), "{size}");
    }
}

#[test]
fn nothing_is_written_into_a_space_that_is_too_short() {
    let mut line = Line::new();
    line.grow(31, 4_711).unwrap();
    for size in [0, 9, 10, 273] {
        let mut space = vec![0xEE; size];
        assert_eq!(line.save(0, &mut space), Err(Refusal::SheetSpace));
        assert!(space.iter().all(|&byte| byte == 0xEE), "{size}");
    }
}

#[test]
fn saving_changes_nothing_in_the_head() {
    let mut desk = Desk::with_heads(&[31]);
    desk.write(0xAA, 1);
    assert_eq!(desk.ask("1 31 210 0 7"), "");
    for _ in 0..2 {
        assert_eq!(saved(&mut desk, 0), NEW_HEAD);
    }
    // Frozen as it was, and the offer is there: 01 ^ 1F ^ D2 ^ 01 ^ 07 = CA.
    assert_eq!(desk.status(), 1 << 8);
    assert_eq!(desk.line("keys 0 4"), "ok 011FD2010000000007CA");
}

#[test]
fn a_locked_head_in_the_midst_of_a_telegram_is_saved() {
    let mut desk = Desk::with_heads(&[31]);
    desk.write(0x0E, 1);
    assert_eq!(desk.send("001F20"), "");
    let sheet = saved(&mut desk, 0);
    // 0Eh is the fifteenth row: 118 + 14 * 4 = 174.
    let mut expected = bytes(NEW_HEAD);
    expected[177] = 1;
    assert_eq!(sheet, hex(&expected));
    assert_eq!(saved(&mut desk, 0), sheet);
    assert_eq!(desk.send("0000000000003F"), "001F200000000000053A");
}

/// "Writing then loading gives equal stored values", whatever the other head had.
#[test]
fn writing_then_loading_gives_equal_values() {
    let mut line = Line::new();
    line.grow(31, 4_711).unwrap();
    line.grow(12, 4_712).unwrap();
    let sheets = [whole(|row| row.2), whole(|row| row.1), whole(|row| row.2 - row.2 % 2)];
    for first in &sheets {
        for second in &sheets {
            line.load(0, first).unwrap();
            line.load(1, second).unwrap();
            let mut space = [0; 274];
            line.save(0, &mut space).unwrap();
            assert_eq!(space[..], first[..]);
            line.load(1, &space).unwrap();
            for row in TABLE {
                assert_eq!(line.heads()[1].value(row.0), line.heads()[0].value(row.0), "{:02X}h", row.0);
            }
        }
    }
}

#[test]
fn a_head_loads_its_own_sheet_without_a_change() {
    let mut desk = Desk::with_heads(&[31]);
    desk.write(0x3E, 2);
    desk.write(0x0F, 99_999);
    let sheet = saved(&mut desk, 0);
    assert_eq!(load(&mut desk, &sheet), "ok");
    assert_eq!(saved(&mut desk, 0), sheet);
}

#[test]
fn a_reset_after_loading_is_like_one_after_writing() {
    let mut desk = Desk::with_heads(&[31]);
    assert_eq!(load(&mut desk, &hex(&whole(|row| if row.0 == 0x0E { 0 } else { row.2 }))), "ok");
    // A0h 2 leaves the bus six: 00h 127, 01h 2, 02h 20, 03h 2, 0Eh 0 and D0h 20.
    desk.write(0xA0, 2);
    let mut expected = bytes(NEW_HEAD);
    for (row, value) in [(0, 127), (1, 2), (2, 20), (3, 2), (38, 20)] {
        expected[118 + 4 * row + 3] = value;
    }
    assert_eq!(saved(&mut desk, 0), hex(&expected));
}

// "After 3."

#[test]
fn three_goes_before_all_others() {
    let mut desk = Desk::with_heads(&[31]);
    for head in ["1", "8", "256", "65536", "4294967295"] {
        for sheet in ["", "00", "40", "0110000400000000", "0104000400000000", NEW_HEAD] {
            assert_eq!(desk.line(&format!("load {head} {sheet}")), "refused 3", "{head} {sheet}");
        }
        for size in [0, 10, 273, 274] {
            desk.ok(&format!("space {size}"));
            assert_eq!(desk.line(&format!("save {head}")), "refused 3", "{head} {size}");
        }
    }
    assert_eq!(saved(&mut desk, 0), NEW_HEAD);
}

#[test]
fn on_an_empty_line_all_is_refused_3() {
    let mut desk = Desk::with_heads(&[]);
    for line in ["save 0", "load 0", "load 0 00", "load 0 0104000400000007"] {
        assert_eq!(desk.line(line), "refused 3", "{line}");
    }
}

// The words.

#[test]
fn save_needs_274_bytes_and_load_none() {
    let mut desk = Desk::with_heads(&[31]);
    for size in [0, 9, 10, 64, 273] {
        desk.ok(&format!("space {size}"));
        assert_eq!(desk.line("save 0"), "refused 14", "{size}");
        assert_eq!(desk.line("load 0 0120000400000005"), "ok", "{size}");
    }
    for size in [274, 275, 1_024] {
        desk.ok(&format!("space {size}"));
        assert_eq!(desk.line("save 0"), format!("saved {NEW_HEAD}"), "{size}");
    }
}

#[test]
fn space_is_0_to_1024() {
    let mut desk = Desk::with_heads(&[31]);
    desk.ok("space 1024");
    for (number, size) in ["1025", "1280", "65536", "4294967295", "4294967296", "-1"].iter().enumerate() {
        assert_eq!(desk.line(&format!("space {size}")), format!("error at line {}", number + 3));
    }
    // Still 1024, and good for bytes and keys.
    assert_eq!(desk.line("save 0"), format!("saved {NEW_HEAD}"));
    assert_eq!(desk.send("001F200000000000003F"), "001F200000000000053A");
    desk.ok("keys 0 1");
}

#[test]
fn the_spelling_of_load() {
    let mut desk = Desk::with_heads(&[31]);
    assert_eq!(desk.line("\tload  000\t011c0004000000fF "), "ok");
    assert_eq!(desk.read(0x1C), 255);
    assert_eq!(desk.line("load 0"), "refused 11");
    assert_eq!(desk.line("load 0  "), "refused 11");
    // The longest line has 4096 bytes: 2044 of a sheet and half a byte more, which is none.
    assert_eq!(desk.line(&format!("load 0 {}", "0".repeat(4_088))), "refused 11");
    assert_eq!(desk.line(&format!("load 0 {}", "0".repeat(4_089))), "error at line 7");
    assert_eq!(desk.line(&format!("load 0 {}", "0".repeat(4_090))), "error at line 8");
}

#[test]
fn what_is_none_of_the_words_is_an_error_and_changes_nothing() {
    let mut desk = Desk::with_heads(&[31]);
    let lines = [
        "save",
        "save 0 0",
        "save -0",
        "save 4294967296",
        "Save 0",
        "load",
        "load 0 0",
        "load 0 0120000400000007 00",
        "load 0 01 20000400000007",
        "load 0 012000040000000",
        "load 0 012000040000000G",
        "load 0 0x0120000400000007",
        "load -0 0120000400000007",
        "load 4294967296 0120000400000007",
        "load 0120000400000007",
        "load 0 0120000400000007 # seven",
        "LOAD 0 0120000400000007",
    ];
    for (number, line) in lines.into_iter().enumerate() {
        // The head took the first line.
        assert_eq!(desk.line(line), format!("error at line {}", number + 2), "{line}");
    }
    assert_eq!(saved(&mut desk, 0), NEW_HEAD);
}
