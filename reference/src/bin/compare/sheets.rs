//! Writes sheets: such as a head loads, and such as it refuses, each for a reason of its own.

use crate::random::Random;
use reference::rows::{self, limits, place, Row, ROWS};
use reference::sheet::{loadable, written, Setting};

/// Parameters that are not stored, and addresses that are none.
const NOT_STORED: [u8; 20] = [
    0x10, 0x10, 0x1A, 0x1D, 0x23, 0x2F, 0x36, 0x41, 0x65, 0x80, 0x96, 0xA0, 0xA7, 0xA8, 0xCF, 0xD1, 0xD2,
    0xFB, 0xFB, 0xFF,
];

/// Values beside a row of which there is something to be mistaken in: a lowest that is not 0, a sign, one that is
/// not listed, one beside what sheets from before may have.
const BESIDE_THEIR_ROWS: [(u8, i32); 13] = [
    (rows::NODE_ADDRESS, 0),
    (rows::NODE_ADDRESS, 0),
    (rows::NODE_ADDRESS, 128),
    (0x04, 0),
    (0x1C, 65_536),
    (rows::OFFSET_VALUE, -20_000),
    (rows::CALIBRATION_VALUE, 100_000),
    (rows::OPERATING_MODE, 4),
    (rows::INCREMENTAL_KEY_ENABLE, 2),
    (rows::INCREMENTAL_KEY_ENABLE, 2),
    (rows::ACKNOWLEDGEMENT_SETTINGS, 1),
    (rows::ACKNOWLEDGEMENT_SETTINGS, 1),
    (rows::ACKNOWLEDGEMENT_SETTINGS, 3),
];

// Sheets that are right.

/// Rows with values that fit: all, some, one or none.
pub fn settings(random: &mut Random) -> Vec<Setting> {
    let percent = match random.below(12) {
        0..=3 => 100,
        4 => 0,
        5..=6 => return one_setting(random),
        7..=9 => 12,
        10 => 50,
        _ => 97,
    };
    let mut settings: Vec<Setting> = ROWS.iter().map(|row| setting(random, row)).collect();
    settings.retain(|_| random.chance(percent));
    settings
}

/// The same with one of these values for this parameter.
pub fn with(random: &mut Random, address: u8, values: &[u32]) -> Vec<Setting> {
    let mut settings = settings(random);
    put(&mut settings, Setting { address, value: random.pick(values) });
    settings
}

pub fn with_number(random: &mut Random) -> Vec<Setting> {
    let number = 1 + random.below(127);
    with(random, rows::NODE_ADDRESS, &[number, number, 1, 31, 127])
}

fn one_setting(random: &mut Random) -> Vec<Setting> {
    let row = random.pick(&ROWS);
    vec![setting(random, &row)]
}

fn setting(random: &mut Random, row: &Row) -> Setting {
    let (low, high) = (i64::from(row.low), i64::from(row.high));
    let value = match (row.address, random.below(8)) {
        (rows::ACKNOWLEDGEMENT_SETTINGS, _) => random.pick(&[0, 2]),
        // Loaded as 0, as on a sheet from before.
        (rows::INCREMENTAL_KEY_ENABLE, _) => random.pick(&[0, 1]),
        // In mode 3 nothing is to be seen of windows.
        (rows::OPERATING_MODE, _) if random.chance(80) => random.between(0, 2),
        // A locked head refuses much of what follows.
        (rows::PROGRAMMING_CONFIGURATION, _) => i64::from(random.chance(15)),
        (_, 0) => low,
        (_, 1) => high,
        (_, 2..=4) => random.between(low.max(-20), high.min(20)),
        _ => random.between(low, high),
    };
    Setting { address: row.address, value: value as u32 }
}

/// Where its address belongs, for the row that has it if there is one.
fn put(settings: &mut Vec<Setting>, new: Setting) {
    settings.retain(|setting| setting.address != new.address);
    let place = settings.partition_point(|setting| setting.address < new.address);
    settings.insert(place, new);
}

// Sheets that are refused.

pub fn wrong(random: &mut Random) -> Vec<u8> {
    let settings = several(random);
    match random.below(20) {
        0..=11 => malformed(random, settings),
        12..=13 => written(&with_another_address(random, settings)),
        14..=15 => written(&with_a_bad_value(random, settings)),
        16..=17 => written(&with_a_value_beside_its_row(random, settings)),
        _ => written(&with_both(random, settings)),
    }
}

/// A sheet with one byte otherwise, which may be as right as it was.
pub fn hit(random: &mut Random, sheet: &[u8]) -> Vec<u8> {
    let mut sheet = sheet.to_vec();
    let place = random.below(sheet.len() as u32) as usize;
    sheet[place] = match random.chance(50) {
        true => sheet[place] ^ 1 << random.below(8),
        false => random.byte(),
    };
    sheet
}

fn several(random: &mut Random) -> Vec<Setting> {
    loop {
        let settings = settings(random);
        if settings.len() > 1 {
            return settings;
        }
    }
}

/// One row of an address that is not stored: the first, the last or between.
fn with_another_address(random: &mut Random, mut settings: Vec<Setting>) -> Vec<Setting> {
    let address = not_stored(random);
    match random.below(4) {
        0 => settings.retain(|setting| setting.address > address),
        1 => settings.retain(|setting| setting.address < address),
        _ => {}
    }
    if settings.len() == ROWS.len() {
        settings.remove(random.below(ROWS.len() as u32) as usize);
    }
    let value = random.pick(&[0, 0, 1, 1, 5, u32::MAX]);
    put(&mut settings, Setting { address, value });
    settings
}

fn not_stored(random: &mut Random) -> u8 {
    loop {
        let address = if random.chance(80) { random.pick(&NOT_STORED) } else { random.byte() };
        if place(address).is_none() {
            return address;
        }
    }
}

/// The first, the last or any of those rows that have a range.
fn with_a_bad_value(random: &mut Random, mut settings: Vec<Setting>) -> Vec<Setting> {
    let stored: Vec<usize> =
        (0..settings.len()).filter(|&row| place(settings[row].address).is_some()).collect();
    let (Some(&first), Some(&last)) = (stored.first(), stored.last()) else {
        return settings;
    };
    let any = random.pick(&stored);
    let row = random.pick(&[first, last, any, any, any]);
    settings[row].value = bad_value(random, settings[row].address);
    settings
}

fn with_a_value_beside_its_row(random: &mut Random, mut settings: Vec<Setting>) -> Vec<Setting> {
    let (address, value) = random.pick(&BESIDE_THEIR_ROWS);
    put(&mut settings, Setting { address, value: value as u32 });
    settings
}

/// Just beyond the limits, between them without being listed, or such that some of its bytes would fit.
fn bad_value(random: &mut Random, address: u8) -> u32 {
    if address == rows::ACKNOWLEDGEMENT_SETTINGS && random.chance(70) {
        return 1;
    }
    let (low, high) = limits(address).expect("a row has limits");
    loop {
        let fitting = random.between(low, high) as u32;
        let value = match random.below(8) {
            0..=1 => (low - 1) as u32,
            2..=4 => (high + 1) as u32,
            5 => fitting ^ random.pick(&[1 << 8, 1 << 16, 1 << 24, 1 << 31]),
            6 => fitting.swap_bytes(),
            _ => random.word(),
        };
        if loadable(&written(&[Setting { address, value }])).is_err() {
            return value;
        }
    }
}

fn with_both(random: &mut Random, settings: Vec<Setting>) -> Vec<Setting> {
    let settings = with_another_address(random, settings);
    with_a_bad_value(random, settings)
}

// Sheets that are malformed.

/// A sheet in its parts, which need not fit each other.
struct Draft {
    count: u8,
    /// Addresses and places.
    contents: Vec<(u8, u16)>,
    bodies: Vec<u8>,
}

impl Draft {
    fn new(settings: &[Setting]) -> Draft {
        let bodies_at = 1 + 3 * settings.len();
        let contents = settings.iter().enumerate().map(|(row, setting)| {
            let place = bodies_at + 4 * row;
            (setting.address, place as u16)
        });
        Draft {
            count: settings.len() as u8,
            contents: contents.collect(),
            bodies: settings.iter().flat_map(|setting| setting.value.to_be_bytes()).collect(),
        }
    }

    fn bytes(&self) -> Vec<u8> {
        let mut bytes = vec![self.count];
        for (address, place) in &self.contents {
            bytes.push(*address);
            bytes.extend(place.to_be_bytes());
        }
        bytes.extend(&self.bodies);
        bytes
    }

    /// Moves the bodies of all rows from this one on.
    fn move_places(&mut self, first_row: usize, by: i32) {
        for (_, place) in &mut self.contents[first_row..] {
            *place = (i32::from(*place) + by) as u16;
        }
    }
}

/// At times of rows that would be refused for something else, were the sheet well-formed.
fn malformed(random: &mut Random, mut settings: Vec<Setting>) -> Vec<u8> {
    if random.chance(25) {
        settings = with_both(random, settings);
    }
    let mut draft = Draft::new(&settings);
    // Some need two rows.
    match random.below(if settings.len() > 1 { 35 } else { 14 }) {
        0..=1 => return Vec::new(),
        2 => return without_rows(random),
        3..=4 => return too_many_rows(random),
        5..=6 => draft.count = another_count(random, draft.count),
        7..=10 => cut(random, &mut draft),
        11..=13 => lengthen(random, &mut draft),
        14..=20 => displace(random, &mut draft),
        21 => draft.contents.iter_mut().for_each(|(_, place)| *place = place.swap_bytes()),
        22..=23 => exchange_places(random, &mut draft),
        24..=28 => spoil_the_order(random, &mut draft),
        29..=31 => leave_a_gap(random, &mut draft),
        32 => share_a_body(random, &mut draft),
        33 => {
            let from = random.pick(&[1, 1 + 3 * i32::from(draft.count)]);
            draft.move_places(0, -from);
        }
        _ => {
            let mut bytes = draft.bytes();
            bytes.truncate(random.below(bytes.len() as u32) as usize);
            return bytes;
        }
    }
    draft.bytes()
}

/// Nothing but the count, which is not 0, or a count of 0 and more.
fn without_rows(random: &mut Random) -> Vec<u8> {
    match random.chance(40) {
        true => vec![random.pick(&[1, 2, 39, 40, 255])],
        false => vec![0; random.pick(&[2, 2, 5, 8, 274])],
    }
}

/// Well-formed but for their number; some of the addresses cannot be stored.
fn too_many_rows(random: &mut Random) -> Vec<u8> {
    let count = random.pick(&[40, 40, 40, 41, 64, 128, 255]);
    let mut addresses: Vec<u8> = ROWS.iter().map(|row| row.address).collect();
    while addresses.len() < count {
        let address = random.byte();
        if !addresses.contains(&address) {
            addresses.push(address);
        }
    }
    addresses.sort();
    let settings: Vec<Setting> = addresses.iter().map(|&address| Setting { address, value: 1 }).collect();
    written(&settings)
}

fn another_count(random: &mut Random, count: u8) -> u8 {
    let any = random.byte();
    let other = random.pick(&[count.wrapping_add(1), count.wrapping_sub(1), 0, 40, count ^ 0x80, any]);
    if other == count {
        40
    } else {
        other
    }
}

/// The sheet ends too soon.
fn cut(random: &mut Random, draft: &mut Draft) {
    let lost = random.pick(&[1, 1, 1, 1, 2, 4, 7, draft.bodies.len()]);
    draft.bodies.truncate(draft.bodies.len().saturating_sub(lost));
}

fn lengthen(random: &mut Random, draft: &mut Draft) {
    for _ in 0..random.pick(&[1, 1, 1, 2, 4, 7]) {
        draft.bodies.push(random.pick(&[0, 0xFF]));
    }
}

/// One body's place is not where the body stands: the first, the last or any.
fn displace(random: &mut Random, draft: &mut Draft) {
    let last = draft.contents.len() - 1;
    let any_row = random.below(last as u32 + 1) as usize;
    let row = random.pick(&[0, last, any_row]);
    let any = random.word() as u16;
    let place = &mut draft.contents[row].1;
    *place = match random.below(12) {
        0..=2 => place.wrapping_add(1),
        3..=4 => place.wrapping_sub(1),
        5 => place.wrapping_add(random.pick(&[4, u16::MAX - 3])),
        6..=7 => place.wrapping_add(random.pick(&[0x0100, 0xFF00])),
        8 => *place ^ 1 << random.below(16),
        9 => place.swap_bytes(),
        10 => random.pick(&[0, 1, u16::MAX]),
        _ => any,
    };
}

/// Two rows have each other's place; their bodies are exchanged too, or not.
fn exchange_places(random: &mut Random, draft: &mut Draft) {
    let (first, second) = two_rows(random, draft);
    let (one, other) = (draft.contents[first].1, draft.contents[second].1);
    draft.contents[first].1 = other;
    draft.contents[second].1 = one;
    if random.chance(50) {
        for byte in 0..4 {
            draft.bodies.swap(4 * first + byte, 4 * second + byte);
        }
    }
}

/// Neighbours more often than others, above all the first two and the last two.
fn two_rows(random: &mut Random, draft: &Draft) -> (usize, usize) {
    let last = draft.contents.len() - 1;
    let any = 1 + random.below(last as u32) as usize;
    let second = random.pick(&[1, last, any]);
    let first = if random.chance(70) { second - 1 } else { random.below(second as u32) as usize };
    (first, second)
}

/// Addresses that are equal, or that fall.
fn spoil_the_order(random: &mut Random, draft: &mut Draft) {
    let (first, second) = two_rows(random, draft);
    let (one, other) = (draft.contents[first].0, draft.contents[second].0);
    match random.below(10) {
        0..=2 => draft.contents[first].0 = other,
        3..=5 => draft.contents[second].0 = one,
        _ => {
            draft.contents[first].0 = other;
            draft.contents[second].0 = one;
        }
    }
}

/// Before the bodies or between two of them; all places are those where the bodies stand.
fn leave_a_gap(random: &mut Random, draft: &mut Draft) {
    let row = if random.chance(50) { 0 } else { random.below(draft.contents.len() as u32) as usize };
    let size = random.pick(&[1, 1, 2, 4]);
    draft.bodies.splice(4 * row..4 * row, vec![0; size]);
    draft.move_places(row, size as i32);
}

fn share_a_body(random: &mut Random, draft: &mut Draft) {
    let row = 1 + random.below(draft.contents.len() as u32 - 1) as usize;
    draft.bodies.drain(4 * row..4 * row + 4);
    draft.move_places(row, -4);
}

#[cfg(test)]
mod tests {
    use super::*;
    use reference::line::Refusal;

    #[test]
    fn right_sheets_can_be_loaded() {
        let mut random = Random::new(1, 1);
        for _ in 0..2_000 {
            assert!(loadable(&written(&settings(&mut random))).is_ok());
            assert!(loadable(&written(&with_number(&mut random))).is_ok());
        }
    }

    #[test]
    fn wrong_sheets_are_hardly_ever_right_and_every_refusal_is_frequent() {
        let mut random = Random::new(1, 1);
        let mut counts = [0; 4];
        for _ in 0..2_000 {
            let kind = match loadable(&wrong(&mut random)) {
                Err(Refusal::MalformedSheet) => 0,
                Err(Refusal::SheetAddress) => 1,
                Err(Refusal::SheetValue) => 2,
                _ => 3,
            };
            counts[kind] += 1;
        }
        assert!(counts[0] > 1_000 && counts[1] > 300 && counts[2] > 300 && counts[3] < 20, "{counts:?}");
    }
}
