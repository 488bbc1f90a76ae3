//! The sheet on which settings travel, request (vii): how many rows there are, then for each its address and the
//! place of its body, then the bodies.

use crate::line::Refusal;
use crate::rows::{self, ROW_COUNT};

const COUNT_LENGTH: usize = 1;
const ENTRY_LENGTH: usize = 3;
const BODY_LENGTH: usize = 4;

/// The length of a sheet that a head writes: it has all 39 rows.
pub const WRITTEN_LENGTH: usize = body_place(ROW_COUNT, ROW_COUNT);

/// What a row says.
#[derive(Clone, Copy, Debug, PartialEq, Eq)]
pub struct Setting {
    pub address: u8,
    /// As the data of a telegram have it, so two's complement where the parameter has a sign.
    pub value: u32,
}

/// A well-formed sheet, and how many of its rows have been handed out.
#[derive(Clone, Debug)]
pub struct Reader<'a> {
    sheet: &'a [u8],
    rows_read: usize,
}

impl Reader<'_> {
    /// The whole sheet is looked at before the first row is handed out.
    pub fn new(sheet: &[u8]) -> Result<Reader<'_>, Refusal> {
        match is_well_formed(sheet) {
            true => Ok(Reader { sheet, rows_read: 0 }),
            false => Err(Refusal::MalformedSheet),
        }
    }
}

impl Iterator for Reader<'_> {
    type Item = Setting;

    /// The next row; none if there is none left, however often it is asked for.
    fn next(&mut self) -> Option<Setting> {
        let row = self.rows_read;
        if row == row_count(self.sheet)? {
            return None;
        }
        self.rows_read += 1;
        let body = &self.sheet[place(self.sheet, row)..][..BODY_LENGTH];
        let value = body.iter().fold(0, |value, &byte| value << 8 | u32::from(byte));
        Some(Setting { address: address(self.sheet, row), value })
    }
}

/// What a sheet that can be loaded stores. Each refusal is looked for in all rows before the next one is.
pub fn loadable(sheet: &[u8]) -> Result<impl Iterator<Item = Setting> + '_, Refusal> {
    let settings = Reader::new(sheet)?.map(as_of_today);
    let is_stored = |setting: Setting| rows::place(setting.address).is_some();
    let is_in_range = |setting: Setting| rows::check_value(setting.address, setting.value).is_ok();
    if !settings.clone().all(is_stored) {
        return Err(Refusal::SheetAddress);
    }
    if !settings.clone().all(is_in_range) {
        return Err(Refusal::SheetValue);
    }
    Ok(settings)
}

/// Sheets from before incremental measurement was retired have 35h at 0 or 1, and are to be of use still.
fn as_of_today(setting: Setting) -> Setting {
    match setting {
        Setting { address: rows::INCREMENTAL_KEY_ENABLE, value: 1 } => Setting { value: 0, ..setting },
        _ => setting,
    }
}

/// The sheet of these rows, which the caller has in rising order of their addresses and at most 39 of.
pub fn written(settings: &[Setting]) -> Vec<u8> {
    let rows = settings.len();
    let mut sheet = vec![rows as u8];
    for (row, setting) in settings.iter().enumerate() {
        sheet.push(setting.address);
        sheet.extend((body_place(rows, row) as u16).to_be_bytes());
    }
    for setting in settings {
        sheet.extend(setting.value.to_be_bytes());
    }
    sheet
}

/// The one place where a body can stand, as bodies follow the contents in row order without gaps; that of the
/// body after the last is where the sheet ends.
const fn body_place(rows: usize, row: usize) -> usize {
    COUNT_LENGTH + rows * ENTRY_LENGTH + row * BODY_LENGTH
}

fn is_well_formed(sheet: &[u8]) -> bool {
    let Some(rows) = row_count(sheet) else {
        return false;
    };
    // The length goes first: it says that there are bytes to look at.
    rows <= ROW_COUNT
        && sheet.len() == body_place(rows, rows)
        && (0..rows).all(|row| place(sheet, row) == body_place(rows, row))
        && (1..rows).all(|row| address(sheet, row - 1) < address(sheet, row))
}

/// None of a sheet without any byte.
fn row_count(sheet: &[u8]) -> Option<usize> {
    sheet.first().copied().map(usize::from)
}

fn entry(sheet: &[u8], row: usize) -> &[u8] {
    &sheet[COUNT_LENGTH + row * ENTRY_LENGTH..][..ENTRY_LENGTH]
}

fn address(sheet: &[u8], row: usize) -> u8 {
    entry(sheet, row)[0]
}

fn place(sheet: &[u8], row: usize) -> usize {
    let entry = entry(sheet, row);
    usize::from(u16::from_be_bytes([entry[1], entry[2]]))
}

#[cfg(test)]
mod tests {
    use super::*;

    #[test]
    fn a_sheet_of_all_rows_has_274_bytes() {
        // 1 + 39 * 3 = 118, and 39 * 4 = 156 more.
        assert_eq!(body_place(39, 0), 118);
        assert_eq!(body_place(39, 38), 270);
        assert_eq!(WRITTEN_LENGTH, 274);
    }

    #[test]
    fn what_is_written_is_read_back_row_by_row() {
        let settings: Vec<Setting> =
            (0..39).map(|row| Setting { address: 3 * row, value: 0x0102_0304 * u32::from(row) }).collect();
        for rows in 0..=39 {
            let sheet = written(&settings[..rows]);
            let read: Vec<Setting> = Reader::new(&sheet).unwrap().collect();
            assert_eq!(read, settings[..rows]);
        }
    }

    /// Count, addresses and places all have one value that fits what the others say, but for an address that
    /// stays between its neighbours.
    #[test]
    fn any_other_byte_in_the_contents_is_malformed_or_another_address() {
        let settings = [0x03, 0x04, 0x20].map(|address| Setting { address, value: 0 });
        let sheet = written(&settings);
        for place in 0..10 {
            for byte in (0..=255).filter(|&byte| byte != sheet[place]) {
                let mut other = sheet.clone();
                other[place] = byte;
                let is_between = match place {
                    1 => byte < 0x04,
                    4 => 0x03 < byte && byte < 0x20,
                    7 => 0x04 < byte,
                    _ => false,
                };
                assert_eq!(Reader::new(&other).is_ok(), is_between, "{byte} at {place}");
            }
        }
    }
}
