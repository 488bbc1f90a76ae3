//! The parameter addresses: the 39 rows of limits and delivery values, the access groups, the values allowed.

use crate::telegram::{ErrorCode, VALUE_ABOVE_HIGH, VALUE_BELOW_LOW, VALUE_NOT_LISTED};

pub const NODE_ADDRESS: u8 = 0x00;
pub const BAUD_RATE: u8 = 0x01;
pub const BUS_TIMEOUT_TIME: u8 = 0x02;
pub const SET_POINT_RESPONSE: u8 = 0x03;
pub const CALIBRATION_KEY_ENABLE: u8 = 0x05;
pub const DISPLAY_DIVISOR: u8 = 0x0B;
pub const PROGRAMMING_CONFIGURATION: u8 = 0x0E;
pub const COUNTING_DIRECTION: u8 = 0x1B;
pub const OFFSET_VALUE: u8 = 0x1E;
pub const CALIBRATION_VALUE: u8 = 0x1F;
pub const TARGET_WINDOW_1: u8 = 0x20;
pub const OPERATING_MODE: u8 = 0x28;
pub const TARGET_WINDOW_2: u8 = 0x31;
pub const DIVISOR_APPLICATION: u8 = 0x33;
pub const DIFFERENTIAL_FORMATION: u8 = 0x34;
/// Still an address, though incremental measurement is retired: it knows 0 alone.
pub const INCREMENTAL_KEY_ENABLE: u8 = 0x35;
pub const ACKNOWLEDGEMENT_SETTINGS: u8 = 0x3E;
pub const RESPONSE_DELAY: u8 = 0xD0;

pub const DEVICE_IDENTIFICATION: u8 = 0x65;
pub const SOFTWARE_VERSION: u8 = 0x67;
pub const ERROR_COUNT: u8 = 0x80;
pub const FIRST_ERROR: u8 = 0x81;
pub const LAST_ERROR: u8 = 0x8A;
pub const INPUT_ERRORS: u8 = 0x96;
pub const SYSTEM_COMMAND: u8 = 0xA0;
pub const CALIBRATION_TRAVEL: u8 = 0xA7;
pub const PROGRAMMING_MODE: u8 = 0xA8;
pub const FREEZE: u8 = 0xAA;
pub const AUTO_ID: u8 = 0xD2;
pub const STATUS_WORD: u8 = 0xFA;
pub const SET_POINT_1: u8 = 0xFB;
pub const DIFFERENTIAL_VALUE: u8 = 0xFC;
pub const PENDING_ERROR: u8 = 0xFD;
pub const POSITION_VALUE: u8 = 0xFE;
pub const SET_POINT_2: u8 = 0xFF;

pub const BUS_PARAMETERS: [u8; 6] = [
    NODE_ADDRESS,
    BAUD_RATE,
    BUS_TIMEOUT_TIME,
    SET_POINT_RESPONSE,
    PROGRAMMING_CONFIGURATION,
    RESPONSE_DELAY,
];

#[derive(Clone, Copy, Debug)]
pub struct Row {
    pub address: u8,
    pub low: i32,
    pub high: i32,
    pub default: i32,
}

const fn row(address: u8, low: i32, high: i32, default: i32) -> Row {
    Row { address, low, high, default }
}

pub const ROW_COUNT: usize = 39;

pub const ROWS: [Row; ROW_COUNT] = [
    row(0x00, 1, 127, 31),
    row(0x01, 0, 2, 1),
    row(0x02, 0, 20, 0),
    row(0x03, 0, 2, 0),
    row(0x04, 1, 60, 5),
    row(0x05, 0, 1, 1),
    row(0x06, 0, 1, 0),
    row(0x07, 0, 1, 1),
    row(0x08, 0, 1, 1),
    row(0x09, 0, 1, 1),
    row(0x0A, 0, 4, 0),
    row(0x0B, 0, 3, 0),
    row(0x0C, 0, 2, 0),
    row(0x0D, 0, 1, 0),
    row(0x0E, 0, 1, 0),
    row(0x0F, 0, 99_999, 0),
    row(0x1B, 0, 1, 0),
    row(0x1C, 1, 65_535, 720),
    row(0x1E, -19_999, 19_999, 0),
    row(0x1F, -19_999, 99_999, 0),
    row(0x20, 0, 9_999, 5),
    row(0x21, 0, 2, 0),
    row(0x22, 0, 9_999, 0),
    row(0x28, 0, 3, 0),
    row(0x30, 0, 1, 0),
    row(0x31, 0, 9_999, 0),
    row(0x32, 0, 1, 0),
    row(0x33, 0, 2, 0),
    row(0x34, 0, 1, 0),
    row(0x35, 0, 0, 0),
    row(0x39, 0, 1, 1),
    row(0x3A, 0, 1, 0),
    row(0x3B, 0, 1, 1),
    row(0x3C, 0, 1, 1),
    row(0x3D, 0, 1, 1),
    row(0x3E, 0, 2, 0),
    row(0x3F, 0, 8, 0),
    row(0x40, 0, 1, 1),
    row(0xD0, 0, 20, 0),
];

/// Where a stored parameter stands among the rows; none for the addresses that are not stored.
pub fn place(address: u8) -> Option<usize> {
    ROWS.iter().position(|row| row.address == address)
}

#[derive(Clone, Copy, Debug, PartialEq, Eq)]
pub enum Access {
    ReadAndWrite,
    ReadOnly,
    WriteOnly,
    Unknown,
}

pub fn access(address: u8) -> Access {
    match address {
        SET_POINT_1 | SET_POINT_2 => Access::ReadAndWrite,
        DEVICE_IDENTIFICATION | SOFTWARE_VERSION | ERROR_COUNT | INPUT_ERRORS => Access::ReadOnly,
        FIRST_ERROR..=LAST_ERROR => Access::ReadOnly,
        STATUS_WORD | DIFFERENTIAL_VALUE | PENDING_ERROR | POSITION_VALUE => Access::ReadOnly,
        SYSTEM_COMMAND | CALIBRATION_TRAVEL | PROGRAMMING_MODE | FREEZE | AUTO_ID => Access::WriteOnly,
        _ if place(address).is_some() => Access::ReadAndWrite,
        _ => Access::Unknown,
    }
}

pub fn may_be_broadcast(address: u8) -> bool {
    matches!(address, SYSTEM_COMMAND | PROGRAMMING_MODE | FREEZE)
}

/// A8h is not among these: locking it would leave nobody able to unlock. Nor is D2h, by its entry in the manual.
pub fn is_lockable(address: u8) -> bool {
    address == SYSTEM_COMMAND || place(address).is_some()
}

/// The number that four data bytes mean to a parameter that is written.
pub fn number(address: u8, data: u32) -> i64 {
    match address {
        OFFSET_VALUE | CALIBRATION_VALUE | SET_POINT_2 => i64::from(data as i32),
        _ => i64::from(data),
    }
}

/// Low and high of a parameter that can be written; none for the two set points, which take any 32 bits.
pub fn limits(address: u8) -> Option<(i64, i64)> {
    match address {
        SYSTEM_COMMAND => Some((1, 9)),
        CALIBRATION_TRAVEL | FREEZE => Some((1, 1)),
        PROGRAMMING_MODE => Some((0, 1)),
        AUTO_ID => Some((1, 31)),
        _ => place(address).map(|place| (i64::from(ROWS[place].low), i64::from(ROWS[place].high))),
    }
}

/// Whether a value between low and high is one of those that the parameter knows.
fn is_listed(address: u8, value: i64) -> bool {
    match address {
        SYSTEM_COMMAND => matches!(value, 1 | 2 | 5 | 7 | 8 | 9),
        ACKNOWLEDGEMENT_SETTINGS => matches!(value, 0 | 2),
        _ => true,
    }
}

pub fn check_value(address: u8, data: u32) -> Result<(), ErrorCode> {
    let Some((low, high)) = limits(address) else {
        return Ok(());
    };
    let value = number(address, data);
    if value < low {
        Err(VALUE_BELOW_LOW)
    } else if value > high {
        Err(VALUE_ABOVE_HIGH)
    } else if !is_listed(address, value) {
        Err(VALUE_NOT_LISTED)
    } else {
        Ok(())
    }
}

#[cfg(test)]
mod tests {
    use super::*;

    #[test]
    fn rows_stand_in_order_and_hold_their_defaults() {
        for pair in ROWS.windows(2) {
            assert!(pair[0].address < pair[1].address);
        }
        for row in ROWS {
            assert!(row.low <= row.default && row.default <= row.high);
            assert_eq!(check_value(row.address, row.default as u32), Ok(()));
        }
    }

    #[test]
    fn the_access_groups_have_the_sizes_of_the_document() {
        let count = |group| (0..=255).filter(|&address| access(address) == group).count();
        assert_eq!(count(Access::ReadAndWrite), 39 + 2);
        assert_eq!(count(Access::ReadOnly), 2 + 1 + 10 + 1 + 4);
        assert_eq!(count(Access::WriteOnly), 4 + 1);
    }

    #[test]
    fn what_the_manual_has_and_the_document_leaves_out_is_unknown() {
        for address in [0x63, 0xC5, 0xCF, 0xD1, 0xD3, 0x8B, 0x1D, 0x41] {
            assert_eq!(access(address), Access::Unknown);
        }
    }

    #[test]
    fn limits_hold_at_both_ends_of_every_row() {
        for row in ROWS {
            assert_eq!(check_value(row.address, row.low as u32), Ok(()));
            assert_eq!(check_value(row.address, row.high as u32), Ok(()));
            assert_eq!(check_value(row.address, (row.high + 1) as u32), Err(VALUE_ABOVE_HIGH));
            // Below an unsigned row's 0 lies the highest of 32 bits.
            let below = if row.low == 0 { VALUE_ABOVE_HIGH } else { VALUE_BELOW_LOW };
            assert_eq!(check_value(row.address, (row.low - 1) as u32), Err(below));
        }
    }

    #[test]
    fn system_commands_between_the_listed_ones_are_inadequate() {
        assert_eq!(check_value(SYSTEM_COMMAND, 0), Err(VALUE_BELOW_LOW));
        for value in [3, 4, 6] {
            assert_eq!(check_value(SYSTEM_COMMAND, value), Err(VALUE_NOT_LISTED));
        }
        for value in [1, 2, 5, 7, 8, 9] {
            assert_eq!(check_value(SYSTEM_COMMAND, value), Ok(()));
        }
        assert_eq!(check_value(SYSTEM_COMMAND, 10), Err(VALUE_ABOVE_HIGH));
    }

    #[test]
    fn auto_id_offers_1_to_31_in_all_four_data_bytes() {
        assert_eq!(check_value(AUTO_ID, 0), Err(VALUE_BELOW_LOW));
        for value in 1..=31 {
            assert_eq!(check_value(AUTO_ID, value), Ok(()));
        }
        for value in [32, 127, 255, 256 + 5, 0x0500_0000, 0x8000_0005, u32::MAX] {
            assert_eq!(check_value(AUTO_ID, value), Err(VALUE_ABOVE_HIGH));
        }
    }

    #[test]
    fn the_set_points_take_any_32_bits() {
        for data in [0, 1, 0x7FFF_FFFF, 0x8000_0000, 0xFFFF_FFFF] {
            assert_eq!(check_value(SET_POINT_1, data), Ok(()));
            assert_eq!(check_value(SET_POINT_2, data), Ok(()));
        }
    }
}
