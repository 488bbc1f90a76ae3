//! The ten bytes of a telegram, and the codes of error replies.

pub const TELEGRAM_LENGTH: usize = 10;

pub const READ: u8 = 0x00;
pub const WRITE: u8 = 0x01;
pub const BROADCAST: u8 = 0x02;

/// The parameter byte of an error reply.
pub const ERROR_TELEGRAM: u8 = 0xFD;

/// An error's two bytes, code 2 high and code 1 low, in the order in which they stand on the wire.
pub type ErrorCode = u16;

pub const CHECK_SUM: ErrorCode = 0x0080;
pub const BUS_TIMEOUT: ErrorCode = 0x0081;
pub const VALUE_NOT_LISTED: ErrorCode = 0x0082;
pub const VALUE_BELOW_LOW: ErrorCode = 0x0182;
pub const VALUE_ABOVE_HIGH: ErrorCode = 0x0282;
pub const UNKNOWN_PARAMETER: ErrorCode = 0x0083;
pub const COMMAND_NOT_SUPPORTED: ErrorCode = 0x0084;
pub const WRITE_TO_READ_ONLY: ErrorCode = 0x0184;
pub const READ_OF_WRITE_ONLY: ErrorCode = 0x0284;
pub const DEVICE_STATUS: ErrorCode = 0x0085;
pub const PROGRAMMING_LOCKED: ErrorCode = 0x0385;

pub type Reply = [u8; TELEGRAM_LENGTH];

#[derive(Clone, Copy, Debug)]
pub struct Telegram {
    bytes: [u8; TELEGRAM_LENGTH],
}

impl Telegram {
    /// The telegram that ten received bytes make, sound or not.
    pub fn received(bytes: [u8; TELEGRAM_LENGTH]) -> Telegram {
        Telegram { bytes }
    }

    /// A sound telegram of these fields.
    pub fn new(command: u8, node: u8, parameter: u8, control_word: u16, data: u32) -> Telegram {
        let [control_high, control_low] = control_word.to_be_bytes();
        let [data_1, data_2, data_3, data_4] = data.to_be_bytes();
        let mut bytes =
            [command, node, parameter, control_high, control_low, data_1, data_2, data_3, data_4, 0];
        bytes[9] = exclusive_or(&bytes);
        Telegram { bytes }
    }

    pub fn bytes(&self) -> [u8; TELEGRAM_LENGTH] {
        self.bytes
    }

    /// The check of the ten bytes: 0 if the telegram is sound, else the bits that were hit.
    pub fn exclusive_or(&self) -> u8 {
        exclusive_or(&self.bytes)
    }

    pub fn is_broadcast(&self) -> bool {
        self.command() == BROADCAST
    }

    pub fn command(&self) -> u8 {
        self.bytes[0]
    }

    pub fn node(&self) -> u8 {
        self.bytes[1]
    }

    pub fn parameter(&self) -> u8 {
        self.bytes[2]
    }

    pub fn control_word(&self) -> u16 {
        u16::from_be_bytes([self.bytes[3], self.bytes[4]])
    }

    pub fn data(&self) -> u32 {
        u32::from_be_bytes([self.bytes[5], self.bytes[6], self.bytes[7], self.bytes[8]])
    }

    /// The reply to this telegram: the same command, node and parameter, the status word for the control word.
    pub fn reply(&self, status_word: u16, data: u32) -> Reply {
        Telegram::new(self.command(), self.node(), self.parameter(), status_word, data).bytes
    }

    pub fn error_reply(&self, status_word: u16, code: ErrorCode) -> Reply {
        Telegram::new(self.command(), self.node(), ERROR_TELEGRAM, status_word, u32::from(code)).bytes
    }
}

fn exclusive_or(bytes: &[u8]) -> u8 {
    bytes.iter().fold(0, |sum, byte| sum ^ byte)
}

#[cfg(test)]
mod tests {
    use super::*;

    #[test]
    fn the_formula_decides_over_the_set_point_example() {
        let from_master = Telegram::new(WRITE, 1, 0xFF, 0x0200, 1234);
        assert_eq!(from_master.bytes()[9], 0x2B);
        assert_eq!(from_master.reply(0x0401, 1234)[9], 0x2C);
    }

    #[test]
    fn fields_stand_high_byte_first() {
        let telegram = Telegram::new(WRITE, 31, 0x1E, 0x1234, 0x5678_9ABC);
        assert_eq!(telegram.bytes()[..9], [1, 31, 0x1E, 0x12, 0x34, 0x56, 0x78, 0x9A, 0xBC]);
        assert_eq!(telegram.exclusive_or(), 0);
        assert_eq!(telegram.control_word(), 0x1234);
        assert_eq!(telegram.data(), 0x5678_9ABC);
    }

    #[test]
    fn any_flipped_bit_is_the_one_that_was_hit() {
        let sound = Telegram::new(READ, 31, 0x20, 0, 0).bytes();
        for bit in 0..80 {
            let mut damaged = sound;
            damaged[bit / 8] ^= 1 << (bit % 8);
            assert_eq!(Telegram::received(damaged).exclusive_or(), 1 << (bit % 8));
        }
    }
}
