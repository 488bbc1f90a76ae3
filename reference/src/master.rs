//! The other end of the wire, request (vi): the telegram that asks a question, and what came of it.

use crate::line::Refusal;
use crate::telegram::{ErrorCode, Telegram, BROADCAST, ERROR_TELEGRAM, READ, TELEGRAM_LENGTH};

const HIGHEST_NODE: u8 = 127;

/// The fields of a command telegram, whether one can be built from them or not.
#[derive(Clone, Copy, Debug, PartialEq, Eq)]
pub struct Question {
    pub command: u8,
    pub node: u8,
    pub parameter: u8,
    pub control_word: u16,
    pub data: u32,
}

/// What a master makes of bytes that came back.
#[derive(Clone, Copy, Debug, PartialEq, Eq)]
pub enum Finding {
    /// All four data bytes, without a sign whatever the parameter.
    Value(u32),
    Error(ErrorCode),
    /// Not a reply to what was asked.
    Foreign,
}

impl Question {
    /// The ten bytes that ask it. Node 0 is no head's number, but it can be asked: a broadcast may carry it.
    pub fn telegram(&self) -> Result<[u8; TELEGRAM_LENGTH], Refusal> {
        if self.command > BROADCAST || self.node > HIGHEST_NODE {
            return Err(Refusal::CommandOrNode);
        }
        let Question { command, node, parameter, control_word, data } = *self;
        Ok(Telegram::new(command, node, parameter, control_word, data).bytes())
    }

    /// What these bytes, however many, say to the question.
    pub fn finding(&self, bytes: &[u8]) -> Finding {
        let Some(reply) = self.reply_in(bytes) else {
            return Finding::Foreign;
        };
        if self.is_refused_by(&reply) {
            // The code has the low two of the data bytes; the others are not looked at.
            Finding::Error(reply.data() as ErrorCode)
        } else {
            Finding::Value(reply.data())
        }
    }

    /// The telegram that the bytes are, if it is one that belongs to the question.
    fn reply_in(&self, bytes: &[u8]) -> Option<Telegram> {
        let reply = Telegram::received(bytes.try_into().ok()?);
        (reply.exclusive_or() == 0 && self.owns(&reply)).then_some(reply)
    }

    /// The status word is not looked at: it is the head's own, not a copy.
    fn owns(&self, reply: &Telegram) -> bool {
        self.command != BROADCAST
            && (reply.command(), reply.node()) == (self.command, self.node)
            && (reply.parameter() == self.parameter || reply.parameter() == ERROR_TELEGRAM)
    }

    /// Whether a reply that belongs to the question is an error reply. FDh is a parameter as well, which can
    /// be read but not written, so that its own number in the reply to a read is that of a value.
    fn is_refused_by(&self, reply: &Telegram) -> bool {
        let asks_for_the_error = self.command == READ && self.parameter == ERROR_TELEGRAM;
        reply.parameter() == ERROR_TELEGRAM && !asks_for_the_error
    }
}

#[cfg(test)]
mod tests {
    use super::*;
    use crate::telegram::WRITE;

    const READ_OF_20H: Question =
        Question { command: READ, node: 31, parameter: 0x20, control_word: 0, data: 0 };

    #[test]
    fn the_fields_stand_where_document_01_has_them() {
        let question =
            Question { command: WRITE, node: 127, parameter: 0x1E, control_word: 0x1234, data: 0x5678_9ABC };
        // 01 ^ 7F ^ 1E ^ 12 ^ 34 ^ 56 ^ 78 ^ 9A ^ BC = 4E.
        let bytes = [0x01, 0x7F, 0x1E, 0x12, 0x34, 0x56, 0x78, 0x9A, 0xBC, 0x4E];
        assert_eq!(question.telegram(), Ok(bytes));
    }

    #[test]
    fn exactly_commands_0_to_2_at_nodes_0_to_127_are_built() {
        for command in 0..=255 {
            for node in 0..=255 {
                let question = Question { command, node, ..READ_OF_20H };
                assert_eq!(question.telegram().is_ok(), command < 3 && node < 128, "{command} {node}");
            }
        }
    }

    #[test]
    fn any_bit_hit_makes_a_reply_foreign() {
        let reply = [0x00, 0x1F, 0x20, 0x00, 0x00, 0x00, 0x00, 0x00, 0x05, 0x3A];
        assert_eq!(READ_OF_20H.finding(&reply), Finding::Value(5));
        for bit in 0..80 {
            let mut hit = reply;
            hit[bit / 8] ^= 1 << (bit % 8);
            assert_eq!(READ_OF_20H.finding(&hit), Finding::Foreign, "bit {bit}");
        }
    }

    /// The same bit of two bytes, so that the check does not see it: of the three bytes that are copied, the
    /// two of the status word and the four of the data.
    #[test]
    fn only_a_copied_byte_that_differs_makes_a_sound_reply_foreign() {
        let reply = [0x00, 0x1F, 0x20, 0x00, 0x00, 0x00, 0x00, 0x00, 0x05, 0x3A];
        for place in 0..9 {
            let mut other = reply;
            other[place] ^= 0x40;
            other[9] ^= 0x40;
            let finding = match place {
                0..=2 => Finding::Foreign,
                3..=4 => Finding::Value(5),
                _ => Finding::Value(5 ^ 0x40 << (8 * (8 - place))),
            };
            assert_eq!(READ_OF_20H.finding(&other), finding, "byte {place}");
        }
    }
}
