//! A line under a script, asked line by line.

use reference::script::{hex, Simulation};
use reference::telegram::Telegram;

pub const READ: u8 = 0;
pub const WRITE: u8 = 1;

pub struct Desk {
    simulation: Simulation,
    pub time: u32,
}

#[allow(dead_code)]
impl Desk {
    /// A line with fresh heads at these numbers, the first with serial 1, the next with 2 and so on.
    pub fn with_heads(nodes: &[u32]) -> Desk {
        let mut desk = Desk { simulation: Simulation::new(), time: 0 };
        for (node, serial) in nodes.iter().zip(1..) {
            assert_eq!(desk.line(&format!("head {node} {serial}")), "ok");
        }
        desk
    }

    /// The answer to a line of the script.
    pub fn line(&mut self, line: &str) -> String {
        self.simulation.answer(line.as_bytes()).expect("the line gives an answer")
    }

    pub fn ok(&mut self, line: &str) {
        assert_eq!(self.line(line), "ok", "{line}");
    }

    /// What a send of these bytes prints after 'sent'.
    pub fn send(&mut self, bytes: &str) -> String {
        let answer = self.line(&format!("send {} {bytes}", self.time));
        answer.strip_prefix("sent").expect("the bytes are fed").trim_start().to_string()
    }

    /// What a question prints after 'asked'; its fields are COMMAND, NODE, PARAMETER, WORD and DATA.
    pub fn ask(&mut self, fields: &str) -> String {
        let answer = self.line(&format!("ask {} {fields}", self.time));
        answer.strip_prefix("asked").expect("the question is fed").trim_start().to_string()
    }

    /// What a sound telegram draws.
    pub fn telegram(&mut self, command: u8, node: u8, parameter: u8, control_word: u16, data: i64) -> String {
        self.send(&hex(&Telegram::new(command, node, parameter, control_word, data as u32).bytes()))
    }

    /// What a telegram with a wrong check sum draws.
    pub fn damaged(&mut self, command: u8, node: u8) -> String {
        let mut bytes = Telegram::new(command, node, 0x20, 0, 0).bytes();
        bytes[9] ^= 0xFF;
        self.send(&hex(&bytes))
    }

    /// The data of node 31's reply to a read.
    pub fn read(&mut self, parameter: u8) -> i64 {
        let reply = self.telegram(READ, 31, parameter, 0, 0);
        assert_eq!(reply[..6], format!("001F{parameter:02X}"), "the read is answered");
        i64::from(u32::from_str_radix(&reply[10..18], 16).unwrap() as i32)
    }

    /// Writes at node 31, which has to be obeyed.
    pub fn write(&mut self, parameter: u8, data: i64) {
        self.write_with(parameter, 0, data);
    }

    pub fn write_with(&mut self, parameter: u8, control_word: u16, data: i64) -> String {
        let reply = self.telegram(WRITE, 31, parameter, control_word, data);
        assert_eq!(reply[..6], format!("011F{parameter:02X}"), "the write is answered");
        reply
    }

    /// The error code with which node 31 refuses a telegram.
    pub fn refusal(&mut self, command: u8, parameter: u8, data: i64) -> u16 {
        code_of(&self.telegram(command, 31, parameter, 0, data))
    }

    pub fn status(&mut self) -> u16 {
        // Not by FAh, which clears the static bit.
        let reply = self.telegram(READ, 31, 0x65, 0, 0);
        u16::from_str_radix(&reply[6..10], 16).unwrap()
    }
}

/// The code in an error reply.
pub fn code_of(reply: &str) -> u16 {
    assert_eq!(reply.len(), 20, "one reply: {reply}");
    assert_eq!(&reply[4..6], "FD", "an error reply: {reply}");
    assert_eq!(&reply[10..14], "0000");
    u16::from_str_radix(&reply[14..18], 16).unwrap()
}
