//! What is put to a program: the lines of a script, of an order form or for the office.

/// Lines without their newlines; the last may lack its own. Without lines there is no newline either.
#[derive(Clone, Debug)]
pub struct Text {
    pub lines: Vec<Vec<u8>>,
    pub ends_in_newline: bool,
}

impl Text {
    pub fn bytes(&self) -> Vec<u8> {
        let mut bytes = self.lines.join(&b'\n');
        if self.ends_in_newline && !self.lines.is_empty() {
            bytes.push(b'\n');
        }
        bytes
    }
}
