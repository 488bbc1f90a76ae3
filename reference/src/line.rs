//! The line: 0 to 32 heads, each with a serial of its own, the calls on it and their refusals.

use crate::head::{Head, HIGHEST_MEASUREMENT};
use crate::telegram::{Reply, TELEGRAM_LENGTH};

pub const MOST_HEADS: usize = 32;
/// In bytes: 64 telegrams.
pub const LONGEST_RACK: usize = 64 * TELEGRAM_LENGTH;
const HIGHEST_KEY_STATE: u32 = 7;

/// The refusals that a line made by calls alone, a master and a sheet can give, with the documents' numbers.
#[derive(Clone, Copy, Debug, PartialEq, Eq)]
pub enum Refusal {
    NodeNumber = 1,
    ThirtyThirdHead = 2,
    HeadNumber = 3,
    Measurement = 4,
    KeyState = 5,
    ReplySpace = 6,
    CommandOrNode = 10,
    MalformedSheet = 11,
    SheetAddress = 12,
    SheetValue = 13,
    SheetSpace = 14,
    RackLength = 15,
    RackSpace = 16,
    SerialOnTheLine = 17,
}

impl Refusal {
    pub fn number(self) -> u32 {
        self as u32
    }
}

/// What came of a rack: the replies that were laid, and how many telegrams drew more than one.
#[derive(Clone, Copy, Debug, Default, PartialEq, Eq)]
pub struct Racked {
    pub replies: usize,
    pub collisions: usize,
}

#[derive(Clone, Debug, Default)]
pub struct Line {
    heads: Vec<Head>,
}

impl Line {
    pub fn new() -> Line {
        Line::default()
    }

    pub fn heads(&self) -> &[Head] {
        &self.heads
    }

    /// Grows the line by a new head. Its node number may be that of another, as on an old machine; its serial may
    /// not.
    pub fn grow(&mut self, node: u32, serial: u32) -> Result<(), Refusal> {
        if self.heads.len() == MOST_HEADS {
            return Err(Refusal::ThirtyThirdHead);
        }
        let node = match node {
            1..=127 => node as u8,
            _ => return Err(Refusal::NodeNumber),
        };
        if self.heads.iter().any(|head| head.serial() == serial) {
            return Err(Refusal::SerialOnTheLine);
        }
        self.heads.push(Head::new(node, serial));
        Ok(())
    }

    /// Every head hears the byte. The answer is the number of replies; one alone stands in the first ten
    /// bytes of the space, two or more are a collision and leave it as it was.
    pub fn byte(&mut self, time: u32, byte: u8, space: &mut [u8]) -> Result<usize, Refusal> {
        if space.len() < TELEGRAM_LENGTH {
            return Err(Refusal::ReplySpace);
        }
        // All heads act before anything is decided about replies: heads do not hear them.
        let replies: Vec<Reply> = self.heads.iter_mut().filter_map(|head| head.byte(time, byte)).collect();
        if let [reply] = replies.as_slice() {
            space[..TELEGRAM_LENGTH].copy_from_slice(reply);
        }
        Ok(replies.len())
    }

    /// A rack of whole telegrams: every head drops what it has gathered, then all hear the bytes one after another,
    /// all at this time. The replies stand one behind the other in the space from the place on; a collision leaves
    /// none, and all other bytes are as they were.
    pub fn rack(
        &mut self,
        time: u32,
        bytes: &[u8],
        place: usize,
        space: &mut [u8],
    ) -> Result<Racked, Refusal> {
        if !bytes.len().is_multiple_of(TELEGRAM_LENGTH) || bytes.len() > LONGEST_RACK {
            return Err(Refusal::RackLength);
        }
        // From the end of the space on there is room for no byte, beyond it there is no room at all.
        let room = space.get_mut(place..).ok_or(Refusal::RackSpace)?;
        if room.len() < bytes.len() {
            return Err(Refusal::RackSpace);
        }
        self.heads.iter_mut().for_each(Head::drop_gathered);
        let mut racked = Racked::default();
        for &byte in bytes {
            // Ten bytes at least: no reply so far took more room than the telegram that drew it.
            let rest = &mut room[racked.replies * TELEGRAM_LENGTH..];
            match self.byte(time, byte, rest).expect("there is room for a reply to every telegram") {
                0 => {}
                1 => racked.replies += 1,
                _ => racked.collisions += 1,
            }
        }
        Ok(racked)
    }

    pub fn tick(&mut self, time: u32) {
        for head in &mut self.heads {
            head.tick(time);
        }
    }

    pub fn measure(&mut self, head: u32, measurement: i32) -> Result<(), Refusal> {
        let head = self.head(head)?;
        if !(-HIGHEST_MEASUREMENT..=HIGHEST_MEASUREMENT).contains(&measurement) {
            return Err(Refusal::Measurement);
        }
        head.measure(measurement);
        Ok(())
    }

    /// The answer is whether the head replied, as it does when it adopts a number; the reply stands in the
    /// first ten bytes of the space, and without one it is as it was.
    pub fn keys(&mut self, head: u32, state: u32, space: &mut [u8]) -> Result<bool, Refusal> {
        let head = self.head(head)?;
        if state > HIGHEST_KEY_STATE {
            return Err(Refusal::KeyState);
        }
        if space.len() < TELEGRAM_LENGTH {
            return Err(Refusal::ReplySpace);
        }
        let reply = head.set_keys(state as u8);
        if let Some(reply) = &reply {
            space[..TELEGRAM_LENGTH].copy_from_slice(reply);
        }
        Ok(reply.is_some())
    }

    pub fn power(&mut self, head: u32) -> Result<(), Refusal> {
        self.head(head)?.restart();
        Ok(())
    }

    /// The number that a head was made with.
    pub fn serial(&self, head: u32) -> Result<u32, Refusal> {
        Ok(self.head_as_it_is(head)?.serial())
    }

    /// The exclusive-or of the last damaged telegram that a head heard.
    pub fn bits_hit(&self, head: u32) -> Result<u8, Refusal> {
        Ok(self.head_as_it_is(head)?.bits_hit())
    }

    /// Writes a head's settings as a sheet into the first bytes of the space; those after it are as they were.
    pub fn save(&self, head: u32, space: &mut [u8]) -> Result<(), Refusal> {
        self.head_as_it_is(head)?.save(space)
    }

    pub fn load(&mut self, head: u32, sheet: &[u8]) -> Result<(), Refusal> {
        self.head(head)?.load(sheet)
    }

    /// Brings one older head over. What the other heads are has no say: they are brought over one after another.
    pub fn bring(&mut self, head: u32) -> Result<(), Refusal> {
        self.head(head)?.bring();
        Ok(())
    }

    fn head_as_it_is(&self, number: u32) -> Result<&Head, Refusal> {
        self.heads.get(number as usize).ok_or(Refusal::HeadNumber)
    }

    fn head(&mut self, number: u32) -> Result<&mut Head, Refusal> {
        self.heads.get_mut(number as usize).ok_or(Refusal::HeadNumber)
    }
}

#[cfg(test)]
mod tests {
    use super::*;

    /// Three heads, of which the first two are older ones: 35h at 1, and in the first incremental on since 900.
    fn with_older_heads() -> Line {
        let mut line = Line::new();
        for (node, serial) in [(31, 1), (12, 2), (5, 3)] {
            line.grow(node, serial).unwrap();
            line.measure(serial - 1, 1_000).unwrap();
        }
        line.heads[0].make_older(1, Some(900));
        line.heads[1].make_older(1, None);
        line
    }

    fn older(line: &Line) -> Vec<bool> {
        line.heads.iter().map(Head::is_older).collect()
    }

    fn everything(line: &Line) -> String {
        format!("{line:?}")
    }

    /// In either order; the one that is still an older head refuses neither call.
    #[test]
    fn older_heads_are_brought_over_one_after_another() {
        for (order, between) in [([0, 1], [false, true, false]), ([1, 0], [true, false, false])] {
            let mut line = with_older_heads();
            assert_eq!(older(&line), [true, true, false]);
            assert_eq!(line.bring(order[0]), Ok(()));
            assert_eq!(older(&line), between);
            assert_eq!(line.bring(order[1]), Ok(()));
            assert_eq!(older(&line), [false, false, false]);
            assert!(line.heads.iter().all(|head| head.position() == 1_000 && head.value(0x35) == 0));
        }
    }

    /// Beside two older heads one that is none is as good as any, and nothing changes.
    #[test]
    fn a_head_beside_older_ones_stays_as_it_is() {
        let mut line = with_older_heads();
        let before = everything(&line);
        assert_eq!(line.bring(2), Ok(()));
        assert_eq!(everything(&line), before);
    }

    #[test]
    fn past_the_count_the_call_is_refused_3_and_changes_nothing() {
        let mut line = with_older_heads();
        let before = everything(&line);
        for head in [3, 32, 256, 65_536, u32::MAX] {
            assert_eq!(line.bring(head), Err(Refusal::HeadNumber), "{head}");
        }
        assert_eq!(everything(&line), before);
        assert_eq!(Line::new().bring(0), Err(Refusal::HeadNumber));
    }

    /// The others are as they were.
    #[test]
    fn one_head_alone_is_brought_over() {
        let mut line = with_older_heads();
        let before: Vec<String> = line.heads.iter().map(|head| format!("{head:?}")).collect();
        line.bring(0).unwrap();
        let after: Vec<String> = line.heads.iter().map(|head| format!("{head:?}")).collect();
        assert_ne!(after[0], before[0]);
        assert_eq!(after[1..], before[1..]);
        assert_eq!(line.serial(0), Ok(1));
    }
}
