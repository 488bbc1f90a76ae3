//! One head: what it holds, a telegram's way through it, and what each telegram, key, measurement and tick does.

use crate::line::Refusal;
use crate::rows::{self, Access, ROWS, ROW_COUNT};
use crate::sheet::{self, Setting, WRITTEN_LENGTH};
use crate::telegram::{
    self, ErrorCode, Reply, Telegram, CHECK_SUM, COMMAND_NOT_SUPPORTED, DEVICE_STATUS, PROGRAMMING_LOCKED,
    READ, READ_OF_WRITE_ONLY, TELEGRAM_LENGTH, UNKNOWN_PARAMETER, VALUE_ABOVE_HIGH, VALUE_BELOW_LOW, WRITE,
    WRITE_TO_READ_ONLY,
};
use std::collections::VecDeque;

pub mod engine;

pub const FACTORY_NODE: u8 = 31;
pub const HIGHEST_MEASUREMENT: i32 = 2_500_000;
pub const HIGHEST_DIFFERENTIAL: i64 = 5_242_880;

const LONGEST_GAP: u32 = 10;
const TIMEOUT_STEP: u32 = 100;
const DAMAGED_FOR_AN_ERROR: u32 = 3;

/// The value of A0h that restarts the head.
const RESTART: u32 = 9;

/// The value of 28h with which the head shows its set points and minds no position.
const ALPHA_NUMERIC: i32 = 3;

/// The value of 3Eh with which star acknowledges set points too.
const LEFT_AND_STAR: i32 = 2;

const CONTROL_SET_POINT_1_VALID: u16 = 1 << 2;
const CONTROL_CLEAR_STATIC: u16 = 1 << 4;
const CONTROL_ACKNOWLEDGE_ERROR: u16 = 1 << 5;
const CONTROL_ACKNOWLEDGE_SET_POINT_2: u16 = 1 << 6;
const CONTROL_CHARACTERS: u16 = 1 << 7;
const CONTROL_SET_POINT_2_VALID: u16 = 1 << 9;
const CONTROL_ACKNOWLEDGE_SET_POINT_1: u16 = 1 << 10;

const STATUS_CLOCKWISE: u16 = 1 << 0;
const STATUS_COUNTER_CLOCKWISE: u16 = 1 << 1;
const STATUS_SET_POINT_1_VALID: u16 = 1 << 2;
const STATUS_IN_WINDOW_2: u16 = 1 << 3;
const STATUS_STATIC: u16 = 1 << 4;
const STATUS_IN_WINDOW_1: u16 = 1 << 5;
const STATUS_ABOVE: u16 = 1 << 6;
const STATUS_ERROR_PENDING: u16 = 1 << 7;
const STATUS_FROZEN: u16 = 1 << 8;
const STATUS_SET_POINT_2_VALID: u16 = 1 << 10;
const STATUS_KEYS_FROM: u16 = 13;

/// What bits mean in the alpha-numeric display alone; the last of them is 0 in all other modes.
const STATUS_SET_POINT_1_ACKNOWLEDGED: u16 = 1 << 3;
const STATUS_SET_POINT_2_ACKNOWLEDGED: u16 = 1 << 5;
const STATUS_CHARACTERS: u16 = 1 << 9;

pub const KEY_LEFT: u8 = 1;
pub const KEY_STAR: u8 = 2;
pub const KEY_UP: u8 = 4;

/// Up to ten error codes, the oldest first.
#[derive(Clone, Debug, Default)]
struct ErrorList {
    codes: VecDeque<ErrorCode>,
}

impl ErrorList {
    const PLACES: usize = 10;

    fn enter(&mut self, code: ErrorCode) {
        if self.codes.len() == ErrorList::PLACES {
            self.codes.pop_front();
        }
        self.codes.push_back(code);
    }

    fn count(&self) -> usize {
        self.codes.len()
    }

    /// The code at a place counted from 1, the oldest; 0 where there is none.
    fn nth_oldest(&self, number: usize) -> ErrorCode {
        match number.checked_sub(1) {
            Some(index) => self.codes.get(index).copied().unwrap_or(0),
            None => 0,
        }
    }
}

/// Only a valid one is ever acknowledged, and only in the alpha-numeric display.
#[derive(Clone, Debug, Default)]
struct SetPoint {
    data: u32,
    is_valid: bool,
    is_acknowledged: bool,
}

impl SetPoint {
    /// One that was just written, so that nobody has acknowledged it.
    fn new(data: u32, is_valid: bool) -> SetPoint {
        SetPoint { data, is_valid, is_acknowledged: false }
    }

    fn lacks_acknowledgement(&self) -> bool {
        self.is_valid && !self.is_acknowledged
    }

    fn acknowledge(&mut self) {
        self.is_acknowledged = self.is_valid;
    }

    /// The data stay.
    fn make_invalid(&mut self) {
        self.is_valid = false;
        self.is_acknowledged = false;
    }
}

/// What a restart clears, each at its first value.
#[derive(Clone, Debug, Default)]
struct Running {
    set_point_1: SetPoint,
    set_point_2: SetPoint,
    taken_control_word: u16,
    static_bit: bool,
    pending_error: Option<ErrorCode>,
    damaged_in_a_row: u32,
    bits_hit: u8,
    input_errors: ErrorList,
    keys: u8,
    number_on_offer: Option<u8>,
    kept_position: Option<i64>,
    /// The measurement at which an older head was switched to incremental measurement; no head of today ever is.
    incremental_start: Option<i32>,
    monitor_started_at: Option<u32>,
    gathered: Vec<u8>,
    last_byte_at: u32,
}

#[derive(Clone, Debug)]
pub struct Head {
    /// The head's own from the day it is made: no parameter and on no sheet, so that nothing changes it.
    serial: u32,
    values: [i32; ROW_COUNT],
    number_in_force: u8,
    baud_in_force: u8,
    interlock_open: bool,
    error_memory: ErrorList,
    measurement: i32,
    zero: i32,
    adopted_calibration: i32,
    running: Running,
}

/// What the checks make of a sound telegram.
enum Verdict {
    Obeyed,
    Refused(ErrorCode),
    NotForThisHead,
}

impl Head {
    /// A new head at a number that the caller has found to be 1 to 127. Any serial will do: which are taken is known
    /// to a line alone.
    pub fn new(node: u8, serial: u32) -> Head {
        let mut values = ROWS.map(|row| row.default);
        values[place_of(rows::NODE_ADDRESS)] = i32::from(node);
        let mut head = Head {
            serial,
            values,
            number_in_force: node,
            baud_in_force: 0,
            interlock_open: false,
            error_memory: ErrorList::default(),
            measurement: 0,
            zero: 0,
            adopted_calibration: 0,
            running: Running::default(),
        };
        head.restart();
        head
    }

    pub fn factory(serial: u32) -> Head {
        Head::new(FACTORY_NODE, serial)
    }

    // What a driver or a test may ask.

    pub fn number_in_force(&self) -> u8 {
        self.number_in_force
    }

    pub fn baud_in_force(&self) -> u8 {
        self.baud_in_force
    }

    /// A stored value; the address is one of the 39.
    pub fn value(&self, address: u8) -> i32 {
        self.values[place_of(address)]
    }

    /// Whether the head is from before incremental measurement was retired and has something of it left. None that is
    /// made here is.
    pub fn is_older(&self) -> bool {
        self.value(rows::INCREMENTAL_KEY_ENABLE) > 0 || self.running.incremental_start.is_some()
    }

    /// All stored values, in the order of the rows, which is that of their addresses.
    fn sheet(&self) -> Vec<u8> {
        let setting =
            |row: rows::Row| Setting { address: row.address, value: self.value(row.address) as u32 };
        sheet::written(&ROWS.map(setting))
    }

    pub fn is_locked(&self) -> bool {
        self.value(rows::PROGRAMMING_CONFIGURATION) == 1 && !self.interlock_open
    }

    /// Whether the head is in mode 3 of 28h.
    pub fn is_alpha_numeric(&self) -> bool {
        self.value(rows::OPERATING_MODE) == ALPHA_NUMERIC
    }

    pub fn measurement(&self) -> i32 {
        self.measurement
    }

    pub fn keys(&self) -> u8 {
        self.running.keys
    }

    /// The number that up would adopt.
    pub fn number_on_offer(&self) -> Option<u8> {
        self.running.number_on_offer
    }

    pub fn set_point_2(&self) -> i32 {
        self.running.set_point_2.data as i32
    }

    pub fn gathered_count(&self) -> usize {
        self.running.gathered.len()
    }

    pub fn monitor_started_at(&self) -> Option<u32> {
        self.running.monitor_started_at
    }

    pub fn input_error_count(&self) -> usize {
        self.running.input_errors.count()
    }

    // The calls.

    /// The number that the head was made with.
    pub fn serial(&self) -> u32 {
        self.serial
    }

    /// The exclusive-or of the last damaged telegram heard, whomever it was for; 0 if there was none since
    /// the restart.
    pub fn bits_hit(&self) -> u8 {
        self.running.bits_hit
    }

    /// One byte heard on the line; the reply if the head answers.
    pub fn byte(&mut self, time: u32, byte: u8) -> Option<Reply> {
        let ear = &mut self.running;
        if time.wrapping_sub(ear.last_byte_at) > LONGEST_GAP {
            ear.gathered.clear();
        }
        ear.last_byte_at = time;
        ear.gathered.push(byte);
        let bytes: [u8; TELEGRAM_LENGTH] = ear.gathered.as_slice().try_into().ok()?;
        ear.gathered.clear();
        self.hear(time, Telegram::received(bytes))
    }

    /// Forgets the bytes of a telegram that has begun: as if they had not been heard, as only ten together are checked.
    pub fn drop_gathered(&mut self) {
        self.running.gathered.clear();
    }

    pub fn tick(&mut self, time: u32) {
        let timeout = self.value(rows::BUS_TIMEOUT_TIME) as u32 * TIMEOUT_STEP;
        let Some(started_at) = self.running.monitor_started_at else {
            return;
        };
        if timeout > 0 && time.wrapping_sub(started_at) >= timeout {
            self.running.monitor_started_at = None;
            self.raise(telegram::BUS_TIMEOUT);
        }
    }

    /// A measurement that the caller has found to be in range.
    pub fn measure(&mut self, measurement: i32) {
        self.measurement = measurement;
        self.set_static_bit_in_window();
    }

    /// A key state that the caller has found to be 0 to 7; the reply if the head adopts the number on offer.
    pub fn set_keys(&mut self, keys: u8) -> Option<Reply> {
        let status_word_before = self.status_word();
        let newly_pressed = keys & !self.running.keys;
        self.running.keys = keys;
        if newly_pressed & KEY_LEFT != 0 {
            self.left_pressed();
        }
        if newly_pressed & KEY_STAR != 0 {
            self.star_pressed();
        }
        if newly_pressed & KEY_UP != 0 {
            return self.up_pressed(status_word_before);
        }
        None
    }

    /// Writes all 39 stored values as a sheet into the first bytes of the space.
    pub fn save(&self, space: &mut [u8]) -> Result<(), Refusal> {
        let room = space.get_mut(..WRITTEN_LENGTH).ok_or(Refusal::SheetSpace)?;
        room.copy_from_slice(&self.sheet());
        Ok(())
    }

    /// Stores what a sheet says, or nothing of it. The sheet does not come over the line, so the interlock has no
    /// say; and a value of 00h or 01h waits for the restart as a written one does.
    pub fn load(&mut self, sheet: &[u8]) -> Result<(), Refusal> {
        let mut values = self.values;
        for Setting { address, value } in sheet::loadable(sheet)? {
            values[place_of(address)] = value as i32;
        }
        self.change_values(values);
        Ok(())
    }

    /// Brings an older head over: 35h becomes 0, and its position is absolute again. It is no telegram and no restart, so
    /// that all else is kept.
    pub fn bring(&mut self) {
        self.values[place_of(rows::INCREMENTAL_KEY_ENABLE)] = 0;
        self.running.incremental_start = None;
    }

    /// Restart, by power or by A0h 9.
    pub fn restart(&mut self) {
        self.number_in_force = self.value(rows::NODE_ADDRESS) as u8;
        self.baud_in_force = self.value(rows::BAUD_RATE) as u8;
        self.running = Running::default();
    }

    // A telegram's way through the head.

    fn hear(&mut self, time: u32, telegram: Telegram) -> Option<Reply> {
        if telegram.exclusive_or() != 0 {
            return self.hear_damaged(&telegram);
        }
        self.running.damaged_in_a_row = 0;
        self.running.monitor_started_at = Some(time);
        match self.verdict(&telegram) {
            Verdict::NotForThisHead => None,
            Verdict::Refused(code) => {
                if aborts_auto_id(&telegram, code) {
                    self.running.number_on_offer = None;
                }
                self.refuse(&telegram, code)
            }
            Verdict::Obeyed => {
                let old_word = keeps_the_old_word(&telegram).then(|| self.status_word());
                let data = self.obey(&telegram);
                let status_word = old_word.unwrap_or_else(|| self.status_word());
                is_answered(&telegram).then(|| telegram.reply(status_word, data))
            }
        }
    }

    fn hear_damaged(&mut self, telegram: &Telegram) -> Option<Reply> {
        self.running.bits_hit = telegram.exclusive_or();
        self.running.damaged_in_a_row += 1;
        if self.running.damaged_in_a_row == DAMAGED_FOR_AN_ERROR {
            self.running.damaged_in_a_row = 0;
            self.raise(CHECK_SUM);
        }
        if telegram.node() != self.number_in_force {
            return None;
        }
        self.refuse(telegram, CHECK_SUM)
    }

    /// Checks 2 to 7, the first that applies decides.
    fn verdict(&self, telegram: &Telegram) -> Verdict {
        if !telegram.is_broadcast() && telegram.node() != self.number_in_force {
            return Verdict::NotForThisHead;
        }
        match self.check(telegram) {
            Ok(()) => Verdict::Obeyed,
            Err(code) => Verdict::Refused(code),
        }
    }

    /// Checks 3 to 7. What a broadcast is refused for does not matter: a refused broadcast is silent.
    fn check(&self, telegram: &Telegram) -> Result<(), ErrorCode> {
        let parameter = telegram.parameter();
        let access = rows::access(parameter);
        if telegram.command() > telegram::BROADCAST {
            return Err(COMMAND_NOT_SUPPORTED);
        }
        if access == Access::Unknown {
            return Err(UNKNOWN_PARAMETER);
        }
        if telegram.command() == READ {
            return self.check_read(access, telegram);
        }
        if access == Access::ReadOnly {
            return Err(WRITE_TO_READ_ONLY);
        }
        if telegram.is_broadcast() && !rows::may_be_broadcast(parameter) {
            return Err(COMMAND_NOT_SUPPORTED);
        }
        if self.is_locked() && rows::is_lockable(parameter) {
            return Err(PROGRAMMING_LOCKED);
        }
        // D2h is not lockable, so these two do not meet.
        if parameter == rows::AUTO_ID && self.number_in_force != FACTORY_NODE {
            return Err(DEVICE_STATUS);
        }
        rows::check_value(parameter, telegram.data())
    }

    fn check_read(&self, access: Access, telegram: &Telegram) -> Result<(), ErrorCode> {
        if access == Access::WriteOnly {
            return Err(READ_OF_WRITE_ONLY);
        }
        let number_asked = error_number(telegram.data());
        if telegram.parameter() == rows::INPUT_ERRORS && number_asked > self.input_error_count() {
            return Err(VALUE_ABOVE_HIGH);
        }
        Ok(())
    }

    /// Only an error reply that is sent enters the input list, so a refused broadcast leaves none. Its word is
    /// that after all the telegram does, so that a third damaged one shows the error that it raises.
    fn refuse(&mut self, telegram: &Telegram, code: ErrorCode) -> Option<Reply> {
        if telegram.is_broadcast() {
            return None;
        }
        self.running.input_errors.enter(code);
        Some(telegram.error_reply(self.status_word(), code))
    }

    /// Does what the telegram asks and gives the data of its reply, if it is one that is answered.
    fn obey(&mut self, telegram: &Telegram) -> u32 {
        let parameter = telegram.parameter();
        let data = telegram.data();
        if telegram.command() == READ {
            let data_before = self.read(parameter, data);
            self.after_reading(parameter);
            return data_before;
        }
        match parameter {
            rows::SYSTEM_COMMAND => self.system_command(data),
            rows::CALIBRATION_TRAVEL => self.calibrate(),
            rows::PROGRAMMING_MODE => self.interlock_open = data == 1,
            rows::FREEZE => self.running.kept_position = Some(self.position_shown()),
            rows::AUTO_ID => self.running.number_on_offer = Some(data as u8),
            rows::SET_POINT_1 => self.write_set_point_1(data, telegram.control_word()),
            rows::SET_POINT_2 => return self.write_set_point_2(data, telegram.control_word()),
            _ => self.store(parameter, data),
        }
        data
    }

    /// A value that has been found to be in its row.
    fn store(&mut self, address: u8, data: u32) {
        let mut values = self.values;
        values[place_of(address)] = data as i32;
        self.change_values(values);
    }

    /// By a write, a reset or a sheet. What was sent to be displayed is no target, and no target was sent to be
    /// displayed, so that no set point stays valid over the step into mode 3 or out of it.
    fn change_values(&mut self, values: [i32; ROW_COUNT]) {
        let was_alpha_numeric = self.is_alpha_numeric();
        self.values = values;
        if self.is_alpha_numeric() != was_alpha_numeric {
            self.running.set_point_1.make_invalid();
            self.running.set_point_2.make_invalid();
            self.running.static_bit = false;
        }
    }

    // Reading.

    fn read(&self, parameter: u8, data: u32) -> u32 {
        match parameter {
            rows::DEVICE_IDENTIFICATION => 11,
            rows::SOFTWARE_VERSION => 100,
            rows::ERROR_COUNT => self.error_memory.count() as u32,
            rows::FIRST_ERROR..=rows::LAST_ERROR => {
                let number = usize::from(parameter - rows::FIRST_ERROR) + 1;
                u32::from(self.error_memory.nth_oldest(number))
            }
            rows::INPUT_ERRORS => self.read_input_errors(data),
            rows::STATUS_WORD => u32::from(self.status_word()),
            rows::SET_POINT_1 => self.running.set_point_1.data,
            rows::DIFFERENTIAL_VALUE => self.differential_value() as u32,
            rows::PENDING_ERROR => u32::from(self.running.pending_error.unwrap_or(0)),
            rows::POSITION_VALUE => self.running.kept_position.unwrap_or(self.position_shown()) as u32,
            rows::SET_POINT_2 => self.running.set_point_2.data,
            _ => self.value(parameter) as u32,
        }
    }

    fn read_input_errors(&self, data: u32) -> u32 {
        let number = error_number(data);
        let low_bytes = match number {
            0 => self.input_error_count() as u32,
            _ => u32::from(self.running.input_errors.nth_oldest(number)),
        };
        (number as u32) << 24 | low_bytes
    }

    fn after_reading(&mut self, parameter: u8) {
        match parameter {
            rows::STATUS_WORD => self.running.static_bit = false,
            rows::POSITION_VALUE => self.running.kept_position = None,
            _ => {}
        }
    }

    // Writing.

    fn system_command(&mut self, value: u32) {
        match value {
            1 => self.reset(|_| true),
            2 => self.reset(|address| !rows::BUS_PARAMETERS.contains(&address)),
            5 => self.reset(|address| rows::BUS_PARAMETERS.contains(&address)),
            7 => self.calibrate(),
            8 => self.error_memory = ErrorList::default(),
            RESTART => self.restart(),
            _ => unreachable!("the range check let {value} through"),
        }
    }

    /// To the manual's default, so 00h to 31 and not to the number that the head was made with.
    fn reset(&mut self, is_meant: impl Fn(u8) -> bool) {
        let mut values = self.values;
        for (value, row) in values.iter_mut().zip(ROWS) {
            if is_meant(row.address) {
                *value = row.default;
            }
        }
        self.change_values(values);
    }

    fn write_set_point_1(&mut self, data: u32, control_word: u16) {
        let is_valid = control_word & CONTROL_SET_POINT_1_VALID != 0;
        self.running.set_point_1 = SetPoint::new(data, is_valid);
        self.take_control_word(control_word);
    }

    /// Gives the data of the reply, which 03h chooses and which are those after the write.
    fn write_set_point_2(&mut self, data: u32, control_word: u16) -> u32 {
        let is_valid = control_word & CONTROL_SET_POINT_2_VALID != 0;
        self.running.set_point_2 = SetPoint::new(data, is_valid);
        self.take_control_word(control_word);
        self.set_static_bit_in_window();
        match self.value(rows::SET_POINT_RESPONSE) {
            0 => data,
            1 => self.position_shown() as u32,
            _ => self.differential_value() as u32,
        }
    }

    /// What both set points' control words do: bits 4 and 5, and in the alpha-numeric display 6 and 10.
    fn take_control_word(&mut self, control_word: u16) {
        if control_word & CONTROL_CLEAR_STATIC != 0 {
            self.running.static_bit = false;
        }
        let newly_set = control_word & !self.running.taken_control_word;
        if newly_set & CONTROL_ACKNOWLEDGE_ERROR != 0 {
            self.running.pending_error = None;
        }
        if self.is_alpha_numeric() {
            self.acknowledge_by(control_word);
        }
        self.running.taken_control_word = control_word;
    }

    /// Either word may acknowledge either set point. The one that it came with is in place by now.
    fn acknowledge_by(&mut self, control_word: u16) {
        if control_word & CONTROL_ACKNOWLEDGE_SET_POINT_1 != 0 {
            self.running.set_point_1.acknowledge();
        }
        if control_word & CONTROL_ACKNOWLEDGE_SET_POINT_2 != 0 {
            self.running.set_point_2.acknowledge();
        }
    }

    // Errors and keys.

    fn raise(&mut self, code: ErrorCode) {
        self.running.pending_error = Some(code);
        self.error_memory.enter(code);
    }

    /// Does one thing only: nobody who acknowledges means to calibrate.
    fn left_pressed(&mut self) {
        if self.running.pending_error.is_some() {
            self.running.pending_error = None;
        } else if self.is_alpha_numeric() && self.lacks_acknowledgement() {
            self.acknowledge_set_points();
        } else if self.value(rows::CALIBRATION_KEY_ENABLE) == 1 {
            self.calibrate();
        }
    }

    /// A pending error is no concern of star, so that it does not hold it back.
    fn star_pressed(&mut self) {
        if self.is_alpha_numeric() && self.value(rows::ACKNOWLEDGEMENT_SETTINGS) == LEFT_AND_STAR {
            self.acknowledge_set_points();
        }
    }

    fn lacks_acknowledgement(&self) -> bool {
        self.running.set_point_1.lacks_acknowledgement() || self.running.set_point_2.lacks_acknowledgement()
    }

    fn acknowledge_set_points(&mut self) {
        self.running.set_point_1.acknowledge();
        self.running.set_point_2.acknowledge();
    }

    /// Adopts the number on offer; without one the key does nothing, as operators press it by mistake.
    fn up_pressed(&mut self, status_word_before: u16) -> Option<Reply> {
        let number = self.running.number_on_offer?;
        Some(self.adopt(number, status_word_before))
    }

    /// The reply that the offer went without, from the number that it was sent to. The restart comes last: it
    /// takes the new number into force, drops the offer and forgets the keys.
    fn adopt(&mut self, number: u8, status_word_before: u16) -> Reply {
        self.values[place_of(rows::NODE_ADDRESS)] = i32::from(number);
        self.restart();
        Telegram::new(WRITE, FACTORY_NODE, rows::AUTO_ID, status_word_before, u32::from(number)).bytes()
    }

    // Position and status.

    /// The calibration value counts from here on, not from when it was written.
    fn calibrate(&mut self) {
        self.zero = self.measurement;
        self.adopted_calibration = self.value(rows::CALIBRATION_VALUE);
    }

    pub fn position(&self) -> i64 {
        let offset = i64::from(self.value(rows::OFFSET_VALUE));
        i64::from(self.measurement) - i64::from(self.zero) + i64::from(self.adopted_calibration) + offset
    }

    /// The value that the set point is held against (A).
    pub fn actual(&self) -> i64 {
        match self.value(rows::DIVISOR_APPLICATION) {
            2 => self.position(),
            _ => divided(self.position(), self.divisor()),
        }
    }

    pub fn divisor(&self) -> i64 {
        10_i64.pow(self.value(rows::DISPLAY_DIVISOR) as u32)
    }

    /// What FEh shows unfrozen.
    fn position_shown(&self) -> i64 {
        match self.value(rows::DIVISOR_APPLICATION) {
            0 => self.actual(),
            _ => self.position(),
        }
    }

    /// A - S, in 64 bits because in 32 it wraps.
    fn actual_minus_set_point(&self) -> i64 {
        self.actual() - i64::from(self.set_point_2())
    }

    fn differential_value(&self) -> i64 {
        let difference = match self.value(rows::DIFFERENTIAL_FORMATION) {
            0 => self.actual_minus_set_point(),
            _ => -self.actual_minus_set_point(),
        };
        difference.clamp(-HIGHEST_DIFFERENTIAL, HIGHEST_DIFFERENTIAL)
    }

    /// The alpha-numeric display minds no window.
    fn set_static_bit_in_window(&mut self) {
        if !self.is_alpha_numeric() && self.position_bits() & STATUS_IN_WINDOW_1 != 0 {
            self.running.static_bit = true;
        }
    }

    pub fn status_word(&self) -> u16 {
        let running = &self.running;
        let keys = u16::from(running.keys) << STATUS_KEYS_FROM;
        let bits_of_the_mode = match self.is_alpha_numeric() {
            true => self.display_bits(),
            false => self.position_bits(),
        };
        let bits = bits_where(&[
            (running.set_point_1.is_valid, STATUS_SET_POINT_1_VALID),
            (running.pending_error.is_some(), STATUS_ERROR_PENDING),
            (running.kept_position.is_some(), STATUS_FROZEN),
            (running.set_point_2.is_valid, STATUS_SET_POINT_2_VALID),
        ]);
        keys | bits | bits_of_the_mode
    }

    /// The bits that only the alpha-numeric display has. That of set point 1 does not wait for a valid set point 2.
    fn display_bits(&self) -> u16 {
        let running = &self.running;
        bits_where(&[
            (running.set_point_1.is_acknowledged, STATUS_SET_POINT_1_ACKNOWLEDGED),
            (running.set_point_2.is_acknowledged, STATUS_SET_POINT_2_ACKNOWLEDGED),
            (running.taken_control_word & CONTROL_CHARACTERS != 0, STATUS_CHARACTERS),
        ])
    }

    /// The bits that all other modes have.
    fn position_bits(&self) -> u16 {
        let target_bits = if self.running.set_point_2.is_valid { self.target_bits() } else { 0 };
        target_bits | bits_where(&[(self.running.static_bit, STATUS_STATIC)])
    }

    /// The bits that a valid set point 2 gives.
    fn target_bits(&self) -> u16 {
        let difference = self.actual_minus_set_point();
        let is_above = difference > 0;
        let mut bits = 0;
        if is_above {
            bits |= STATUS_ABOVE;
        }
        if difference.abs() <= i64::from(self.value(rows::TARGET_WINDOW_2)) {
            bits |= STATUS_IN_WINDOW_2;
        }
        if difference.abs() <= i64::from(self.value(rows::TARGET_WINDOW_1)) {
            bits |= STATUS_IN_WINDOW_1;
        } else if is_above == (self.value(rows::COUNTING_DIRECTION) == 1) {
            bits |= STATUS_CLOCKWISE;
        } else {
            bits |= STATUS_COUNTER_CLOCKWISE;
        }
        bits
    }
}

/// The bits whose condition holds.
fn bits_where(conditions: &[(bool, u16)]) -> u16 {
    conditions.iter().filter(|(holds, _)| *holds).fold(0, |bits, (_, bit)| bits | bit)
}

fn place_of(address: u8) -> usize {
    rows::place(address).expect("only stored parameters are asked for")
}

/// An offer is answered by the key that adopts it, a broadcast never.
fn is_answered(telegram: &Telegram) -> bool {
    !telegram.is_broadcast() && telegram.parameter() != rows::AUTO_ID
}

/// Whether the reply to a telegram that is obeyed has the status word from before it, as only few have: writes
/// of the set points, by the manual's notice; the read of FAh, which clears the static bit only after showing
/// it; and A0h 9, which replies before it restarts.
fn keeps_the_old_word(telegram: &Telegram) -> bool {
    match telegram.parameter() {
        rows::SET_POINT_1 | rows::SET_POINT_2 => telegram.command() == WRITE,
        rows::STATUS_WORD => true,
        rows::SYSTEM_COMMAND => telegram.data() == RESTART,
        _ => false,
    }
}

/// Whether a telegram is refused for an illegal new number: only a write at a head that could take one comes
/// as far as the range.
fn aborts_auto_id(telegram: &Telegram, code: ErrorCode) -> bool {
    telegram.parameter() == rows::AUTO_ID && matches!(code, VALUE_BELOW_LOW | VALUE_ABOVE_HIGH)
}

/// The number that a 96h read asks for: its first data byte, the others are ignored.
fn error_number(data: u32) -> usize {
    (data >> 24) as usize
}

/// Rounded to nearest, halves away from zero.
fn divided(position: i64, divisor: i64) -> i64 {
    let rounded = (position.abs() + divisor / 2) / divisor;
    rounded * position.signum()
}

#[cfg(test)]
impl Head {
    /// What an older head may have: 35h at 1, or incremental measurement on since this measurement. No call of today
    /// leads there.
    pub(crate) fn make_older(&mut self, key_enable: i32, incremental_start: Option<i32>) {
        self.values[place_of(rows::INCREMENTAL_KEY_ENABLE)] = key_enable;
        self.running.incremental_start = incremental_start;
    }
}

#[cfg(test)]
mod tests {
    use super::*;

    /// 35h at 1, incremental on, and both.
    const OLDER: [(i32, Option<i32>); 4] =
        [(1, None), (0, Some(900)), (1, Some(900)), (1, Some(-HIGHEST_MEASUREMENT))];

    fn everything(head: &Head) -> String {
        format!("{head:?}")
    }

    fn obey(head: &mut Head, parameter: u8, control_word: u16, data: u32) {
        head.obey(&Telegram::new(WRITE, FACTORY_NODE, parameter, control_word, data));
    }

    /// One that has some of everything. Its position is 1012 - 1000 + 50.
    fn with_a_past() -> Head {
        let mut head = Head::factory(4_711);
        obey(&mut head, rows::CALIBRATION_VALUE, 0, 50);
        head.measure(1_000);
        head.calibrate();
        head.measure(1_012);
        obey(&mut head, rows::SET_POINT_1, CONTROL_SET_POINT_1_VALID, 1_234);
        obey(&mut head, rows::SET_POINT_2, CONTROL_SET_POINT_2_VALID | CONTROL_CHARACTERS, 62);
        obey(&mut head, rows::FREEZE, 0, 1);
        obey(&mut head, rows::PROGRAMMING_MODE, 0, 1);
        obey(&mut head, rows::NODE_ADDRESS, 0, 12);
        obey(&mut head, rows::AUTO_ID, 0, 5);
        head.raise(telegram::BUS_TIMEOUT);
        head.set_keys(KEY_STAR);
        // A sound one, which starts the monitor and is refused; a damaged one; and half of one.
        let unknown = Telegram::new(READ, FACTORY_NODE, 0x63, 0, 0).bytes();
        for byte in unknown.iter().chain(&[0, 0, 0, 0, 0, 0, 0, 0, 0, 1]).chain(&unknown[..5]) {
            head.byte(7, *byte);
        }
        head
    }

    #[test]
    fn an_older_head_that_is_brought_over_keeps_all_else() {
        for (key_enable, start) in OLDER {
            let mut head = with_a_past();
            head.make_older(key_enable, start);
            assert!(head.is_older());
            head.bring();
            assert!(!head.is_older());
            assert_eq!(everything(&head), everything(&with_a_past()), "{key_enable} {start:?}");
        }
    }

    /// Star and the bits 10, 8, 7, 6, 5, 4 and 2, as 63 lies above S 62 in the window; the kept 62, and then 63.
    #[test]
    fn an_older_head_that_is_brought_over_shows_what_it_had() {
        for (key_enable, start) in OLDER {
            let mut head = with_a_past();
            head.make_older(key_enable, start);
            head.measure(1_013);
            head.bring();
            assert_eq!(head.status_word(), 0x45F4, "{key_enable} {start:?}");
            assert_eq!((head.gathered_count(), head.bits_hit(), head.input_error_count()), (5, 1, 1));
            assert_eq!(head.value(rows::INCREMENTAL_KEY_ENABLE), 0);
            assert_eq!(head.obey(&Telegram::new(READ, FACTORY_NODE, rows::POSITION_VALUE, 0, 0)), 62);
            assert_eq!(head.obey(&Telegram::new(READ, FACTORY_NODE, rows::POSITION_VALUE, 0, 0)), 63);
        }
    }

    /// Bringing over is neither a measurement nor a write of FFh: in the window, the static bit cleared, it sets none.
    #[test]
    fn an_older_head_that_is_brought_over_does_not_become_static() {
        for (key_enable, start) in OLDER {
            let mut head = with_a_past();
            head.obey(&Telegram::new(READ, FACTORY_NODE, rows::STATUS_WORD, 0, 0));
            head.make_older(key_enable, start);
            head.bring();
            assert_eq!(head.status_word() & (STATUS_IN_WINDOW_1 | STATUS_STATIC), STATUS_IN_WINDOW_1);
        }
    }

    /// A telegram that was begun before is answered: 1F ^ 35 = 2A.
    #[test]
    fn an_older_head_is_brought_over_amid_a_telegram() {
        let read = [0x00, 0x1F, 0x35, 0, 0, 0, 0, 0, 0, 0x2A];
        for (key_enable, start) in OLDER {
            let mut head = Head::factory(4_711);
            head.make_older(key_enable, start);
            assert!(read[..9].iter().all(|&byte| head.byte(7, byte).is_none()));
            head.bring();
            assert_eq!(head.byte(17, read[9]), Some(read));
        }
    }

    /// Up that was held is not newly pressed afterwards, and does not adopt what is offered then.
    #[test]
    fn an_older_head_that_is_brought_over_keeps_its_keys() {
        let mut head = Head::factory(4_711);
        head.set_keys(KEY_UP);
        head.make_older(1, Some(0));
        head.bring();
        assert_eq!(head.status_word(), 0x8000);
        obey(&mut head, rows::AUTO_ID, 0, 5);
        assert_eq!(head.set_keys(KEY_UP), None);
        head.set_keys(0);
        assert!(head.set_keys(KEY_UP).is_some());
    }

    /// In the alpha-numeric display it is no step: the set points stay valid, and characters in bit 9.
    #[test]
    fn an_older_head_is_brought_over_in_the_display() {
        for (key_enable, start) in OLDER {
            let mut head = Head::factory(4_711);
            obey(&mut head, rows::OPERATING_MODE, 0, 3);
            obey(&mut head, rows::SET_POINT_1, CONTROL_SET_POINT_1_VALID | CONTROL_CHARACTERS, 7);
            head.make_older(key_enable, start);
            head.bring();
            assert_eq!(head.status_word(), 0x0204);
        }
    }

    /// It is open to a locked head as to any other, and neither a new number nor the baud rate comes into force by it.
    #[test]
    fn an_older_head_is_brought_over_locked_and_not_restarted() {
        let mut head = Head::factory(4_711);
        obey(&mut head, rows::NODE_ADDRESS, 0, 12);
        obey(&mut head, rows::BAUD_RATE, 0, 2);
        obey(&mut head, rows::PROGRAMMING_CONFIGURATION, 0, 1);
        head.make_older(1, Some(0));
        head.bring();
        assert!(head.is_locked() && !head.is_older());
        assert_eq!((head.number_in_force(), head.baud_in_force()), (31, 1));
    }

    #[test]
    fn a_head_that_is_not_older_stays_as_it_is() {
        for mut head in [Head::factory(4_711), Head::new(12, 0), with_a_past()] {
            let before = everything(&head);
            assert!(!head.is_older());
            head.bring();
            head.bring();
            assert_eq!(everything(&head), before);
        }
    }

    #[test]
    fn halves_round_away_from_zero() {
        assert_eq!(divided(12_348, 10), 1_235);
        assert_eq!(divided(-12_345, 10), -1_235);
        assert_eq!(divided(-12_344, 10), -1_234);
        assert_eq!(divided(499, 1_000), 0);
        assert_eq!(divided(500, 1_000), 1);
        assert_eq!(divided(-500, 1_000), -1);
        assert_eq!(divided(0, 1_000), 0);
        assert_eq!(divided(-7, 1), -7);
    }

    #[test]
    fn a_full_list_drops_its_oldest() {
        let mut list = ErrorList::default();
        for code in 1..=12 {
            list.enter(code);
        }
        assert_eq!(list.count(), 10);
        assert_eq!(list.nth_oldest(0), 0);
        assert_eq!(list.nth_oldest(1), 3);
        assert_eq!(list.nth_oldest(10), 12);
        assert_eq!(list.nth_oldest(11), 0);
    }

    #[test]
    fn a_new_baud_rate_counts_from_the_restart_on() {
        let mut head = Head::factory(4_711);
        assert_eq!((head.number_in_force(), head.baud_in_force()), (31, 1));
        head.obey(&Telegram::new(telegram::WRITE, 31, rows::BAUD_RATE, 0, 2));
        assert_eq!(head.baud_in_force(), 1);
        head.restart();
        assert_eq!(head.baud_in_force(), 2);
    }
}
