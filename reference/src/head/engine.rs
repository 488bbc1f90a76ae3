//! A head's answer to ten bytes at once, a second reading of document 01 as amended: straight down its checks,
//! without bytes and gaps. Addresses, bits and error codes stand here as the document writes them, and nothing is
//! asked of the code that judges and obeys what comes byte by byte; only what a head holds and how ten bytes are laid
//! out is shared.

use super::{place_of, ErrorList, Head, Running};
use crate::telegram::{ErrorCode, Reply, Telegram, BROADCAST, READ, TELEGRAM_LENGTH, WRITE};

/// What checks 2 to 7 make of a sound telegram.
enum Judged {
    Silence,
    Error(ErrorCode),
    Obeyed,
}

/// The reply to a whole telegram, or none; what the head has gathered of another is dropped.
pub fn answer(head: &mut Head, time: u32, bytes: [u8; TELEGRAM_LENGTH]) -> Option<Reply> {
    let telegram = Telegram::received(bytes);
    head.running.gathered.clear();
    if telegram.exclusive_or() != 0 {
        return answer_damaged(head, &telegram);
    }
    head.running.damaged_in_a_row = 0;
    head.running.monitor_started_at = Some(time);
    match judge(head, &telegram) {
        Judged::Silence => None,
        // A refused broadcast is silent.
        Judged::Error(_) if telegram.is_broadcast() => None,
        Judged::Error(code) => {
            if telegram.parameter() == 0xD2 && matches!(code, 0x0182 | 0x0282) {
                head.running.number_on_offer = None;
            }
            Some(error_reply(head, &telegram, code))
        }
        Judged::Obeyed => obey(head, &telegram),
    }
}

/// Check 1. Every damaged telegram counts, whatever its node; the last one's bits are kept.
fn answer_damaged(head: &mut Head, telegram: &Telegram) -> Option<Reply> {
    head.running.bits_hit = telegram.exclusive_or();
    head.running.damaged_in_a_row += 1;
    if head.running.damaged_in_a_row == 3 {
        head.running.damaged_in_a_row = 0;
        head.running.pending_error = Some(0x0080);
        head.error_memory.enter(0x0080);
    }
    let is_replied = telegram.node() == head.number_in_force && telegram.command() != BROADCAST;
    is_replied.then(|| error_reply(head, telegram, 0x0080))
}

/// Every error reply enters the input list, and has the word after all else that its telegram did.
fn error_reply(head: &mut Head, telegram: &Telegram, code: ErrorCode) -> Reply {
    head.running.input_errors.enter(code);
    telegram.error_reply(status_word(head), code)
}

fn judge(head: &Head, telegram: &Telegram) -> Judged {
    let (command, parameter) = (telegram.command(), telegram.parameter());
    // 2. Not a broadcast, and node byte not the number in force.
    if command != BROADCAST && telegram.node() != head.number_in_force {
        return Judged::Silence;
    }
    // 3. Command above 02h.
    if command > BROADCAST {
        return Judged::Error(0x0084);
    }
    // 4. Unknown parameter.
    let is_stored = range(parameter).is_some();
    let is_read_only = matches!(parameter, 0x65 | 0x67 | 0x80..=0x8A | 0x96 | 0xFA | 0xFC..=0xFE);
    let is_write_only = matches!(parameter, 0xA0 | 0xA7 | 0xA8 | 0xAA | 0xD2);
    if !(is_stored || matches!(parameter, 0xFB | 0xFF) || is_read_only || is_write_only) {
        return Judged::Error(0x0083);
    }
    // 5. Write to read only; read of write only; broadcast to a parameter that allows none.
    if command == WRITE && is_read_only {
        return Judged::Error(0x0184);
    }
    if command == READ && is_write_only {
        return Judged::Error(0x0284);
    }
    if command == BROADCAST && !matches!(parameter, 0xA0 | 0xA8 | 0xAA) {
        return Judged::Silence;
    }
    // 6. Locked, and the write or broadcast is to one of the 39 or A0h; in its place, D2h at a head that is not at
    // 31.
    let is_locked = head.value(0x0E) == 1 && !head.interlock_open;
    if command != READ && is_locked && (is_stored || parameter == 0xA0) {
        return Judged::Error(0x0385);
    }
    if parameter == 0xD2 && head.number_in_force != 31 {
        return Judged::Error(0x0085);
    }
    // 7. The value; a read has none, save for 96h.
    let error = match (command, parameter) {
        (READ, 0x96) => (input_error_number(telegram) > head.running.input_errors.count()).then_some(0x0282),
        (READ, _) => None,
        _ => value_error(parameter, telegram.data()),
    };
    error.map_or(Judged::Obeyed, Judged::Error)
}

/// Low and high of each of the 39; 28h as of the alpha-numeric display, 35h as of incremental measurement's
/// retirement.
fn range(address: u8) -> Option<(i64, i64)> {
    match address {
        0x00 => Some((1, 127)),
        0x04 => Some((1, 60)),
        0x0F => Some((0, 99_999)),
        0x1C => Some((1, 65_535)),
        0x1E => Some((-19_999, 19_999)),
        0x1F => Some((-19_999, 99_999)),
        0x20 | 0x22 | 0x31 => Some((0, 9_999)),
        0x02 | 0xD0 => Some((0, 20)),
        0x3F => Some((0, 8)),
        0x0A => Some((0, 4)),
        0x0B | 0x28 => Some((0, 3)),
        0x01 | 0x03 | 0x0C | 0x21 | 0x33 | 0x3E => Some((0, 2)),
        0x05..=0x09 | 0x0D | 0x0E | 0x1B | 0x30 | 0x32 | 0x34 | 0x39..=0x3D | 0x40 => Some((0, 1)),
        0x35 => Some((0, 0)),
        _ => None,
    }
}

/// Below low, above high, or in between and not listed. The set points take any 32 bits.
fn value_error(parameter: u8, data: u32) -> Option<ErrorCode> {
    let value = match parameter {
        0x1E | 0x1F => i64::from(data as i32),
        _ => i64::from(data),
    };
    let (low, high) = match parameter {
        0xA0 => (1, 9),
        0xA7 | 0xAA => (1, 1),
        0xA8 => (0, 1),
        0xD2 => (1, 31),
        _ => range(parameter)?,
    };
    let is_listed = match parameter {
        0xA0 => matches!(value, 1 | 2 | 5 | 7 | 8 | 9),
        0x3E => matches!(value, 0 | 2),
        _ => true,
    };
    match value {
        _ if value < low => Some(0x0182),
        _ if value > high => Some(0x0282),
        _ if !is_listed => Some(0x0082),
        _ => None,
    }
}

/// The first data byte of a read of 96h.
fn input_error_number(telegram: &Telegram) -> usize {
    usize::from(telegram.bytes()[5])
}

fn obey(head: &mut Head, telegram: &Telegram) -> Option<Reply> {
    let (command, parameter) = (telegram.command(), telegram.parameter());
    let word_before = status_word(head);
    let data = match command {
        READ => read(head, telegram),
        _ => write(head, parameter, telegram.control_word(), telegram.data()),
    };
    // Set point writes keep the old word, FAh shows the static bit that it clears, A0h 9 replies and then restarts.
    let word = match (command, parameter) {
        (WRITE, 0xFB | 0xFF) | (READ, 0xFA) => word_before,
        (WRITE, 0xA0) if data == 9 => word_before,
        _ => status_word(head),
    };
    // A broadcast is never answered, and an offer by the key that adopts it.
    let is_answered = command != BROADCAST && parameter != 0xD2;
    is_answered.then(|| telegram.reply(word, data))
}

/// What the reply shows, as it is before the read clears the static bit or releases the kept value.
fn read(head: &mut Head, telegram: &Telegram) -> u32 {
    match telegram.parameter() {
        0x65 => 11,
        0x67 => 100,
        0x80 => head.error_memory.count() as u32,
        number @ 0x81..=0x8A => u32::from(head.error_memory.nth_oldest(usize::from(number - 0x80))),
        0x96 => {
            let number = input_error_number(telegram);
            let low_bytes = match number {
                0 => head.running.input_errors.count() as u32,
                _ => u32::from(head.running.input_errors.nth_oldest(number)),
            };
            (number as u32) << 24 | low_bytes
        }
        0xFA => {
            let word = status_word(head);
            head.running.static_bit = false;
            u32::from(word)
        }
        0xFB => head.running.set_point_1.data,
        0xFC => differential_value(head) as u32,
        0xFD => u32::from(head.running.pending_error.unwrap_or(0)),
        0xFE => head.running.kept_position.take().unwrap_or_else(|| shown_unfrozen(head)) as u32,
        0xFF => head.running.set_point_2.data,
        stored => head.value(stored) as u32,
    }
}

/// A write or a broadcast, with a value that may be. The data are those of the reply.
fn write(head: &mut Head, parameter: u8, control_word: u16, data: u32) -> u32 {
    match parameter {
        0xA0 => system_command(head, data),
        0xA7 => calibrate(head),
        0xA8 => head.interlock_open = data == 1,
        0xAA => head.running.kept_position = Some(shown_unfrozen(head)),
        0xD2 => head.running.number_on_offer = Some(data as u8),
        0xFB | 0xFF => write_set_point(head, parameter, control_word, data),
        _ => store(head, parameter, data as i32),
    }
    match (parameter, head.value(0x03)) {
        (0xFF, 1) => shown_unfrozen(head) as u32,
        (0xFF, 2) => differential_value(head) as u32,
        _ => data,
    }
}

fn system_command(head: &mut Head, number: u32) {
    let is_of_the_bus = |address| matches!(address, 0x00 | 0x01 | 0x02 | 0x03 | 0x0E | 0xD0);
    match number {
        1 => reset(head, |_| true),
        2 => reset(head, |address| !is_of_the_bus(address)),
        5 => reset(head, is_of_the_bus),
        7 => calibrate(head),
        8 => head.error_memory = ErrorList::default(),
        9 => restart(head),
        _ => unreachable!("check 7 lets no {number} through"),
    }
}

fn reset(head: &mut Head, is_reset: impl Fn(u8) -> bool) {
    for address in (0x00..=0xFF).filter(|&address| range(address).is_some() && is_reset(address)) {
        let default = match address {
            0x00 => 31,
            0x04 | 0x20 => 5,
            0x1C => 720,
            0x01 | 0x05 | 0x07..=0x09 | 0x39 | 0x3B..=0x3D | 0x40 => 1,
            _ => 0,
        };
        store(head, address, default);
    }
}

/// Entering or leaving mode 3 makes both set points invalid and unacknowledged and clears the static bit.
fn store(head: &mut Head, address: u8, value: i32) {
    let was_alpha_numeric = is_alpha_numeric(head);
    head.values[place_of(address)] = value;
    if is_alpha_numeric(head) != was_alpha_numeric {
        for set_point in [&mut head.running.set_point_1, &mut head.running.set_point_2] {
            set_point.is_valid = false;
            set_point.is_acknowledged = false;
        }
        head.running.static_bit = false;
    }
}

/// Keeps the 39, the interlock, the error memory, the calibration and the measurement, and clears all else.
fn restart(head: &mut Head) {
    head.number_in_force = head.value(0x00) as u8;
    head.baud_in_force = head.value(0x01) as u8;
    head.running = Running::default();
}

fn calibrate(head: &mut Head) {
    head.zero = head.measurement;
    head.adopted_calibration = head.value(0x1F);
}

fn write_set_point(head: &mut Head, parameter: u8, control_word: u16, data: u32) {
    let has = |bit: u16| control_word >> bit & 1 == 1;
    let alpha_numeric = is_alpha_numeric(head);
    let running = &mut head.running;
    let (set_point, validity) = match parameter {
        0xFB => (&mut running.set_point_1, has(2)),
        _ => (&mut running.set_point_2, has(9)),
    };
    set_point.data = data;
    set_point.is_valid = validity;
    set_point.is_acknowledged = false;
    if alpha_numeric {
        running.set_point_1.is_acknowledged |= running.set_point_1.is_valid && has(10);
        running.set_point_2.is_acknowledged |= running.set_point_2.is_valid && has(6);
    }
    if has(5) && running.taken_control_word >> 5 & 1 == 0 {
        running.pending_error = None;
    }
    running.taken_control_word = control_word;
    if has(4) {
        running.static_bit = false;
    }
    // An FFh write after which bit 5 holds, which in mode 3 is no window.
    if parameter == 0xFF && !alpha_numeric && status_word(head) >> 5 & 1 == 1 {
        head.running.static_bit = true;
    }
}

fn is_alpha_numeric(head: &Head) -> bool {
    head.value(0x28) == 3
}

fn position(head: &Head) -> i64 {
    let sum = [-head.zero, head.adopted_calibration, head.value(0x1E)];
    sum.into_iter().fold(i64::from(head.measurement), |position, part| position + i64::from(part))
}

/// A: the position divided by 10 to the power 0Bh, to nearest, halves away from zero; with 33h 2 the position itself.
fn actual(head: &Head) -> i64 {
    let position = position(head);
    let divisor = match head.value(0x33) {
        2 => 1,
        _ => [1, 10, 100, 1_000][head.value(0x0B) as usize],
    };
    let half = if position < 0 { -divisor } else { divisor };
    (2 * position + half) / (2 * divisor)
}

/// What FEh shows unfrozen.
fn shown_unfrozen(head: &Head) -> i64 {
    if head.value(0x33) == 0 {
        actual(head)
    } else {
        position(head)
    }
}

/// S: set point 2, valid or not.
fn set_point(head: &Head) -> i64 {
    i64::from(head.running.set_point_2.data as i32)
}

fn differential_value(head: &Head) -> i64 {
    let difference = match head.value(0x34) {
        0 => actual(head) - set_point(head),
        _ => set_point(head) - actual(head),
    };
    difference.clamp(-5_242_880, 5_242_880)
}

fn status_word(head: &Head) -> u16 {
    let running = &head.running;
    let mut bits = [false; 16];
    bits[2] = running.set_point_1.is_valid;
    bits[7] = running.pending_error.is_some();
    bits[8] = running.kept_position.is_some();
    bits[10] = running.set_point_2.is_valid;
    bits[13] = running.keys & 1 != 0;
    bits[14] = running.keys & 2 != 0;
    bits[15] = running.keys & 4 != 0;
    if is_alpha_numeric(head) {
        bits[3] = running.set_point_1.is_acknowledged;
        bits[5] = running.set_point_2.is_acknowledged;
        bits[9] = running.taken_control_word >> 7 & 1 == 1;
    } else {
        bits[4] = running.static_bit;
    }
    if bits[10] && !is_alpha_numeric(head) {
        let (a, s) = (actual(head), set_point(head));
        bits[5] = (a - s).abs() <= i64::from(head.value(0x20));
        bits[3] = (a - s).abs() <= i64::from(head.value(0x31));
        bits[6] = a > s;
        // Outside 20h one of the two directions.
        let is_clockwise = (a < s && head.value(0x1B) == 0) || (a > s && head.value(0x1B) == 1);
        bits[0] = !bits[5] && is_clockwise;
        bits[1] = !bits[5] && !is_clockwise;
    }
    bits.iter().rev().fold(0, |word, &bit| word << 1 | u16::from(bit))
}
