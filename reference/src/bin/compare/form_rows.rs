//! Makes the rows of random order forms: first rows that all differ, then repeats and numbers out of range.
//! The lowest free number, told with a repeat, depends on all rows; so some forms have every number below one.

use crate::random::Random;
use reference::form::MOST_ROWS;

/// At the edges, and such that a part of their bits is another's.
const SERIALS: [u32; 10] = [0, 1, 127, 128, 255, 4_711, 65_536, 2_147_483_648, 4_294_967_294, 4_294_967_295];
const NODES_OUT_OF_RANGE: [u32; 14] =
    [0, 0, 128, 128, 129, 200, 255, 256, 257, 383, 65_537, 16_777_217, u32::MAX - 1, u32::MAX];
/// At both ends, and at the end of the first 64; 128 if none is to be free.
const FREE_NODES: [u32; 8] = [1, 63, 64, 65, 126, 127, 128, 128];

#[derive(Clone, Copy)]
pub struct Row {
    pub serial: u32,
    pub node: u32,
}

pub fn rows(random: &mut Random) -> Vec<Row> {
    let mut rows = match random.chance(35) {
        true => rows_up_to_a_free_node(random),
        false => any_rows(random),
    };
    for _ in 0..random.pick(&[0, 0, 0, 0, 0, 0, 0, 0, 1, 3]) {
        leave_range(random, &mut rows);
    }
    rows
}

/// The numbers differ as far as there are enough of them, before some are repeated.
fn any_rows(random: &mut Random) -> Vec<Row> {
    let count = count(random);
    let nodes: Vec<u32> = nodes(random).into_iter().cycle().take(count).collect();
    let mut rows = different_rows(random, &nodes);
    for _ in 0..random.pick(&[0, 0, 0, 0, 0, 1, 1, 1, 1, 2, 3]) {
        repeat(random, &mut rows);
    }
    rows
}

/// Every number below a free one, and all, some or none of those above it.
fn rows_up_to_a_free_node(random: &mut Random) -> Vec<Row> {
    let free = match random.chance(60) {
        true => random.pick(&FREE_NODES),
        false => 1 + random.below(128),
    };
    let percent_above = random.pick(&[0, 10, 50, 100]);
    let mut nodes = nodes(random);
    nodes.retain(|&node| node < free || node > free && random.chance(percent_above));
    let mut rows = different_rows(random, &nodes);
    for _ in 0..random.pick(&[0, 1, 1, 1, 1, 2, 3]) {
        repeat_and_free_none(random, &mut rows);
    }
    rows
}

/// Mostly few, so that what is wrong with them is not hidden; often about as many as a form may have.
fn count(random: &mut Random) -> usize {
    let count = match random.below(100) {
        0..=67 => random.below(13),
        68..=74 => 13 + random.below(112),
        75..=95 => 126 + random.below(5),
        _ => 131 + random.below(300),
    };
    count as usize
}

/// All serials differ.
fn different_rows(random: &mut Random, nodes: &[u32]) -> Vec<Row> {
    let mut rows: Vec<Row> = Vec::new();
    for &node in nodes {
        let serial = new_serial(random, &rows);
        rows.push(Row { serial, node });
    }
    rows
}

fn new_serial(random: &mut Random, rows: &[Row]) -> u32 {
    let mut serial = serial(random, rows);
    while rows.iter().any(|row| row.serial == serial) {
        serial = random.word();
    }
    serial
}

fn serial(random: &mut Random, earlier: &[Row]) -> u32 {
    match (random.below(8), earlier.last()) {
        (0, _) => random.pick(&SERIALS),
        (1, Some(_)) => random.pick(earlier).serial ^ 1 << random.below(32),
        (2, Some(_)) => random.pick(earlier).node,
        (3..=4, Some(last)) => last.serial.wrapping_add(1),
        (5, _) => random.below(300),
        _ => random.word(),
    }
}

/// The numbers 1 to 127 in some order.
fn nodes(random: &mut Random) -> Vec<u32> {
    let mut nodes: Vec<u32> = (1..=MOST_ROWS as u32).collect();
    match random.below(4) {
        0 => {}
        1 => nodes.reverse(),
        _ => {
            for place in (1..nodes.len()).rev() {
                nodes.swap(place, random.below(place as u32 + 1) as usize);
            }
        }
    }
    nodes
}

/// Lets a row repeat a serial, a number, or both, of one or of two rows before it.
fn repeat(random: &mut Random, rows: &mut [Row]) {
    if rows.len() < 2 {
        return;
    }
    let later = later(random, rows.len() - 1);
    let [one, other] = [0; 2].map(|_| random.below(later as u32) as usize);
    if random.chance(20) {
        rows[one].serial = random.pick(&SERIALS);
    }
    // The serial is told if both are repeated, so that a number has to be repeated alone more often.
    match random.below(8) {
        0..=1 => rows[later].serial = rows[one].serial,
        2..=5 => rows[later].node = rows[one].node,
        6 => rows[later] = rows[one],
        _ => rows[later] = Row { serial: rows[one].serial, node: rows[other].node },
    }
}

/// Adds a row that repeats a number, or lets one repeat a serial, so that no number is given up.
fn repeat_and_free_none(random: &mut Random, rows: &mut Vec<Row>) {
    if rows.len() < 2 {
        return;
    }
    if rows.len() < MOST_ROWS && random.chance(60) {
        let later = later(random, rows.len());
        let serial = new_serial(random, rows);
        let node = random.pick(&rows[..later]).node;
        rows.insert(later, Row { serial, node });
    } else {
        let later = later(random, rows.len() - 1);
        rows[later].serial = random.pick(&rows[..later]).serial;
    }
}

/// The place of a row that repeats one before it. Often the last, and sometimes the first that can.
fn later(random: &mut Random, last: usize) -> usize {
    match random.below(100) {
        0..=24 => last,
        25..=34 => 1,
        _ => 1 + random.below(last as u32) as usize,
    }
}

fn leave_range(random: &mut Random, rows: &mut [Row]) {
    if !rows.is_empty() {
        let place = random.below(rows.len() as u32) as usize;
        rows[place].node = random.pick(&NODES_OUT_OF_RANGE);
    }
}
