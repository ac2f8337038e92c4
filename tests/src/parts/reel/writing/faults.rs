//! Every set of faults at once, each fault alone among them.
use super::Given;
use crate::comparison::Comparison;
use crate::random::Random;

const LISTS: u32 = 10_000;

type Fault = fn(&mut Random, &mut Given);

const FAULTS: [Fault; 6] = [fall, last, frames, length, room, number];

/// Numbers out of range; 65536, -65536 and some others are in range once only 16 bits of them are kept.
pub const OUT: [i32; 18] = [
    i32::MIN,
    i32::MIN + 1,
    -65_537,
    -65_536,
    -65_535,
    -49_153,
    -32_769,
    -32_768,
    -16_385,
    16_384,
    32_767,
    32_768,
    49_152,
    65_535,
    65_536,
    65_537,
    i32::MAX - 1,
    i32::MAX,
];

/// 11: a table number is above the next, if there are two.
fn fall(random: &mut Random, given: &mut Given) {
    if let Some(last) = given.table.len().checked_sub(1).filter(|last| *last > 0) {
        let place = random.below(last as u32) as usize;
        let above = random.pick(&[1, 2, 1 << 16, 1 << 30, 1 << 31, u32::MAX]);
        given.table[place] = given.table[place + 1].saturating_add(above);
    }
}

/// 11: the list isn't four times the last table number long, though it may be modulo 2^16 or 2^32.
fn last(random: &mut Random, given: &mut Given) {
    let by = [1, 2, 1 << 14, 1 << 29, 1 << 30, 2 << 30, 3 << 30, u32::MAX];
    if let Some(last) = given.table.last_mut() {
        *last = last.wrapping_add(random.pick(&by));
    }
}

/// 11: a frame too many or too few; the buffer is as long as the file would be with it, or as it was.
fn frames(random: &mut Random, given: &mut Given) {
    match given.table.len() {
        0 => given.table.push(1),
        _ if random.one_in(2) => given.table.push(0),
        _ => drop(given.table.pop()),
    }
    if random.one_in(2) {
        *given = Given::new(given.list.clone(), given.table.clone());
    }
}

/// 11: some numbers too many or too few; the buffer is as long as the file would be with them, or as it was.
fn length(random: &mut Random, given: &mut Given) {
    let by = random.pick(&[1, 2, 3, 4]);
    let len = given.list.len();
    if random.one_in(2) {
        given.list.resize(len + by, 0);
    } else {
        given.list.truncate(len.saturating_sub(by));
    }
    if random.one_in(2) {
        *given = Given::new(given.list.clone(), given.table.clone());
    }
}

/// 11: the buffer has another length.
fn room(random: &mut Random, given: &mut Given) {
    let right = given.room;
    given.room = match random.below(4) {
        0 => 0,
        1 => right + random.pick(&[1, 2, 4, 8, 12]),
        2 => right.saturating_sub(random.pick(&[1, 2, 4, 8, 12])),
        _ => random.pick(&[11, 12, 13, 256, 4096]),
    };
}

/// 12: a number of the list is out of range, if there is one.
fn number(random: &mut Random, given: &mut Given) {
    let len = given.list.len() as u32;
    if len > 0 {
        given.list[random.below(len) as usize] = random.pick(&OUT);
    }
}

/// Adds the faults of a set, which is a bit for each.
fn add(random: &mut Random, given: &mut Given, set: u32) {
    for (place, fault) in FAULTS.iter().enumerate() {
        if set >> place & 1 == 1 {
            fault(random, given);
        }
    }
}

/// Adds any of the faults.
pub fn add_any(random: &mut Random, given: &mut Given) {
    let set = random.below(1 << FAULTS.len());
    add(random, given, set);
}

pub fn run(comparison: &mut Comparison, random: &mut Random) {
    for set in 0..1 << FAULTS.len() {
        for _ in 0..LISTS {
            let (records, frames) = (random.below(6), random.below(6));
            let mut given = Given::lawful(random, records, frames);
            add(random, &mut given, set);
            given.write(comparison, random);
        }
    }
}
