//! Every set of faults at once: the first condition that is met decides, in the order 10, 11, 12.
use super::BEYOND;
use crate::comparison::Comparison;
use crate::parts::reel::fields::Fields;
use crate::random::Random;

const FILES: u32 = 6_000;

type Fault = fn(&mut Random, &mut Fields);

const FAULTS: [Fault; 6] = [letters, fall, last, position, frames, range];

/// 10: one letter is another.
fn letters(random: &mut Random, fields: &mut Fields) {
    let place = random.below(4) as usize;
    fields.letters[place] ^= 1 << random.below(8);
}

/// 11: a table number is above the next, if there are two.
fn fall(random: &mut Random, fields: &mut Fields) {
    if let Some(last) = fields.table.len().checked_sub(1).filter(|last| *last > 0) {
        let place = random.below(last as u32) as usize;
        fields.table[place] = fields.table[place + 1].saturating_add(1 + random.below(3));
    }
}

/// 11: eight times the last table number isn't the position.
fn last(random: &mut Random, fields: &mut Fields) {
    let right = fields.table.last().copied().unwrap_or(0);
    fields.put_last(right.wrapping_add(random.pick(&[1, 2, 0x2000_0000, u32::MAX])));
}

/// 11: the position is another.
fn position(random: &mut Random, fields: &mut Fields) {
    let by = random.pick(&[1, 4, 8, 65_536, 0u32.wrapping_sub(4), u32::MAX]);
    fields.position = fields.position.wrapping_add(by);
}

/// 11: the number of frames is another.
fn frames(random: &mut Random, fields: &mut Fields) {
    let by = random.pick(&[1, 2, 0x4000_0000, u32::MAX]);
    fields.frames = fields.frames.wrapping_add(by);
}

/// 12: a coordinate is out of range, if there is a record.
fn range(random: &mut Random, fields: &mut Fields) {
    let records = fields.records.len() as u32;
    if records > 0 {
        let place = random.below(records) as usize;
        let coordinate = random.below(4) as usize;
        let numbers = [-32768, -16385, 16384, 32767];
        fields.records[place][coordinate] = random.pick(&numbers);
    }
}

/// Adds the faults of a set, which is a bit for each.
fn add(random: &mut Random, fields: &mut Fields, set: u32) {
    for (place, fault) in FAULTS.iter().enumerate() {
        if set >> place & 1 == 1 {
            fault(random, fields);
        }
    }
}

/// Adds one of the faults, or any set of them.
pub fn add_any(random: &mut Random, fields: &mut Fields) {
    let faults = FAULTS.len() as u32;
    let set = match random.below(2) {
        0 => 1 << random.below(faults),
        _ => random.below(1 << faults),
    };
    add(random, fields, set);
}

/// Every set of faults in a file of any length, and in one that is longer than 65536 bytes.
pub fn run(comparison: &mut Comparison, random: &mut Random) {
    for set in 0..1 << FAULTS.len() {
        for _ in 0..FILES {
            let (records, frames) = (random.below(7), random.below(7));
            let mut fields = Fields::lawful(random, records, frames);
            add(random, &mut fields, set);
            let file = fields.bytes();
            let beyond = random.pick(&BEYOND);
            for frame in [random.below(frames + 1), frames, beyond] {
                comparison.find(&file, frame);
            }
        }
        let mut fields = Fields::lawful(random, 8191, 2);
        add(random, &mut fields, set);
        comparison.find(&fields.bytes(), random.below(4));
    }
}
