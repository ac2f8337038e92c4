//! Positions, numbers of frames and last table numbers that are wrong: some by little, some right modulo 2^16 or 2^32 once they
//! are multiplied and added up, some far outside the file.
use crate::comparison::Comparison;
use crate::parts::reel::fields::{record, Fields};
use crate::random::Random;

const FILES: u32 = 150;
const WRAPPING: u32 = 300_000;

/// Numbers above the right one, numbers below it, and others; all modulo 2^32.
fn numbers(right: u32, above: &[u32], below: &[u32], others: &[u32]) -> Vec<u32> {
    let above = above.iter().map(|by| right.wrapping_add(*by));
    let below = below.iter().map(|by| right.wrapping_sub(*by));
    let others = others.iter().copied();
    above.chain(below).chain(others).collect()
}

fn positions(right: u32, len: u32) -> Vec<u32> {
    let far = [0, len - 12, len, 0u32.wrapping_sub(12), u32::MAX];
    let above = [0, 1, 4, 8, 65_536, 0x8000_0000];
    numbers(right, &above, &[1, 4, 8, 12], &far)
}

/// Four times a number of frames that is 2^14 or 2^30 too large is the same modulo 2^16 or 2^32.
fn frame_numbers(right: u32) -> Vec<u32> {
    let far = [0, 0x4000_0000, 0x3FFF_FFFD, u32::MAX];
    let above = [0, 1, 2, 1 << 14, 1 << 30, 2 << 30, 3 << 30];
    numbers(right, &above, &[1, 2, 3], &far)
}

/// Eight times a table number that is 2^13 or 2^29 too large is the same modulo 2^16 or 2^32.
fn last_numbers(right: u32) -> Vec<u32> {
    let far = [0, 0x2000_0000, 0x4000_0000, u32::MAX];
    let above = [0, 1, 1 << 13, 1 << 29, 2 << 29, 4 << 29, 7 << 29];
    numbers(right, &above, &[1], &far)
}

/// Every such position with every such number of frames and every such last table number.
fn every_trailer(comparison: &mut Comparison, random: &mut Random, fields: &Fields) {
    let mut wrong = fields.clone();
    let last = fields.table.last().copied().unwrap_or(0);
    for position in positions(fields.position, fields.bytes().len() as u32) {
        wrong.position = position;
        for frames in frame_numbers(fields.frames) {
            wrong.frames = frames;
            for number in last_numbers(last) {
                wrong.put_last(number);
                let frame = random.below(fields.frames + 1);
                comparison.find(&wrong.bytes(), frame);
            }
        }
    }
}

/// Records without a frame: the position is theirs and the length is right, but there is no last table number.
fn without_frames(comparison: &mut Comparison, random: &mut Random) {
    for records in 0..10 {
        let records = (0..records).map(|_| record(random)).collect();
        let file = Fields::new(records, Vec::new()).bytes();
        comparison.find(&file, 0);
        comparison.find(&file, u32::MAX);
    }
}

/// A trailer that gives the file's length modulo 2^32; eight times the last table number is the position modulo 2^32 where it
/// can be.
fn wrapping(comparison: &mut Comparison, random: &mut Random) {
    let mut fields = Fields::any(random);
    let len = fields.bytes().len() as u32;
    fields.frames = match random.below(4) {
        0 => fields.frames.wrapping_add(random.below(1 << 16)),
        1 => fields.frames.wrapping_add(random.pick(&[1, 2, 3]) << 30),
        2 => fields.frames.wrapping_sub(random.below(8)),
        _ => random.word() as u32,
    };
    let table = fields.frames.wrapping_mul(4);
    fields.position = (len - 12).wrapping_sub(table);
    fields.put_last(fields.position / 8 + (random.below(8) << 29));
    let file = fields.bytes();
    for frame in [
        0,
        random.below(8),
        fields.frames,
        fields.frames.wrapping_sub(1),
    ] {
        comparison.find(&file, frame);
    }
}

pub fn run(comparison: &mut Comparison, random: &mut Random) {
    for _ in 0..FILES {
        let (records, frames) = (random.below(5), random.below(5));
        let fields = Fields::lawful(random, records, frames);
        every_trailer(comparison, random, &fields);
    }
    without_frames(comparison, random);
    for _ in 0..WRAPPING {
        wrapping(comparison, random);
    }
}
