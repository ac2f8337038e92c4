//! Files of 65536 bytes and some more or fewer, and of 12 bytes and some more or fewer.
use super::BEYOND;
use crate::comparison::Comparison;
use crate::parts::reel::fields::Fields;
use crate::random::Random;
use std::ops::Range;

/// Records and frames that make 65536 bytes.
const FULL: [(u32, u32); 5] = [(8190, 1), (0, 16_381), (8189, 3), (1, 16_379), (4000, 8381)];

/// 65548 and 131084 are 12 modulo 65536.
const LENGTHS: [usize; 8] = [
    65_535,
    65_536,
    65_537,
    65_540,
    65_548,
    131_072,
    131_084,
    1 << 20,
];
const SHORT_LENGTHS: Range<usize> = 0..20;

/// The first frames, the last one, some others, and some that the file doesn't have.
fn ask(comparison: &mut Comparison, random: &mut Random, file: &[u8], frames: u32) {
    let others = [(); 8].map(|()| random.below(frames));
    let edges = [0, 1, frames - 1, frames, frames + 1];
    for frame in edges.into_iter().chain(others).chain(BEYOND) {
        comparison.find(file, frame);
    }
}

/// A number of the table, among them the first and the last but one, is above the next.
fn falling(comparison: &mut Comparison, random: &mut Random, fields: &Fields) {
    let frames = fields.table.len();
    if frames < 2 {
        return;
    }
    for place in [0, frames / 2, frames - 2] {
        let mut wrong = fields.clone();
        wrong.table[place] = wrong.table[place + 1] + 1;
        ask(comparison, random, &wrong.bytes(), fields.frames);
    }
}

/// A record, among them the first and the last, has a coordinate out of range.
fn out_of_range(comparison: &mut Comparison, random: &mut Random, fields: &Fields) {
    let records = fields.records.len();
    if records == 0 {
        return;
    }
    for place in [0, records / 2, records - 1] {
        let mut wrong = fields.clone();
        let coordinate = random.below(4) as usize;
        wrong.records[place][coordinate] = random.pick(&[16384, -16385]);
        ask(comparison, random, &wrong.bytes(), fields.frames);
    }
}

/// A byte more at the front, at the back, before the trailer; a byte fewer at the front.
fn one_off(comparison: &mut Comparison, random: &mut Random, fields: &Fields) {
    let file = fields.bytes();
    for place in [0, file.len() - 12, file.len()] {
        let mut longer = file.clone();
        longer.insert(place, 0);
        ask(comparison, random, &longer, fields.frames);
    }
    ask(comparison, random, &file[1..], fields.frames);
}

fn full(comparison: &mut Comparison, random: &mut Random) {
    for (records, frames) in FULL {
        let fields = Fields::lawful(random, records, frames);
        ask(comparison, random, &fields.bytes(), frames);
        falling(comparison, random, &fields);
        out_of_range(comparison, random, &fields);
        one_off(comparison, random, &fields);
        for (records, frames) in [(records + 1, frames), (records, frames + 1)] {
            let longer = Fields::lawful(random, records, frames);
            ask(comparison, random, &longer.bytes(), frames);
        }
    }
}

/// A file of this length that ends with as much of the empty file as it has room for.
fn ends_as_empty(len: usize, byte: u8) -> Vec<u8> {
    let empty = Fields::new(Vec::new(), Vec::new()).bytes();
    let mut file = vec![byte; len];
    for (byte, end) in file.iter_mut().rev().zip(empty.iter().rev()) {
        *byte = *end;
    }
    file
}

fn lengths(comparison: &mut Comparison) {
    for len in LENGTHS.into_iter().chain(SHORT_LENGTHS) {
        for byte in [0, 1, 255] {
            let file = ends_as_empty(len, byte);
            comparison.find(&file, 0);
            comparison.find(&file, u32::MAX);
            comparison.find(&vec![byte; len], 0);
        }
    }
}

pub fn run(comparison: &mut Comparison, random: &mut Random) {
    full(comparison, random);
    lengths(comparison);
}
