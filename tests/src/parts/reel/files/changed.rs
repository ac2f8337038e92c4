//! Lawful files with a byte changed, with bytes taken out or put in at every place, and every part of them.
use crate::comparison::Comparison;
use crate::parts::reel::fields::Fields;
use crate::random::Random;

const FILES: u32 = 80;
const RANDOM_CHANGES: u32 = 400_000;

/// How many bytes are taken out or put in: one, and as many as each field has.
const COUNTS: [usize; 5] = [1, 2, 4, 8, 12];

/// A frame of the file, or the first that it doesn't have.
fn frame(random: &mut Random, fields: &Fields) -> u32 {
    random.below(fields.frames + 1)
}

/// Each byte in turn with every other value.
fn every_byte(comparison: &mut Comparison, random: &mut Random, fields: &Fields) {
    let mut file = fields.bytes();
    for place in 0..file.len() {
        let right = file[place];
        for value in (0..=255).filter(|value| *value != right) {
            file[place] = value;
            comparison.find(&file, frame(random, fields));
        }
        file[place] = right;
    }
}

/// The file cut at the front and at the back, by every number of bytes.
fn every_part(comparison: &mut Comparison, random: &mut Random, fields: &Fields) {
    let file = fields.bytes();
    for from in 0..=file.len() {
        for to in from..=file.len() {
            comparison.find(&file[from..to], frame(random, fields));
        }
    }
}

/// Bytes taken out at every place, and others put in.
fn every_place(comparison: &mut Comparison, random: &mut Random, fields: &Fields) {
    let file = fields.bytes();
    for place in 0..=file.len() {
        for count in COUNTS {
            let (before, after) = file.split_at(place);
            let mut more = vec![0; count];
            comparison.find(&[before, &more, after].concat(), frame(random, fields));
            random.fill(&mut more);
            comparison.find(&[before, &more, after].concat(), frame(random, fields));
            let rest = &after[count.min(after.len())..];
            comparison.find(&[before, rest].concat(), frame(random, fields));
        }
    }
}

/// A bit of one byte or of some is turned.
fn random_change(comparison: &mut Comparison, random: &mut Random) {
    let fields = Fields::any(random);
    let mut file = fields.bytes();
    for _ in 0..=random.below(3) {
        let place = random.below(file.len() as u32) as usize;
        file[place] ^= 1 << random.below(8);
    }
    comparison.find(&file, frame(random, &fields));
}

pub fn run(comparison: &mut Comparison, random: &mut Random) {
    for _ in 0..FILES {
        let (records, frames) = (random.below(6), 1 + random.below(5));
        let fields = Fields::lawful(random, records, frames);
        every_byte(comparison, random, &fields);
        every_part(comparison, random, &fields);
        every_place(comparison, random, &fields);
    }
    for _ in 0..RANDOM_CHANGES {
        random_change(comparison, random);
    }
}
