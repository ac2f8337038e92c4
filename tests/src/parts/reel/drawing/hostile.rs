//! File, frame, window, band and raster lawful or hostile each by itself, so that conditions are met in every combination.
use super::fields_near;
use crate::comparison::reel::Asked;
use crate::comparison::Comparison;
use crate::make::raster;
use crate::parts::hostile::mixed::frame_and_band;
use crate::parts::lines::band;
use crate::parts::reel::files::faults::add_any;
use crate::parts::reel::files::BEYOND;
use crate::random::Random;
use paper::draw::Band;
use paper::frame::{pixel, window, Window};

const CASES: u32 = 600_000;

/// A file of lines near (0, 0); one in two has faults, one in 32 is cut, one in 32 is longer.
fn file(random: &mut Random) -> Vec<u8> {
    let mut fields = fields_near(random, pixel(0, 0), 15);
    if random.one_in(2) {
        add_any(random, &mut fields);
    }
    let mut file = fields.bytes();
    match random.below(32) {
        0 => file.truncate(random.below(file.len() as u32) as usize),
        1 => file.insert(0, 0),
        _ => (),
    }
    file
}

/// A lawful window near (0, 0) with its raster and a band.
fn lawful(random: &mut Random) -> (Window, Vec<u8>, Band) {
    let (left, top) = (random.between(-12, 12), random.between(-12, 12));
    let window = window(left, top, 1 + random.below(20), 1 + random.below(20));
    (window, raster(random, window), band(random, window))
}

pub fn run(comparison: &mut Comparison, random: &mut Random) {
    for _ in 0..CASES {
        let file = &file(random);
        let frame = match random.below(8) {
            0 => random.pick(&BEYOND),
            _ => random.below(6),
        };
        let (window, start, band) = match random.below(2) {
            0 => lawful(random),
            _ => frame_and_band(random),
        };
        comparison.draw_frame(Asked { file, frame }, window, band, &start);
    }
}
