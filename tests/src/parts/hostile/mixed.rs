//! Each argument lawful or hostile by itself, so that conditions are met in every combination.
use super::{bytes, everything, raster_lengths, ENDS, ROWS, SIDES};
use crate::comparison::Comparison;
use crate::random::Random;
use paper::draw::Band;
use paper::frame::{ends, window, Ends, Window};
use paper::line::Line;

const CASES: u32 = 400_000;

/// A number near 0; one in `rarity` is hostile.
fn place(random: &mut Random, rarity: u32) -> i32 {
    if random.one_in(rarity) {
        random.pick(&ENDS)
    } else {
        random.between(-12, 12)
    }
}

/// Ends near (0, 0), some with hostile coordinates.
pub fn mixed_ends(random: &mut Random) -> Ends {
    let mut end = || place(random, 12);
    ends(end(), end(), end(), end())
}

fn side(random: &mut Random) -> u32 {
    if random.one_in(6) {
        random.pick(&SIDES)
    } else {
        1 + random.below(20)
    }
}

fn band(random: &mut Random, window: Window) -> Band {
    let mut number = |below: u32| {
        if random.one_in(4) {
            random.pick(&ROWS)
        } else {
            random.below(below)
        }
    };
    Band {
        first: number(window.height.clamp(1, 20)),
        rows: number(6),
    }
}

/// Mostly the right length.
fn raster_len(random: &mut Random, window: Window) -> usize {
    let lengths = raster_lengths(window);
    if random.one_in(4) {
        random.pick(&lengths)
    } else {
        lengths[2]
    }
}

/// A window, a raster to start from and a band.
pub fn frame_and_band(random: &mut Random) -> (Window, Vec<u8>, Band) {
    let (left, top) = (place(random, 6), place(random, 6));
    let window = window(left, top, side(random), side(random));
    let len = raster_len(random, window);
    let start = bytes(random, len);
    (window, start, band(random, window))
}

pub fn run(comparison: &mut Comparison, random: &mut Random) {
    for _ in 0..CASES {
        let line = Line::new(mixed_ends(random));
        let (window, start, band) = frame_and_band(random);
        everything(comparison, &line, window, &start, band);
    }
}
