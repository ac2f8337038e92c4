//! All windows of hostile numbers, with rasters of the right length and of wrong ones, and random windows around the last
//! place that a side can have.
use super::{bytes, everything, raster_lengths, ROWS, SIDES};
use crate::comparison::Comparison;
use crate::random::Random;
use paper::draw::Band;
use paper::frame::{ends, window, Window};
use paper::line::Line;

const AT_THE_LIMIT: u32 = 300_000;

/// 8192 is the last place of a side of 8192.
const PLACES: [i32; 12] = [
    i32::MIN,
    -16385,
    -16384,
    -1,
    0,
    1,
    8191,
    8192,
    8193,
    16383,
    16384,
    i32::MAX,
];

fn all_windows() -> Vec<Window> {
    let mut windows = Vec::new();
    for left in PLACES {
        for top in PLACES {
            for width in SIDES {
                windows.extend(SIDES.map(|height| window(left, top, width, height)));
            }
        }
    }
    windows
}

/// A side of any size, and a first coordinate that is its last lawful one or up to 2 from it.
fn side_at_limit(random: &mut Random) -> (i32, u32) {
    let side = 1 + random.below(8194);
    (16384 - side as i32 + random.between(-2, 2), side)
}

/// A window with one side or both at the limit; the other begins at 0.
fn window_at_limit(random: &mut Random) -> Window {
    let ((left, width), (top, height)) = (side_at_limit(random), side_at_limit(random));
    match random.below(3) {
        0 => window(left, 0, width, height),
        1 => window(0, top, width, height),
        _ => window(left, top, width, height),
    }
}

pub fn run(comparison: &mut Comparison, random: &mut Random) {
    let line = Line::new(ends(0, 0, 9, 4));
    for window in all_windows() {
        for len in raster_lengths(window) {
            let start = bytes(random, len);
            let band = Band {
                first: random.pick(&ROWS),
                rows: random.pick(&ROWS),
            };
            everything(comparison, &line, window, &start, band);
        }
    }
    for _ in 0..AT_THE_LIMIT {
        let window = window_at_limit(random);
        let band = Band { first: 0, rows: 1 };
        everything(comparison, &line, window, &[0], band);
    }
}
