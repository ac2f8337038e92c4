//! Numbers at and beyond every limit, for every argument of every function.
pub mod bands;
pub mod ends;
pub mod lists;
pub mod mixed;
pub mod windows;

use crate::comparison::{Comparison, Drawer, Stored};
use crate::random::Random;
use paper::draw::Band;
use paper::frame::Window;
use paper::line::Line;

const ENDS: [i32; 9] = [i32::MIN, -16385, -16384, -1, 0, 1, 16383, 16384, i32::MAX];
const SIDES: [u32; 9] = [
    0,
    1,
    8,
    8191,
    8192,
    8193,
    0x7FFF_FFFF,
    0x8000_0000,
    u32::MAX,
];
const ROWS: [u32; 8] = [0, 1, 7, 8, 8191, 8192, 0x8000_0000, u32::MAX];

/// Lawful rasters longer than this stand in the part of the largest frames.
const LONGEST_RASTER: u64 = 8192;

/// Every function that takes a window.
fn everything(comparison: &mut Comparison, line: &Line, window: Window, start: &[u8], band: Band) {
    comparison.window(window);
    comparison.draw(Drawer::Single, line, window, start);
    comparison.draw(Drawer::Double, line, window, start);
    comparison.draw(Drawer::Band(band), line, window, start);
    comparison.row(window, start, band.first);
    comparison.search(window, start);
    let stored = Stored {
        axis: band.rows,
        count: 2,
        list: &[0, 0, 9, 1, -3, 5, i32::MIN],
    };
    comparison.paint(stored, window, start);
}

/// The right length and its neighbours where they are short; else some wrong ones.
fn raster_lengths(window: Window) -> Vec<usize> {
    let right = window.raster_bytes();
    if right == 0 || right > LONGEST_RASTER {
        return vec![0, 1, 9];
    }
    let right = right as usize;
    vec![0, right - 1, right, right + 1]
}

fn bytes(random: &mut Random, len: usize) -> Vec<u8> {
    let mut bytes = vec![0; len];
    random.fill(&mut bytes);
    bytes
}
