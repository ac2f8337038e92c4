//! The longest file, the longest lines and the largest windows.
use crate::comparison::reel::Asked;
use crate::comparison::Comparison;
use crate::make::raster;
use crate::parts::reel::fields::{table, Fields};
use crate::random::Random;
use paper::draw::Band;
use paper::frame::{window, Window};

const SIDE: u32 = 8192;
const MOST_RECORDS: usize = 8190;
const LONG: u32 = 12;

/// Lines over the whole range: diagonal both ways, level, upright, and with S the half of L, the short coordinate rising along x
/// and falling along both axes.
const RECORDS: [[i16; 4]; 7] = [
    [-16384, -16384, 16383, 16383],
    [16383, -16384, -16384, 16383],
    [16383, 9000, -16384, 8999],
    [100, 16383, 99, -16384],
    [-16384, 0, 16382, 16383],
    [16383, 16383, -16383, 0],
    [16383, -16384, 0, 16382],
];

const WINDOWS: [Window; 3] = [
    window(-16384, -16384, SIDE, SIDE),
    window(8192, 8192, SIDE, SIDE),
    window(-4096, 5000, SIDE - 1, SIDE),
];

/// Frames of lines over the whole range, in all rows and in some of them.
fn long_lines(comparison: &mut Comparison, random: &mut Random) {
    let records = (0..LONG).map(|_| random.pick(&RECORDS)).collect();
    let file = &Fields::new(records, table(random, LONG, 3)).bytes();
    for window in WINDOWS {
        let start = raster(random, window);
        for (first, rows) in [(0, SIDE), (SIDE - 1, 1), (4095, 4096), (1, SIDE)] {
            let frame = random.below(4);
            let band = Band { first, rows };
            comparison.draw_frame(Asked { file, frame }, window, band, &start);
        }
    }
}

/// As many lines as a file can have, all along one row of the widest window: every pixel is counted each time and fresh once.
fn most_lines(comparison: &mut Comparison, random: &mut Random) {
    let records = vec![[0, 5, 8191, 5]; MOST_RECORDS];
    let file = &Fields::new(records, vec![MOST_RECORDS as u32]).bytes();
    let window = window(0, 4, SIDE, 3);
    let start = raster(random, window);
    let band = Band { first: 1, rows: 2 };
    comparison.draw_frame(Asked { file, frame: 0 }, window, band, &start);
}

pub fn run(comparison: &mut Comparison, random: &mut Random) {
    long_lines(comparison, random);
    most_lines(comparison, random);
}
