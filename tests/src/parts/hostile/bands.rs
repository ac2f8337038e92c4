//! Bands and rows around the window's last row, and bands whose end wraps.
use crate::comparison::{Comparison, Drawer};
use crate::make::raster;
use crate::random::Random;
use paper::draw::Band;
use paper::frame::{ends, window};
use paper::line::Line;

const FAR: [u32; 7] = [
    2,
    0x7FFF_FFFF,
    0x8000_0000,
    0x8000_0001,
    u32::MAX - 2,
    u32::MAX - 1,
    u32::MAX,
];

pub fn run(comparison: &mut Comparison, random: &mut Random) {
    let line = Line::new(ends(0, 0, 9, 4));
    for height in [1, 2, 5, 8192] {
        let window = window(0, 0, 10, height);
        let near = [0, 1, height - 1, height, height + 1];
        let wrapping = [u32::MAX - height, u32::MAX - height + 1];
        let choices = [&near[..], &wrapping, &FAR].concat();
        for first in &choices {
            for rows in &choices {
                let (first, rows) = (*first, *rows);
                let start = raster(random, window);
                comparison.draw(Drawer::Band(Band { first, rows }), &line, window, &start);
            }
            comparison.row(window, &raster(random, window), *first);
        }
    }
}
