//! All ends of hostile numbers in a few windows, with lists one number short, just long enough, and longer.
use super::ENDS;
use crate::comparison::{Comparison, Drawer};
use crate::make::{needed, numbers, raster};
use crate::random::Random;
use paper::draw::Band;
use paper::frame::{self, window, Ends, Window};
use paper::line::Line;

/// The last one is refused itself.
const WINDOWS: [Window; 5] = [
    window(0, 0, 1, 1),
    window(-3, -2, 9, 5),
    window(16383, 16383, 1, 1),
    window(-16384, -16384, 12, 3),
    window(0, 0, 0, 1),
];

fn all_ends() -> Vec<Ends> {
    let at = |n: usize, power: u32| ENDS[n / ENDS.len().pow(power) % ENDS.len()];
    (0..ENDS.len().pow(4))
        .map(|n| frame::ends(at(n, 0), at(n, 1), at(n, 2), at(n, 3)))
        .collect()
}

pub fn run(comparison: &mut Comparison, random: &mut Random) {
    for ends in all_ends() {
        let line = Line::new(ends);
        for window in WINDOWS {
            let start = raster(random, window);
            comparison.draw(Drawer::Single, &line, window, &start);
            comparison.draw(Drawer::Double, &line, window, &start);
            let band = Band { first: 0, rows: 1 };
            comparison.draw(Drawer::Band(band), &line, window, &start);
        }
        let needed = needed(&line);
        for len in [0, needed - 1, needed, needed + 2] {
            comparison.list(&line, &numbers(random, len));
        }
    }
}
