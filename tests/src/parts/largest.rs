//! Frames and sums of the largest sizes.
use crate::c;
use crate::comparison::{Comparison, Drawer, Stored};
use crate::make::{raster, set_padding};
use crate::random::Random;
use paper::draw::Band;
use paper::frame::{ends, window, Ends, Window};
use paper::line::Line;

const SIDE: u32 = 8192;

/// Lines over the whole range: diagonal both ways, level, upright, and with S the half of L, the short coordinate rising along x
/// and falling along both axes.
const ENDS: [Ends; 7] = [
    ends(-16384, -16384, 16383, 16383),
    ends(16383, -16384, -16384, 16383),
    ends(16383, 9000, -16384, 8999),
    ends(100, 16383, 99, -16384),
    ends(-16384, 0, 16382, 16383),
    ends(16383, 16383, -16383, 0),
    ends(16383, -16384, 0, 16382),
];

fn draw(comparison: &mut Comparison, window: Window, start: &[u8], ends: Ends) {
    let line = Line::new(ends);
    let list = comparison.list(&line, &vec![7; 98_304]).list;
    comparison.draw(Drawer::Single, &line, window, start);
    comparison.draw(Drawer::Double, &line, window, start);
    for (first, rows) in [(0, SIDE), (SIDE - 1, 1), (4095, 4096), (1, SIDE)] {
        comparison.draw(Drawer::Band(Band { first, rows }), &line, window, start);
    }
    comparison.paint(Stored::of(&line, &list), window, start);
}

/// The search in a frame with padding alone, then rows and search where the last pixel is marked as well.
fn look(comparison: &mut Comparison, window: Window) {
    let mut start = vec![0; window.raster_bytes() as usize];
    set_padding(window, &mut start);
    comparison.search(window, &start);
    let last = start.len() - 1;
    start[last] |= 128 >> ((window.width - 1) % 8);
    comparison.search(window, &start);
    for row in [0, SIDE - 1, SIDE] {
        comparison.row(window, &start, row);
    }
    comparison.search(window, &start[..last]);
    comparison.draw(Drawer::Single, &Line::new(ENDS[0]), window, &start[..last]);
}

/// A sum that does not fit in 32 bits: the same run of 8192 pixels, 2^19 + 1 times, in a window of one row. Its pixels are fresh
/// once at most.
fn largest_sum(comparison: &mut Comparison) {
    let runs = (1 << 19) + 1;
    let window = window(0, 0, SIDE, 1);
    let list = [0, 0, SIDE as i32].repeat(runs as usize);
    let stored = Stored {
        axis: 0,
        count: runs,
        list: &list,
    };
    // A clear row, and one with four marked pixels in each byte.
    for (byte, fresh) in [(0, 8192), (0x5A, 4096)] {
        let sum = c::Drawn {
            refused: 0,
            place: 0,
            count: u64::from(runs) * u64::from(SIDE),
            fresh,
        };
        comparison.paint_known(stored, window, &[byte; 1024], sum, &[255; 1024]);
    }
}

pub fn run(comparison: &mut Comparison, random: &mut Random) {
    let places = [
        (-16384, -16384),
        (8192, 8192),
        (-4096, 5000),
        (8192, -16384),
    ];
    for ((left, top), width) in places.into_iter().zip([SIDE, SIDE, SIDE - 1, SIDE - 1]) {
        let window = window(left, top, width, SIDE);
        for ends in ENDS {
            draw(comparison, window, &raster(random, window), ends);
        }
        look(comparison, window);
    }
    largest_sum(comparison);
}
