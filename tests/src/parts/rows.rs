//! The row view and the search: rasters with few marks, with padding alone, with padding before the first mark.
use crate::comparison::Comparison;
use crate::make::{any_pixel, set_padding, window_at};
use crate::random::Random;
use paper::frame::{pixel, window, Window};
use paper::raster::mark;

const SMALL_FRAMES: u32 = 1_500_000;
const WIDE_FRAMES: u32 = 150_000;

fn any_window(random: &mut Random, widest: u32, highest: u32) -> Window {
    let near = any_pixel(random);
    let (width, height) = (1 + random.below(widest), 1 + random.below(highest));
    window_at(random, near, width, height)
}

/// A raster with 0 to 3 marked pixels, its padding set, clear or random; one in eight is random throughout.
fn sparse(random: &mut Random, window: Window) -> Vec<u8> {
    let mut raster = vec![0; window.raster_bytes() as usize];
    if random.one_in(8) {
        random.fill(&mut raster);
        return raster;
    }
    match random.below(3) {
        0 => set_padding(window, &mut raster),
        1 => {
            let rows = window.row_bytes() as usize * (1 + random.below(window.height) as usize);
            set_padding(window, &mut raster[..rows]);
        }
        _ => (),
    }
    for _ in 0..random.below(4) {
        let column = window.left + random.below(window.width) as i32;
        let row = window.top + random.below(window.height) as i32;
        mark(window, &mut raster, pixel(column, row));
    }
    raster
}

/// A row of the window, or one below it.
fn row(random: &mut Random, height: u32) -> u32 {
    match random.below(4) {
        0 => random.pick(&[height - 1, height, height + 1, u32::MAX, 0x8000_0000]),
        _ => random.below(height),
    }
}

fn one_frame(comparison: &mut Comparison, random: &mut Random, window: Window) {
    let start = sparse(random, window);
    comparison.search(window, &start);
    let row = row(random, window.height);
    comparison.row(window, &start, row);
}

/// Padding in row 0 and a bit in row 1, for every width up to 24.
fn padding_first(comparison: &mut Comparison) {
    for width in 1..=24 {
        let window = window(-9, 4, width, 2);
        for column in 0..width as i32 {
            let mut raster = vec![0; window.raster_bytes() as usize];
            set_padding(window, &mut raster);
            comparison.search(window, &raster);
            let at = pixel(window.left + column, window.top + 1);
            mark(window, &mut raster, at);
            comparison.search(window, &raster);
        }
    }
}

pub fn run(comparison: &mut Comparison, random: &mut Random) {
    padding_first(comparison);
    for _ in 0..SMALL_FRAMES {
        let window = any_window(random, 40, 8);
        one_frame(comparison, random, window);
    }
    for _ in 0..WIDE_FRAMES {
        let window = any_window(random, 2000, 5);
        one_frame(comparison, random, window);
    }
}
