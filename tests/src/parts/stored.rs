//! Random run lists with overlaps, along both axes, each painted twice; a few with a bad run, and numbers of any size after the
//! counted runs.
use crate::comparison::{Comparison, Stored};
use crate::make::{any_pixel, coordinate, in_range, numbers, raster, window_at};
use crate::random::Random;
use paper::frame::Window;

const LISTS: u32 = 1_500_000;
const AXES: [u32; 6] = [0, 0, 1, 1, 7, u32::MAX];

/// A lawful run at the window: its short coordinate in the window or just outside, its pixels anywhere.
fn run_near(random: &mut Random, along_x: bool, window: Window) -> [i32; 3] {
    let (first, side, across, other) = if along_x {
        (window.left, window.width, window.top, window.height)
    } else {
        (window.top, window.height, window.left, window.width)
    };
    let short = in_range(across + random.between(-2, other as i32 + 1));
    let lowest = if random.one_in(8) {
        coordinate(random)
    } else {
        in_range(first + random.between(-10, side as i32 + 3))
    };
    let most = 16384 - lowest;
    let longest = if random.one_in(16) {
        most
    } else {
        most.min(30)
    };
    [short, lowest, random.between(1, longest)]
}

fn one_list(comparison: &mut Comparison, random: &mut Random) {
    let near = any_pixel(random);
    let (width, height) = (1 + random.below(40), 1 + random.below(12));
    let window = window_at(random, near, width, height);
    let axis = random.pick(&AXES);
    let count = random.below(8);
    let mut list = Vec::new();
    for _ in 0..count {
        list.extend(run_near(random, axis == 0, window));
    }
    if count > 0 && random.one_in(8) {
        let place = random.below(3 * count) as usize;
        list[place] = random.word() as i32;
    }
    let after = random.below(7) as usize;
    list.extend(numbers(random, after));
    let stored = Stored {
        axis,
        count,
        list: &list,
    };
    comparison.paint(stored, window, &raster(random, window));
    let painted = comparison.raster().to_vec();
    comparison.paint(stored, window, &painted);
}

pub fn run(comparison: &mut Comparison, random: &mut Random) {
    for _ in 0..LISTS {
        one_list(comparison, random);
    }
}
