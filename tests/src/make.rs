//! Random arguments within the limits: ends of many kinds, windows near a line, rasters and lists to start from.
use crate::random::Random;
use paper::frame::{self, ends_out, pixel, window, Ends, Pixel, Window, HIGHEST, LOWEST};
use paper::line::Line;

const FIRST: i32 = LOWEST as i32;
const LAST: i32 = HIGHEST as i32;

/// Numbers at and around the limits of a coordinate.
const EDGES: [i32; 8] = [FIRST, FIRST + 1, -1, 0, 1, 2, LAST - 1, LAST];

pub fn coordinate(random: &mut Random) -> i32 {
    if random.one_in(16) {
        random.pick(&EDGES)
    } else {
        random.between(FIRST, LAST)
    }
}

/// The coordinate, or the next one that is in range.
pub fn in_range(number: i32) -> i32 {
    number.clamp(FIRST, LAST)
}

/// Ends at most `reach` apart in each direction.
pub fn short_ends(random: &mut Random, reach: i32) -> Ends {
    let (x0, y0) = (coordinate(random), coordinate(random));
    let x1 = in_range(x0 + random.between(-reach, reach));
    let y1 = in_range(y0 + random.between(-reach, reach));
    frame::ends(x0, y0, x1, y1)
}

/// L, up to `reach`, and S of a line with halves: L is even × unit and S is odd × unit, so a half comes in every `even` steps.
/// A unit of 0 gives a line of one pixel.
pub fn halved(random: &mut Random, reach: i32) -> (i32, i32) {
    let half = random.pick(&[1, 1, 2, 3, 4, 5]);
    let odd = 2 * random.below(half) as i32 + 1;
    let even = 2 * half as i32;
    let unit = random.between(0, reach / even);
    (even * unit, odd * unit)
}

/// Ends whose differences are these where they stay in range, turned in any of the eight directions, either end first.
fn ends_apart(random: &mut Random, long: i32, short: i32) -> Ends {
    let (x0, y0) = (coordinate(random), coordinate(random));
    let (across, down) = if random.one_in(2) {
        (long, short)
    } else {
        (short, long)
    };
    // Towards the farther limit, so that long differences stay whole.
    let towards = |from: i32, by: i32| {
        if from > 0 {
            in_range(from - by)
        } else {
            in_range(from + by)
        }
    };
    let (x1, y1) = (towards(x0, across), towards(y0, down));
    if random.one_in(2) {
        frame::ends(x0, y0, x1, y1)
    } else {
        frame::ends(x1, y1, x0, y0)
    }
}

/// Ends up to `reach` apart: in any direction, near an axis, near the diagonal, or with halves.
pub fn ends(random: &mut Random, reach: i32) -> Ends {
    let long = random.between(0, reach);
    match random.below(7) {
        0 => {
            let short = random.between(0, 3);
            ends_apart(random, long, short)
        }
        1 => {
            let short = long - random.between(0, 2);
            ends_apart(random, long, short.max(0))
        }
        2 | 3 => {
            let (long, short) = halved(random, reach);
            ends_apart(random, long, short)
        }
        4 if reach >= LAST => {
            let mut any = || coordinate(random);
            frame::ends(any(), any(), any(), any())
        }
        _ => short_ends(random, reach),
    }
}

/// Most windows are small; some are wide or high.
fn sides(random: &mut Random) -> (u32, u32) {
    let mut up_to = |width, height| (1 + random.below(width), 1 + random.below(height));
    let kind = up_to(16, 1).0;
    match kind {
        1..=10 => up_to(40, 40),
        11..=12 => up_to(600, 20),
        13..=14 => up_to(20, 600),
        15 => up_to(8192, 4),
        _ => up_to(4, 8192),
    }
}

/// The first coordinate of a side that begins `before` before the place, moved into the range where need be.
fn first_of_side(place: i32, before: i32, side: u32) -> i32 {
    (place - before).clamp(FIRST, LAST - side as i32 + 1)
}

/// A lawful window of these sides with the pixel in it or just outside.
pub fn window_at(random: &mut Random, near: Pixel, width: u32, height: u32) -> Window {
    let across = random.between(-2, width as i32 + 1);
    let down = random.between(-2, height as i32 + 1);
    let left = first_of_side(near.column, across, width);
    let top = first_of_side(near.row, down, height);
    window(left, top, width, height)
}

pub fn any_pixel(random: &mut Random) -> Pixel {
    pixel(coordinate(random), coordinate(random))
}

/// A pixel of the line, its first and its last more often than the others.
pub fn pixel_of(random: &mut Random, line: &Line) -> Pixel {
    let last = line.pixels.len() - 1;
    match random.below(8) {
        0 => line.pixels[0],
        1 => line.pixels[last],
        _ => line.pixels[random.below(last as u32 + 1) as usize],
    }
}

/// A lawful window: one in eight anywhere, the others at the line.
pub fn window_near(random: &mut Random, line: &Line) -> Window {
    let (width, height) = sides(random);
    let near = if random.one_in(8) {
        any_pixel(random)
    } else {
        pixel_of(random, line)
    };
    window_at(random, near, width, height)
}

/// Sets the padding of every row.
pub fn set_padding(window: Window, raster: &mut [u8]) {
    let padding = match window.width % 8 {
        0 => 0,
        used => 255 >> used,
    };
    for row in raster.chunks_mut(window.row_bytes().max(1) as usize) {
        if let Some(byte) = row.last_mut() {
            *byte |= padding;
        }
    }
}

/// A raster to start from: clear or random, its padding set or as it comes.
pub fn raster(random: &mut Random, window: Window) -> Vec<u8> {
    let mut raster = vec![0; window.raster_bytes() as usize];
    let kind = random.below(4);
    if kind >= 2 {
        random.fill(&mut raster);
    }
    if kind % 2 == 1 {
        set_padding(window, &mut raster);
    }
    raster
}

/// The length of the line's list, in numbers; a line that is refused has none, and any will do.
pub fn needed(line: &Line) -> usize {
    if ends_out(line.ends) {
        3
    } else {
        3 * (line.short as usize + 1)
    }
}

/// Numbers of any size.
pub fn numbers(random: &mut Random, len: usize) -> Vec<i32> {
    (0..len).map(|_| random.word() as i32).collect()
}
