//! All pairs of ends in a small square around (0, 0) with all small windows at and around it: every drawer, listing and
//! painting, and band by band, where the bands' counts add up to the whole line's.
use crate::comparison::{Comparison, Drawer, Stored};
use crate::make::{numbers, raster};
use crate::random::Random;
use paper::draw::Band;
use paper::frame::{ends, window, Ends, Window};
use paper::line::Line;
use paper::raster::Marks;

const SIDE: i32 = 7;
const FIRST: i32 = -3;
const LARGEST: u32 = 4;

/// All windows of these sides that touch the square or stand beside it.
fn windows_around(width: u32, height: u32) -> Vec<Window> {
    let mut windows = Vec::new();
    for left in FIRST - width as i32..=FIRST + SIDE {
        for top in FIRST - height as i32..=FIRST + SIDE {
            windows.push(window(left, top, width, height));
        }
    }
    windows
}

/// All small sides, and some wider ones, whose rows have more than one byte and padding or none.
fn windows() -> Vec<Window> {
    let small = (1..=LARGEST).flat_map(|width| (1..=LARGEST).map(move |height| (width, height)));
    let wide = [(9, 2), (12, 1), (16, 3), (17, 2)];
    small
        .chain(wide)
        .flat_map(|(width, height)| windows_around(width, height))
        .collect()
}

fn all_ends() -> Vec<Ends> {
    let place = |n: i32| (FIRST + n % SIDE, FIRST + n / SIDE);
    let pair = |n: i32| {
        let ((x0, y0), (x1, y1)) = (place(n % (SIDE * SIDE)), place(n / (SIDE * SIDE)));
        ends(x0, y0, x1, y1)
    };
    (0..SIDE.pow(4)).map(pair).collect()
}

/// The line in the window, each way of drawing from the same start.
fn every_way(comparison: &mut Comparison, line: &Line, list: &[i32], window: Window, start: &[u8]) {
    let whole = comparison.draw(Drawer::Single, line, window, start).marks();
    comparison.draw(Drawer::Double, line, window, start);
    comparison.paint(Stored::of(line, list), window, start);
    comparison.lend(start);
    let bands = (0..window.height).map(|first| Drawer::Band(Band { first, rows: 1 }));
    let rows: Marks = bands
        .map(|band| comparison.draw_again(band, line, window).marks())
        .sum();
    comparison.same("row by row, and the whole", line, window, &rows, &whole);
}

pub fn run(comparison: &mut Comparison, random: &mut Random) {
    let windows = windows();
    for window in &windows {
        comparison.window(*window);
    }
    for ends in all_ends() {
        let line = Line::new(ends);
        let start = numbers(random, 3 * SIDE as usize);
        let list = comparison.list(&line, &start).list;
        for window in &windows {
            let start = raster(random, *window);
            every_way(comparison, &line, &list, *window, &start);
        }
    }
}
