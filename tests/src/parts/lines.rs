//! Random lines over the whole coordinate range, each in some windows at it and far from it, by every drawer, once more where
//! it is drawn already, by listing and painting, and in a band.
use crate::comparison::{Comparison, Drawer, Stored};
use crate::make::{ends, needed, numbers, raster, window_near};
use crate::random::Random;
use paper::draw::Band;
use paper::frame::Window;
use paper::line::Line;

/// How far the ends are apart, how many such lines, and how many windows each gets.
const KINDS: [(i32, u32, u32); 3] = [(40, 1_000_000, 1), (700, 100_000, 2), (32767, 12_000, 6)];

/// A band within the window, or one that ends below it.
pub fn band(random: &mut Random, window: Window) -> Band {
    let first = random.below(window.height);
    let rows = random.below(window.height - first + 2);
    Band { first, rows }
}

/// The length of a list for the line: as long as it must be, longer, or one number short.
pub fn list_len(random: &mut Random, line: &Line) -> usize {
    needed(line) + random.pick(&[0, 0, 1, 7]) as usize - usize::from(random.one_in(8))
}

fn in_window(comparison: &mut Comparison, random: &mut Random, line: &Line, stored: Stored) {
    let window = window_near(random, line);
    let start = raster(random, window);
    comparison.draw(Drawer::Single, line, window, &start);
    comparison.draw(Drawer::Double, line, window, &start);
    comparison.draw_again(Drawer::Single, line, window);
    comparison.draw(Drawer::Band(band(random, window)), line, window, &start);
    comparison.paint(stored, window, &start);
}

pub fn run(comparison: &mut Comparison, random: &mut Random) {
    for (reach, lines, windows) in KINDS {
        for _ in 0..lines {
            let line = Line::new(ends(random, reach));
            let len = list_len(random, &line);
            let start = numbers(random, len);
            let list = comparison.list(&line, &start).list;
            let stored = Stored::of(&line, &list);
            for _ in 0..windows {
                in_window(comparison, random, &line, stored);
            }
        }
    }
}
