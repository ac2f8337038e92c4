//! Lists of band calls on one raster, in random order with refused and repeated ones among them: compared after every call,
//! and at the end with the line's pixels in the rows of all accepted bands; where those are all rows, also with drawing the
//! whole line and with painting. The fresh pixels of all calls are those that the raster has more at the end.
use crate::added::added;
use crate::comparison::{Comparison, Drawer, Stored};
use crate::make::{ends, needed, numbers, pixel_of, raster, window_at};
use crate::random::Random;
use paper::draw::Band;
use paper::frame::Window;
use paper::line::Line;
use paper::raster::{mark, Marks};

const LISTS: u32 = 600_000;
const HIGHEST_WINDOW: u32 = 24;

/// Bands that cover the window's rows, some that overlap them, some that are refused; in random order.
pub fn calls(random: &mut Random, height: u32) -> Vec<Band> {
    let mut calls = Vec::new();
    let mut first = 0;
    while first < height {
        let rows = 1 + random.below((height - first).min(6));
        calls.push(Band { first, rows });
        first += rows;
    }
    for _ in 0..random.below(6) {
        calls.push(Band {
            first: random.below(height + 2),
            rows: random.below(height + 2),
        });
    }
    for _ in 0..random.below(3) {
        let hostile = [0, 1, height, 0x8000_0000, u32::MAX];
        calls.push(Band {
            first: random.pick(&hostile),
            rows: random.pick(&hostile),
        });
    }
    for place in 1..calls.len() {
        let other = random.below(place as u32 + 1) as usize;
        calls.swap(place, other);
    }
    if random.one_in(2) {
        calls.truncate(random.below(calls.len() as u32 + 1) as usize);
    }
    calls
}

/// How many accepted bands have the row, counted from 0 at the window's top.
pub fn accepted(calls: &[Band], window: Window, row: i64) -> usize {
    let has = |band: &&Band| !band.out(window) && band.has(row);
    calls.iter().filter(has).count()
}

/// The start plus the line's pixels in the rows of the accepted bands.
fn after(line: &Line, window: Window, calls: &[Band], start: &[u8]) -> Vec<u8> {
    let mut raster = start.to_vec();
    for pixel in &line.pixels {
        let row = i64::from(pixel.row) - i64::from(window.top);
        if accepted(calls, window, row) > 0 {
            mark(window, &mut raster, *pixel);
        }
    }
    raster
}

/// A line, a window and a raster to start from, for every way of drawing.
struct Job {
    line: Line,
    window: Window,
    start: Vec<u8>,
}

/// What a way of drawing left, and its counts by the library.
struct Outcome {
    raster: Vec<u8>,
    counts: Marks,
}

impl Job {
    fn new(random: &mut Random) -> Job {
        let line = Line::new(ends(random, 60));
        let near = pixel_of(random, &line);
        let (width, height) = (1 + random.below(40), 1 + random.below(HIGHEST_WINDOW));
        let window = window_at(random, near, width, height);
        let start = raster(random, window);
        Job {
            line,
            window,
            start,
        }
    }

    /// All calls on one raster, with the sums of their counts.
    fn in_bands(&self, comparison: &mut Comparison, calls: &[Band]) -> Outcome {
        comparison.lend(&self.start);
        let bands = calls.iter().map(|band| Drawer::Band(*band));
        let counts = bands
            .map(|band| comparison.draw_again(band, &self.line, self.window).marks())
            .sum();
        outcome(comparison, counts)
    }

    fn whole(&self, comparison: &mut Comparison) -> Outcome {
        let answer = comparison.draw(Drawer::Single, &self.line, self.window, &self.start);
        outcome(comparison, answer.marks())
    }

    fn listed_and_painted(&self, comparison: &mut Comparison, random: &mut Random) -> Outcome {
        let empty = numbers(random, needed(&self.line));
        let list = comparison.list(&self.line, &empty).list;
        let answer = comparison.paint(Stored::of(&self.line, &list), self.window, &self.start);
        outcome(comparison, answer.marks())
    }
}

fn outcome(comparison: &Comparison, counts: Marks) -> Outcome {
    Outcome {
        raster: comparison.raster().to_vec(),
        counts,
    }
}

fn one_list(comparison: &mut Comparison, random: &mut Random) {
    let job = Job::new(random);
    let (line, window) = (&job.line, job.window);
    let calls = calls(random, window.height);
    let bands = job.in_bands(comparison, &calls);
    let expected = after(line, window, &calls, &job.start);
    comparison.same("a list of bands", line, window, &bands.raster, &expected);
    let added = added(window, &job.start, &bands.raster);
    let fresh = Some(bands.counts.fresh);
    comparison.same("fresh pixels by bands", line, window, &fresh, &added);
    let rows = 0..i64::from(window.height);
    let times: Vec<usize> = rows.map(|row| accepted(&calls, window, row)).collect();
    if times.contains(&0) {
        return;
    }
    let whole = job.whole(comparison);
    let painted = job.listed_and_painted(comparison, random);
    let ways = [
        ("bands of all rows, and the whole line", whole),
        ("bands of all rows, and painting", painted),
    ];
    for (what, way) in ways {
        comparison.same(what, line, window, &bands.raster, &way.raster);
        let (sum, fresh) = (bands.counts.fresh, way.counts.fresh);
        comparison.same(what, line, window, &sum, &fresh);
        if times.iter().all(|n| *n == 1) {
            comparison.same(what, line, window, &bands.counts, &way.counts);
        }
    }
}

pub fn run(comparison: &mut Comparison, random: &mut Random) {
    for _ in 0..LISTS {
        one_list(comparison, random);
    }
}
