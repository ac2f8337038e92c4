//! Lists of band calls for one frame on one raster: compared after every call, and at the end with the pixels of the frame's
//! lines in the rows of all accepted bands; where those are all rows, also with drawing the whole frame and with drawing its
//! lines one by one.
use super::Chosen;
use crate::added::added;
use crate::comparison::{Comparison, Drawer};
use crate::make::{pixel_of, raster, window_at};
use crate::parts::bands::{accepted, calls};
use crate::random::Random;
use paper::draw::Band;
use paper::frame::Window;
use paper::raster::{mark, Marks};

const LISTS: u32 = 80_000;
const WIDEST_WINDOW: u32 = 40;
const HIGHEST_WINDOW: u32 = 24;

/// A frame, a window and a raster to start from.
struct Job {
    chosen: Chosen,
    window: Window,
    start: Vec<u8>,
}

/// What a way of drawing left, and its counts by the library.
#[derive(Debug, PartialEq)]
struct Outcome {
    raster: Vec<u8>,
    counts: Marks,
}

impl Job {
    fn new(random: &mut Random) -> Job {
        let chosen = Chosen::new(random);
        let near = pixel_of(random, &chosen.near);
        let width = 1 + random.below(WIDEST_WINDOW);
        let height = 1 + random.below(HIGHEST_WINDOW);
        let window = window_at(random, near, width, height);
        let start = raster(random, window);
        Job {
            chosen,
            window,
            start,
        }
    }

    /// All calls on one raster, with the sums of their counts.
    fn in_bands(&self, comparison: &mut Comparison, calls: &[Band]) -> Outcome {
        comparison.lend(&self.start);
        let counts = calls
            .iter()
            .map(|band| comparison.draw_frame_again(self.chosen.asked(), self.window, *band))
            .sum();
        outcome(comparison, counts)
    }

    fn whole(&self, comparison: &mut Comparison) -> Outcome {
        let rows = self.window.height;
        self.in_bands(comparison, &[Band { first: 0, rows }])
    }

    fn line_by_line(&self, comparison: &mut Comparison) -> Outcome {
        comparison.lend(&self.start);
        let lines = self.chosen.lines.iter();
        let answers = lines.map(|line| comparison.draw_again(Drawer::Single, line, self.window));
        let counts = answers.map(|answer| answer.marks()).sum();
        outcome(comparison, counts)
    }

    /// The start plus the pixels of the lines in the rows of the accepted bands.
    fn after(&self, calls: &[Band]) -> Vec<u8> {
        let mut raster = self.start.clone();
        for pixel in self.chosen.lines.iter().flat_map(|line| &line.pixels) {
            let row = i64::from(pixel.row) - i64::from(self.window.top);
            if accepted(calls, self.window, row) > 0 {
                mark(self.window, &mut raster, *pixel);
            }
        }
        raster
    }

    fn tell(&self, what: &str) -> String {
        let ends: Vec<_> = self.chosen.lines.iter().map(|line| line.ends).collect();
        format!("{what}: {ends:?} {:?}", self.window)
    }
}

fn outcome(comparison: &Comparison, counts: Marks) -> Outcome {
    Outcome {
        raster: comparison.raster().to_vec(),
        counts,
    }
}

/// The bands of all rows beside the other ways of drawing; `once` says that no row is in two of them.
fn every_way(comparison: &mut Comparison, job: &Job, bands: &Outcome, once: bool) {
    let whole = job.whole(comparison);
    let lines = job.line_by_line(comparison);
    let what = || job.tell("a whole frame, and its lines one by one");
    comparison.equal(what, &whole, &lines);
    let what = || job.tell("a frame by bands of all rows, and the whole");
    comparison.equal(what, &bands.raster, &whole.raster);
    comparison.equal(what, &bands.counts.fresh, &whole.counts.fresh);
    if once {
        comparison.equal(what, &bands.counts, &whole.counts);
    }
}

fn one_list(comparison: &mut Comparison, random: &mut Random) {
    let job = Job::new(random);
    let calls = calls(random, job.window.height);
    let bands = job.in_bands(comparison, &calls);
    let what = || job.tell("a frame by bands");
    comparison.equal(what, &bands.raster, &job.after(&calls));
    let added = added(job.window, &job.start, &bands.raster);
    comparison.equal(what, &Some(bands.counts.fresh), &added);
    let rows = 0..i64::from(job.window.height);
    let times: Vec<usize> = rows.map(|row| accepted(&calls, job.window, row)).collect();
    if !times.contains(&0) {
        let once = times.iter().all(|n| *n == 1);
        every_way(comparison, &job, &bands, once);
    }
}

pub fn run(comparison: &mut Comparison, random: &mut Random) {
    for _ in 0..LISTS {
        one_list(comparison, random);
    }
}
