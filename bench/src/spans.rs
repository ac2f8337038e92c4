//! Painting long runs along x beside memset over the same bytes.
use crate::byhand::bytes::{fill_masked_runs, fill_masked_runs_counted, fill_runs};
use crate::c::{self, Counts};
use crate::clock::{Clock, Contestant, REPEATS};
use crate::lines::FRAME;
use crate::table::{Asked, Row};

/// The lengths of the runs, in pixels.
pub const LENGTHS: [i32; 4] = [512, 1024, 2048, 4096];

const MASKED: &str = "memset between masked bytes";
const COUNTED: &str = "memset between masked bytes, fresh pixels counted";

/// From this length on a run is long.
const LONG: i32 = 1024;

/// A list of runs of one length, painted in four ways.
struct Group {
    pixels: i32,
    library: Contestant,
    memset: Contestant,
    masked: Contestant,
    counted: Contestant,
}

pub struct Spans(Vec<Group>);

/// Paints a list of runs along x in the frame.
pub fn paint(list: &[i32], raster: &mut [u8]) -> Counts {
    c::paint_runs(0, list.len() as u32 / 3, list, FRAME, raster)
}

/// A number made of both counts.
fn sum(counts: Counts) -> u64 {
    counts.count + counts.fresh
}

impl Group {
    fn enter<'a>(clock: &mut Clock<'a>, pixels: i32, list: &'a [i32]) -> Group {
        Group {
            pixels,
            library: clock.add_repeated(|buffers| sum(paint(list, &mut buffers.raster))),
            memset: clock.add_repeated(|buffers| fill_runs(list, FRAME, &mut buffers.raster)),
            masked: clock.add_repeated(|buffers| fill_masked_runs(list, FRAME, &mut buffers.raster)),
            counted: clock.add_repeated(|buffers| sum(fill_masked_runs_counted(list, FRAME, &mut buffers.raster))),
        }
    }

    fn row(&self, clock: &Clock, other: Contestant, name: &str, asked: Asked) -> Row {
        let runs = REPEATS as f64 * f64::from(FRAME.height);
        let ours = clock.ns(self.library) / runs;
        let theirs = clock.ns(other) / runs;
        Row {
            what: format!("painter, runs of {} pixels", self.pixels),
            ours: format!("{ours:.1} ns a run"),
            theirs: format!("{theirs:.1}, {name}"),
            ratio: ours / theirs,
            asked,
        }
    }
}

impl Spans {
    pub fn enter<'a>(clock: &mut Clock<'a>, lists: &'a [Vec<i32>]) -> Spans {
        let groups = LENGTHS.into_iter().zip(lists);
        Spans(groups.map(|(pixels, list)| Group::enter(clock, pixels, list)).collect())
    }

    pub fn rows(&self, clock: &Clock) -> Vec<Row> {
        let rows = |group: &Group| {
            let asked = if group.pixels < LONG {
                Asked::Shown
            } else {
                Asked::AtMost(1.2)
            };
            [
                group.row(clock, group.memset, "memset", asked),
                group.row(clock, group.masked, MASKED, Asked::Shown),
                group.row(clock, group.counted, COUNTED, Asked::Shown),
            ]
        };
        self.0.iter().flat_map(rows).collect()
    }
}
