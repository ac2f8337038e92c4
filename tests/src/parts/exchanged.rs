//! A line and the line with its ends exchanged: from the same start every way of drawing leaves the same raster and answers the
//! same, and the lister leaves the same runs in the reverse order. First come lines with halves whose runs and rasters are found
//! by hand, then random ones, then hostile arguments.
use super::hostile::mixed::{frame_and_band, mixed_ends};
use super::lines::{band, list_len};
use crate::comparison::ways::{Drawing, Given};
use crate::comparison::{Comparison, Listing};
use crate::make::{self, numbers, raster, window_near};
use crate::random::Random;
use paper::draw::Band;
use paper::frame::{ends, window, Ends, Window};
use paper::line::Line;

/// How far the ends are apart, how many such lines, and how many windows each gets.
const KINDS: [(i32, u32, u32); 3] = [(40, 80_000, 1), (700, 6_000, 2), (32767, 300, 4)];
const HOSTILE: u32 = 25_000;

/// A line with halves: its runs from the first end on, and in a window the raster that it leaves of a clear one.
struct Known {
    ends: Ends,
    runs: &'static [i32],
    window: Window,
    raster: &'static [u8],
}

/// Runs and rasters are found by hand from the exact short coordinates, which stand beside them.
const KNOWN: [Known; 10] = [
    // 0, 1/2, 1 at columns 0 to 2.
    Known {
        ends: ends(0, 0, 2, 1),
        runs: &[0, 0, 1, 1, 1, 2],
        window: window(0, 0, 3, 2),
        raster: &[128, 96],
    },
    // 1, 1/2, 0 at columns 0 to 2.
    Known {
        ends: ends(0, 1, 2, 0),
        runs: &[1, 0, 2, 0, 2, 1],
        window: window(0, 0, 3, 2),
        raster: &[32, 192],
    },
    // 2, 3/2, 1, 1/2, 0 at columns 0 to 4.
    Known {
        ends: ends(0, 2, 4, 0),
        runs: &[2, 0, 2, 1, 2, 2, 0, 4, 1],
        window: window(0, 0, 5, 3),
        raster: &[8, 48, 192],
    },
    // 2, 3/2, 1, 1/2, 0 at columns 4 to 0.
    Known {
        ends: ends(4, 2, 0, 0),
        runs: &[2, 3, 2, 1, 1, 2, 0, 0, 1],
        window: window(0, 0, 5, 3),
        raster: &[128, 96, 24],
    },
    // 0, -1/2, -1, -3/2, -2 at rows 0 to 4.
    Known {
        ends: ends(0, 0, -2, 4),
        runs: &[0, 0, 2, -1, 2, 2, -2, 4, 1],
        window: window(-2, 0, 3, 5),
        raster: &[32, 32, 64, 64, 128],
    },
    // 1, 5/4, 6/4, 7/4, 2 at rows 3 to -1.
    Known {
        ends: ends(1, 3, 2, -1),
        runs: &[1, 2, 2, 2, -1, 3],
        window: window(1, -1, 2, 5),
        raster: &[64, 64, 64, 128, 128],
    },
    // -3, -7/2, -4, -9/2, -5 at columns -5 to -9; the window has columns -8 to -6 and rows -4 and -3.
    Known {
        ends: ends(-5, -3, -9, -5),
        runs: &[-3, -6, 2, -4, -8, 2, -5, -9, 1],
        window: window(-8, -4, 3, 2),
        raster: &[192, 32],
    },
    // 0, 3/10, 6/10, 9/10, 12/10, 15/10, 18/10, 21/10, 24/10, 27/10, 3, all with a minus, at columns 0 to 10.
    Known {
        ends: ends(0, 0, 10, -3),
        runs: &[0, 0, 2, -1, 2, 4, -2, 6, 3, -3, 9, 2],
        window: window(0, -3, 11, 4),
        raster: &[0, 96, 3, 128, 60, 0, 192, 0],
    },
    // -16383.5 in the middle, at the lowest columns and rows.
    Known {
        ends: ends(-16383, -16384, -16384, -16382),
        runs: &[-16383, -16384, 2, -16384, -16382, 1],
        window: window(-16384, -16384, 2, 3),
        raster: &[64, 64, 128],
    },
    // 16382.5 in the middle, at the highest columns and rows.
    Known {
        ends: ends(16383, 16383, 16381, 16382),
        runs: &[16383, 16382, 2, 16382, 16381, 1],
        window: window(16381, 16382, 3, 2),
        raster: &[128, 96],
    },
];

fn exchanged(from: Ends) -> Ends {
    ends(from.x1, from.y1, from.x0, from.y0)
}

/// The length of the list's counted runs, in numbers; 0 where the lister refused.
fn counted(listing: &Listing) -> usize {
    (3 * listing.answer.runs as usize).min(listing.list.len())
}

/// The same answer, the same runs in the reverse order, the rest of the list as it is.
fn reversed(listing: &Listing) -> Listing {
    let (runs, rest) = listing.list.split_at(counted(listing));
    Listing {
        answer: listing.answer,
        list: runs.rchunks(3).chain([rest]).flatten().copied().collect(),
    }
}

struct Pair {
    forth: Line,
    back: Line,
}

impl Pair {
    fn new(ends: Ends) -> Pair {
        Pair {
            forth: Line::new(ends),
            back: Line::new(exchanged(ends)),
        }
    }

    fn tell(&self, what: &str) -> String {
        format!("{what} of exchanged ends: {:?}", self.forth.ends)
    }

    /// The lists of both from the same numbers; hands them back.
    fn list(&self, comparison: &mut Comparison, start: &[i32]) -> [Listing; 2] {
        let forth = comparison.list(&self.forth, start);
        let back = comparison.list(&self.back, start);
        let what = || self.tell("lists");
        comparison.equal(what, &forth, &reversed(&back));
        let rest = counted(&forth)..;
        let what = || self.tell("the rest of the lists");
        comparison.equal(what, &forth.list[rest.clone()], &start[rest]);
        [forth, back]
    }

    /// Both drawn in every way from the same start; hands back the drawings of the line as it is.
    fn draw(
        &self,
        comparison: &mut Comparison,
        lists: &[Listing; 2],
        given: &Given,
    ) -> [Drawing; 4] {
        let forth = comparison.every_way(&self.forth, lists[0].stored(), given);
        let back = comparison.every_way(&self.back, lists[1].stored(), given);
        for (one, other) in forth.iter().zip(&back) {
            let what = || format!("{} {given:?}", self.tell(one.way));
            comparison.equal(what, one, other);
            if one.answer.refused != 0 {
                comparison.equal(what, &one.raster, &given.start);
            }
        }
        forth
    }
}

fn by_hand(comparison: &mut Comparison, random: &mut Random, known: &Known) {
    let pair = Pair::new(known.ends);
    let lists = pair.list(comparison, &numbers(random, known.runs.len()));
    let what = || pair.tell("known runs");
    comparison.equal(what, &lists[0].list[..], known.runs);
    let rows = known.window.height;
    let given = Given {
        window: known.window,
        band: Band { first: 0, rows },
        start: vec![0; known.raster.len()],
    };
    for drawing in pair.draw(comparison, &lists, &given) {
        let what = || pair.tell("known raster");
        comparison.equal(what, &drawing.raster[..], known.raster);
    }
}

fn one_line(comparison: &mut Comparison, random: &mut Random, ends: Ends, windows: u32) {
    let pair = Pair::new(ends);
    let len = list_len(random, &pair.forth);
    let lists = pair.list(comparison, &numbers(random, len));
    for _ in 0..windows {
        let window = window_near(random, &pair.forth);
        let given = Given {
            window,
            band: band(random, window),
            start: raster(random, window),
        };
        pair.draw(comparison, &lists, &given);
    }
}

/// Ends, window, raster, band and list, each lawful or hostile by itself.
fn hostile(comparison: &mut Comparison, random: &mut Random) {
    let pair = Pair::new(mixed_ends(random));
    let len = list_len(random, &pair.forth);
    let lists = pair.list(comparison, &numbers(random, len));
    let (window, start, band) = frame_and_band(random);
    let given = Given {
        window,
        band,
        start,
    };
    pair.draw(comparison, &lists, &given);
}

/// The lines found by hand, then the random ones, then the hostile arguments.
pub fn run(comparison: &mut Comparison, random: &mut Random) {
    for known in &KNOWN {
        by_hand(comparison, random, known);
    }
    for (reach, lines, windows) in KINDS {
        for _ in 0..lines {
            let ends = make::ends(random, reach);
            one_line(comparison, random, ends, windows);
        }
    }
    for _ in 0..HOSTILE {
        hostile(comparison, random);
    }
}
