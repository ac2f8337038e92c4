//! Two lines with the same first end, the same long axis and the same L of at least 1, whose second ends differ by d in the
//! short coordinate alone. At step i their pixels differ by at most i × d / L rounded up, and in the short coordinate alone. So
//! their rasters from the same start differ only that near to the first line's pixel with the same long coordinate. First come
//! lines whose short coordinates are found by hand, then random ones. All of it is read off what the library left, without the
//! second implementation.
use crate::comparison::ways::Given;
use crate::comparison::{Comparison, Listing};
use crate::differing::differing;
use crate::make::{self, in_range, needed, numbers, raster, window_near};
use crate::random::Random;
use crate::steps::Steps;
use paper::draw::Band;
use paper::frame::{ends, Ends, Pixel, Window};
use paper::line::Line;

/// How far the ends are apart, how many such pairs, and how many windows each gets.
const KINDS: [(i32, u32, u32); 3] = [(40, 120_000, 1), (700, 8_000, 2), (32767, 300, 4)];

/// How many windows each pair found by hand gets.
const KNOWN_WINDOWS: u32 = 200;

/// The ends of both lines, each with the short coordinates at its steps.
type Known = [(Ends, &'static [i32]); 2];

/// The short coordinates are found by hand from the words: nearest to the exact ones, which stand beside them, a half the larger.
const KNOWN: [Known; 17] = [
    // 0, 0, 0 and 0, 1/2, 1. At step 1 the bound is 1/2, which is rounded up.
    [
        (ends(0, 0, 2, 0), &[0, 0, 0]),
        (ends(0, 0, 2, 1), &[0, 1, 1]),
    ],
    // 0, -1/2, -1 and 0, 1/2, 1. At step 1 the bound is 1.
    [
        (ends(0, 0, 2, -1), &[0, 0, -1]),
        (ends(0, 0, 2, 1), &[0, 1, 1]),
    ],
    // Upwards along y: 0, -1/2, -1 and 0, 1/2, 1.
    [
        (ends(0, 0, -1, -2), &[0, 0, -1]),
        (ends(0, 0, 1, -2), &[0, 1, 1]),
    ],
    // Towards the left: 0, 1/2, 1, 3/2, 2, 5/2, 3, and the same with a minus. The bound at step i is i.
    [
        (ends(0, 0, -6, 3), &[0, 1, 1, 2, 2, 3, 3]),
        (ends(0, 0, -6, -3), &[0, 0, -1, -1, -2, -2, -3]),
    ],
    // From S = L / 2 to S = L: 0, 1/2, 1, 3/2, 2 and the diagonal.
    [
        (ends(0, 0, 4, 2), &[0, 1, 1, 2, 2]),
        (ends(0, 0, 4, 4), &[0, 1, 2, 3, 4]),
    ],
    // The same with falling rows: 0, -1/2, -1, -3/2, -2 and the diagonal.
    [
        (ends(0, 0, 4, -2), &[0, 0, -1, -1, -2]),
        (ends(0, 0, 4, -4), &[0, -1, -2, -3, -4]),
    ],
    // Both diagonals, whole at every step. The bound at step i is 2 × i.
    [
        (ends(3, 3, 6, 0), &[3, 2, 1, 0]),
        (ends(3, 3, 6, 6), &[3, 4, 5, 6]),
    ],
    // Both diagonals of L = 1.
    [
        (ends(7, -2, 8, -3), &[-2, -3]),
        (ends(7, -2, 8, -1), &[-2, -1]),
    ],
    // No halves: 0, 1/3, 2/3, 1 and 0, 2/3, 4/3, 2.
    [
        (ends(0, 0, 3, 1), &[0, 0, 1, 1]),
        (ends(0, 0, 3, 2), &[0, 1, 1, 2]),
    ],
    // Towards the left: 0, -1/4, -2/4, -3/4, -1 and 0, 1/4, 2/4, 3/4, 1.
    [
        (ends(0, 0, -4, -1), &[0, 0, 0, -1, -1]),
        (ends(0, 0, -4, 1), &[0, 0, 1, 1, 1]),
    ],
    // Towards the left: -3, -7/2, -4, -9/2, -5 and -3, -13/4, -14/4, -15/4, -4.
    [
        (ends(-5, -3, -9, -5), &[-3, -3, -4, -4, -5]),
        (ends(-5, -3, -9, -4), &[-3, -3, -3, -4, -4]),
    ],
    // Downwards along y: 0, 1/4, 2/4, 3/4, 1 and 0, 3/4, 6/4, 9/4, 3.
    [
        (ends(0, 0, 1, 4), &[0, 0, 1, 1, 1]),
        (ends(0, 0, 3, 4), &[0, 1, 2, 2, 3]),
    ],
    // The largest S along y, to both sides: 0, -3/4, -6/4, -9/4, -3 and 0, 3/4, 6/4, 9/4, 3.
    [
        (ends(0, 0, -3, 4), &[0, -1, -1, -2, -3]),
        (ends(0, 0, 3, 4), &[0, 1, 2, 2, 3]),
    ],
    // Upwards along y: 1, 3/2, 2, 5/2, 3 and 1, 5/4, 6/4, 7/4, 2.
    [
        (ends(1, 1, 3, -3), &[1, 2, 2, 3, 3]),
        (ends(1, 1, 2, -3), &[1, 1, 2, 2, 2]),
    ],
    // Upwards along y: 5, 14/3, 13/3, 4, 11/3, 10/3, 3 and 5, 9/2, 4, 7/2, 3, 5/2, 2.
    [
        (ends(5, -3, 3, -9), &[5, 5, 4, 4, 4, 3, 3]),
        (ends(5, -3, 2, -9), &[5, 5, 4, 4, 3, 3, 2]),
    ],
    // At the lowest coordinates: -16383.5 in the middle, and the diagonal.
    [
        (
            ends(-16384, -16384, -16382, -16383),
            &[-16384, -16383, -16383],
        ),
        (
            ends(-16384, -16384, -16382, -16382),
            &[-16384, -16383, -16382],
        ),
    ],
    // At the highest coordinates: 16382.5 in the middle, and the diagonal.
    [
        (ends(16383, 16383, 16381, 16382), &[16383, 16383, 16382]),
        (ends(16383, 16383, 16381, 16381), &[16383, 16382, 16381]),
    ],
];

struct Pair {
    line: Line,
    nudged: Line,
    long: u64,
    apart: u64,
}

impl Pair {
    fn new(ends: Ends, nudged: Ends) -> Pair {
        let long = ends.x1.abs_diff(ends.x0).max(ends.y1.abs_diff(ends.y0));
        // The long coordinates are the same, so one of both is 0.
        let apart = ends.x1.abs_diff(nudged.x1) + ends.y1.abs_diff(nudged.y1);
        Pair {
            line: Line::new(ends),
            nudged: Line::new(nudged),
            long: u64::from(long),
            apart: u64::from(apart),
        }
    }

    fn tell(&self, what: &str) -> String {
        let (ends, nudged) = (self.line.ends, self.nudged.ends);
        format!("{what} of nudged ends: {ends:?} and {nudged:?}")
    }

    /// i × d / L, rounded up.
    fn bound(&self, step: u64) -> u64 {
        (step * self.apart).div_ceil(self.long)
    }

    fn list(&self, comparison: &mut Comparison, random: &mut Random) -> [Listing; 2] {
        let lines = [&self.line, &self.nudged];
        lines.map(|line| comparison.list(line, &numbers(random, needed(line))))
    }

    /// The first step at which the pixels are farther apart than the bound, with both short coordinates and the bound.
    fn too_far(&self, one: &Steps, other: &Steps) -> Option<(u64, i32, i32, u64)> {
        let shorts = one.shorts.iter().zip(&other.shorts);
        (0..)
            .zip(shorts)
            .map(|(step, (one, other))| (step, *one, *other, self.bound(step)))
            .find(|(_, one, other, bound)| u64::from(one.abs_diff(*other)) > *bound)
    }

    /// All steps of both lines, in one case; hands them back. None where a list isn't its line's, which is a case that differs.
    fn steps(&self, comparison: &mut Comparison, lists: &[Listing; 2]) -> Option<[Steps; 2]> {
        let one = Steps::read(self.line.ends, &lists[0]);
        let other = Steps::read(self.nudged.ends, &lists[1]);
        let (Some(one), Some(other)) = (one, other) else {
            let tell = || format!("{}\n  {lists:?}\n", self.tell("runs"));
            comparison.report.case(false, tell);
            return None;
        };
        let found = (one.along, self.too_far(&one, &other));
        comparison.equal(|| self.tell("steps"), &found, &(other.along, None));
        Some([one, other])
    }

    /// Whether the corollary lets the pixel's bit differ. Padding is no pixel.
    fn may_differ(&self, steps: &Steps, window: Window, pixel: Pixel) -> bool {
        let in_window = pixel.column.abs_diff(window.left) < window.width;
        let near = |(step, away)| away <= self.bound(step);
        in_window && steps.beside(pixel).is_some_and(near)
    }

    /// Both lines in every way from the same start, a case for each way: whether there is a bit that differs and may not.
    fn draw(
        &self,
        comparison: &mut Comparison,
        lists: &[Listing; 2],
        steps: &Steps,
        given: &Given,
    ) {
        let line = comparison.every_way(&self.line, lists[0].stored(), given);
        let nudged = comparison.every_way(&self.nudged, lists[1].stored(), given);
        for (one, other) in line.iter().zip(&nudged) {
            let mut bits = differing(given.window, &one.raster, &other.raster);
            let stray = bits.find(|pixel| !self.may_differ(steps, given.window, *pixel));
            let what = || format!("{} {given:?}", self.tell(one.way));
            comparison.equal(what, &stray, &None);
        }
    }

    /// A window at either line with a band of it and a raster to start from.
    fn given(&self, random: &mut Random) -> Given {
        let near = random.pick(&[&self.line, &self.nudged]);
        let window = window_near(random, near);
        let first = random.below(window.height);
        let rows = 1 + random.below(window.height - first);
        Given {
            window,
            band: Band { first, rows },
            start: raster(random, window),
        }
    }

    /// The steps, then some windows; hands back the short coordinates of both lines.
    fn compare(
        &self,
        comparison: &mut Comparison,
        random: &mut Random,
        windows: u32,
    ) -> Option<[Vec<i32>; 2]> {
        let lists = self.list(comparison, random);
        let steps = self.steps(comparison, &lists)?;
        for _ in 0..windows {
            self.draw(comparison, &lists, &steps[0], &self.given(random));
        }
        Some(steps.map(|steps| steps.shorts))
    }
}

/// A short coordinate for the second end: a few from the one it has, any, as far on the other side of the first end's, or
/// with S = L / 2 or the largest S. None where it is out of range or gives another axis or L.
fn nudge(random: &mut Random, first: i32, second: i32, long: i32, most: i32) -> Option<i32> {
    let side = random.pick(&[-1, 1]);
    let short = match random.below(8) {
        0..=2 => second + side * random.between(1, 3),
        3 | 4 => random.between(in_range(first - most), in_range(first + most)),
        5 => 2 * first - second,
        6 => first + side * (long / 2),
        _ => first + side * most,
    };
    let lawful = in_range(short) == short && (short - first).abs() <= most;
    lawful.then_some(short)
}

/// Ends up to `reach` apart and the nudged ones, either of them the first line. None where L is 0 or the nudge fails.
fn pair(random: &mut Random, reach: i32) -> Option<Pair> {
    let made = make::ends(random, reach);
    let Ends { x0, y0, x1, y1 } = made;
    let (across, down) = ((x1 - x0).abs(), (y1 - y0).abs());
    if across.max(down) == 0 {
        return None;
    }
    // Along y S is at most L - 1, since the axis is x where both differences are equal.
    let nudged = if across >= down {
        ends(x0, y0, x1, nudge(random, y0, y1, across, across)?)
    } else {
        ends(x0, y0, nudge(random, x0, x1, down, down - 1)?, y1)
    };
    Some(if random.one_in(2) {
        Pair::new(made, nudged)
    } else {
        Pair::new(nudged, made)
    })
}

fn by_hand(comparison: &mut Comparison, random: &mut Random, known: [(Ends, &[i32]); 2]) {
    let pair = Pair::new(known[0].0, known[1].0);
    let shorts = pair.compare(comparison, random, KNOWN_WINDOWS);
    let expected = known.map(|(_, shorts)| shorts.to_vec());
    comparison.equal(|| pair.tell("known steps"), &shorts, &Some(expected));
}

/// The largest L and d, on both sides of the first end's row. At step i the exact rows are -i / 2 - i / 65534 and
/// i / 2 - i / 65534, so the nearest are -i / 2 and i / 2, both rounded down. The bound is i.
fn largest(comparison: &mut Comparison, random: &mut Random) {
    let up: Vec<i32> = (0..=32767).map(|i| -((i + 1) / 2)).collect();
    let down: Vec<i32> = (0..=32767).map(|i| i / 2).collect();
    let known = [
        (ends(-16384, 0, 16383, -16384), &up[..]),
        (ends(-16384, 0, 16383, 16383), &down[..]),
    ];
    by_hand(comparison, random, known);
}

/// The pairs found by hand, then the random ones.
pub fn run(comparison: &mut Comparison, random: &mut Random) {
    for known in KNOWN {
        by_hand(comparison, random, known);
    }
    largest(comparison, random);
    for (reach, pairs, windows) in KINDS {
        for _ in 0..pairs {
            if let Some(pair) = pair(random, reach) {
                pair.compare(comparison, random, windows);
            }
        }
    }
}
