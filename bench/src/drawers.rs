//! The drawers, by the library and by hand, on the frame's lines of each kind.
use crate::byhand;
use crate::byhand::line::Line;
use crate::c::{self, Counts, Ends};
use crate::clock::{Buffers, Clock, Contestant};
use crate::lines::{Kind, FRAME, KINDS, LINES};
use crate::table::{markdown, Asked, Row};

#[derive(Clone, Copy)]
pub enum Drawer {
    ByBits,
    ByBitsCounted,
    ByPixels,
    Tested,
    Single,
    Double,
    ListPaint,
    Bands256,
    Bands64,
    Bands16,
    Bands1,
}

use Drawer::{Bands1, Bands16, Bands256, Bands64, ByBits, ByBitsCounted, ByPixels, Double, ListPaint, Single, Tested};

pub const DRAWERS: [Drawer; 11] = [
    ByBits,
    ByBitsCounted,
    ByPixels,
    Tested,
    Single,
    Double,
    ListPaint,
    Bands256,
    Bands64,
    Bands16,
    Bands1,
];

/// The hand-written drawer that the others are held against: the fastest one without window tests.
const BASE: Drawer = ByBits;

/// The same one, which counts the fresh pixels as the library does.
const COUNTED_BASE: Drawer = ByBitsCounted;

impl Drawer {
    pub fn name(self) -> &'static str {
        match self {
            ByBits => "by hand, no window tests, bit index",
            ByBitsCounted => "by hand, no window tests, bit index, fresh pixels counted",
            ByPixels => "by hand, no window tests, column and row",
            Tested => "by hand, a window test at each pixel",
            Single => "single step",
            Double => "double step",
            ListPaint => "list + paint",
            Bands256 => "bands of 256 rows",
            Bands64 => "bands of 64 rows",
            Bands16 => "bands of 16 rows",
            Bands1 => "bands of 1 row",
        }
    }

    /// Draws a line in the frame, and answers the number of its pixels, and of the fresh ones where the drawer counts them.
    pub fn draw(self, ends: Ends, buffers: &mut Buffers) -> (u64, Option<u64>) {
        let raster = &mut buffers.raster;
        let counts = match self {
            ByBits => return (byhand::draw::draw_by_bits(ends, FRAME, raster), None),
            ByPixels => return (byhand::draw::draw_by_pixels(ends, FRAME, raster), None),
            Tested => return (byhand::draw::draw_tested(ends, FRAME, raster), None),
            ByBitsCounted => byhand::draw::draw_by_bits_counted(ends, FRAME, raster),
            Single => c::draw_single(ends, FRAME, raster),
            Double => c::draw_double(ends, FRAME, raster),
            ListPaint => list_and_paint(ends, buffers),
            Bands256 => in_bands(256, ends, raster),
            Bands64 => in_bands(64, ends, raster),
            Bands16 => in_bands(16, ends, raster),
            Bands1 => in_bands(1, ends, raster),
        };
        (counts.count, Some(counts.fresh))
    }

    /// Draws all lines, and answers a number made of all counts.
    fn draw_all(self, lines: &[Ends], buffers: &mut Buffers) -> u64 {
        let counts = |&ends: &Ends| {
            let (count, fresh) = self.draw(ends, buffers);
            count + fresh.unwrap_or(0)
        };
        lines.iter().map(counts).sum()
    }
}

fn list_and_paint(ends: Ends, buffers: &mut Buffers) -> Counts {
    let (axis, runs) = c::list_runs(ends, &mut buffers.list);
    c::paint_runs(axis, runs, &buffers.list, FRAME, &mut buffers.raster)
}

/// Calls the band drawer for every band of the frame, from the top.
fn in_bands(rows: u32, ends: Ends, raster: &mut [u8]) -> Counts {
    let mut sums = Counts { count: 0, fresh: 0 };
    let mut first = 0;
    while first < FRAME.height {
        let rows = rows.min(FRAME.height - first);
        let counts = c::draw_band(ends, FRAME, first, rows, raster);
        sums.count += counts.count;
        sums.fresh += counts.fresh;
        first += rows;
    }
    sums
}

/// The drawers' contestants, by kind and drawer, and the pixels of a kind's lines.
pub struct Drawers {
    contestants: [[Contestant; DRAWERS.len()]; KINDS.len()],
    pixels: [u64; KINDS.len()],
}

impl Drawers {
    pub fn enter<'a>(clock: &mut Clock<'a>, lines: &'a [Vec<Ends>; KINDS.len()]) -> Drawers {
        let contestants = KINDS.map(|kind| {
            let lines = &lines[kind as usize];
            DRAWERS.map(|drawer| clock.add(move |buffers| drawer.draw_all(lines, buffers)))
        });
        let pixels = KINDS.map(|kind| {
            let lines = &lines[kind as usize];
            lines.iter().map(|&ends| Line::of(ends).pixels()).sum()
        });
        Drawers { contestants, pixels }
    }

    fn ns_a_pixel(&self, clock: &Clock, kind: Kind, drawer: Drawer) -> f64 {
        let contestant = self.contestants[kind as usize][drawer as usize];
        clock.ns(contestant) / self.pixels[kind as usize] as f64
    }

    /// A table of drawers and kinds: ns a pixel, and in parentheses how many times the base's.
    fn table(&self, clock: &Clock, drawers: &[Drawer], base: Drawer) -> String {
        let heads = KINDS.map(|kind| kind.name().to_string());
        let cells = |drawer| {
            KINDS.map(|kind| {
                let ns = self.ns_a_pixel(clock, kind, drawer);
                let times = ns / self.ns_a_pixel(clock, kind, base);
                format!("{ns:.3} ({times:.2})")
            })
        };
        let lines: Vec<_> = drawers
            .iter()
            .map(|&drawer| (drawer.name().to_string(), cells(drawer)))
            .collect();
        markdown("ns a pixel", &heads, &lines)
    }

    /// Whole lines in the frame, beside the base.
    pub fn frame_table(&self, clock: &Clock) -> String {
        let drawers = [ByBits, ByBitsCounted, ByPixels, Tested, Single, Double, ListPaint];
        self.table(clock, &drawers, BASE)
    }

    /// Lines by bands, beside the single step in the whole frame.
    pub fn band_table(&self, clock: &Clock) -> String {
        let drawers = [Single, Bands256, Bands64, Bands16, Bands1];
        self.table(clock, &drawers, Single)
    }

    /// What a call of the band drawer costs beyond its pixels, for each kind, in bands of 16 rows: ns.
    pub fn band_call(&self, clock: &Clock) -> String {
        let calls = LINES as f64 * f64::from(FRAME.height.div_ceil(16));
        let ns = |kind: Kind| {
            let [bands, single] =
                [Bands16, Single].map(|drawer| clock.ns(self.contestants[kind as usize][drawer as usize]));
            format!("{:.1} ({})", (bands - single) / calls, kind.name())
        };
        KINDS.map(ns).join(", ")
    }

    /// How `drawer` does beside `other` on lines of a kind: a ratio of times, or of speeds where a least one is asked.
    fn row(&self, clock: &Clock, kind: Kind, drawer: Drawer, other: Drawer, asked: Asked) -> Row {
        let ours = self.ns_a_pixel(clock, kind, drawer);
        let theirs = self.ns_a_pixel(clock, kind, other);
        let ratio = match asked {
            Asked::AtLeast(_) => theirs / ours,
            _ => ours / theirs,
        };
        Row {
            what: format!("{}, {}", drawer.name(), kind.name()),
            ours: format!("{ours:.3} ns a pixel"),
            theirs: format!("{theirs:.3}, {}", other.name()),
            ratio,
            asked,
        }
    }

    pub fn rows(&self, clock: &Clock) -> Vec<Row> {
        let mut rows = Vec::new();
        for drawer in [Single, Double] {
            rows.extend(KINDS.map(|kind| self.row(clock, kind, drawer, BASE, Asked::AtMost(1.1))));
            rows.extend(KINDS.map(|kind| self.row(clock, kind, drawer, COUNTED_BASE, Asked::Shown)));
        }
        let flat = Kind::NearHorizontal;
        rows.push(self.row(clock, flat, ListPaint, Single, Asked::AtLeast(5.0)));
        rows
    }
}
