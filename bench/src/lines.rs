//! The lines that are drawn: seeded, so that every run of the program draws the same ones.
use crate::c::{Ends, Window};

/// A reel's frame.
pub const FRAME: Window = Window {
    left: 0,
    top: 0,
    width: 4096,
    height: 3112,
};

/// The number of lines of a kind.
pub const LINES: usize = 600;

/// How far a near-vertical or near-horizontal line goes along its short axis, at most.
pub const LEAN: i32 = 64;

/// How far a line outside goes from the frame's middle, at least, to both sides.
pub const FAR: i32 = 8192;

#[derive(Clone, Copy)]
pub enum Kind {
    AnyDirection,
    NearVertical,
    NearHorizontal,
}

pub const KINDS: [Kind; 3] = [Kind::AnyDirection, Kind::NearVertical, Kind::NearHorizontal];

impl Kind {
    pub fn name(self) -> &'static str {
        match self {
            Kind::AnyDirection => "any direction",
            Kind::NearVertical => "near-vertical",
            Kind::NearHorizontal => "near-horizontal",
        }
    }
}

/// The splitmix64 generator.
struct Random(u64);

impl Random {
    fn next(&mut self) -> u64 {
        self.0 = self.0.wrapping_add(0x9e37_79b9_7f4a_7c15);
        let z = (self.0 ^ (self.0 >> 30)).wrapping_mul(0xbf58_476d_1ce4_e5b9);
        let z = (z ^ (z >> 27)).wrapping_mul(0x94d0_49bb_1331_11eb);
        z ^ (z >> 31)
    }

    /// A number from `low` up to, and with, `high`.
    fn between(&mut self, low: i32, high: i32) -> i32 {
        let size = i64::from(high) - i64::from(low) + 1;
        (i64::from(low) + (self.next() % size as u64) as i64) as i32
    }
}

fn many(seed: u64, make: impl Fn(&mut Random) -> Ends) -> Vec<Ends> {
    let mut random = Random(seed);
    (0..LINES).map(|_| make(&mut random)).collect()
}

fn turned(ends: Ends) -> Ends {
    Ends {
        x0: ends.y0,
        y0: ends.x0,
        x1: ends.y1,
        y1: ends.x1,
    }
}

/// A line along x in a frame of `width` columns and `height` rows, a quarter of the width or longer, to the right or left.
fn along_x(random: &mut Random, width: i32, height: i32) -> Ends {
    let long = random.between(width / 4, width - 1);
    let x = random.between(0, width - 1 - long);
    let y0 = random.between(LEAN, height - 1 - LEAN);
    let y1 = y0 + random.between(-LEAN, LEAN);
    let (x0, x1) = if random.between(0, 1) == 0 {
        (x, x + long)
    } else {
        (x + long, x)
    };
    Ends { x0, y0, x1, y1 }
}

/// Lines with both ends in the frame.
pub fn in_frame(kind: Kind) -> Vec<Ends> {
    let (width, height) = (FRAME.width as i32, FRAME.height as i32);
    many(kind as u64 + 1, |random| match kind {
        Kind::AnyDirection => Ends {
            x0: random.between(0, width - 1),
            y0: random.between(0, height - 1),
            x1: random.between(0, width - 1),
            y1: random.between(0, height - 1),
        },
        Kind::NearVertical => turned(along_x(random, height, width)),
        Kind::NearHorizontal => along_x(random, width, height),
    })
}

/// Lines with both ends in a square of 64 pixels a side.
pub fn short() -> Vec<Ends> {
    many(4, |random| Ends {
        x0: random.between(0, 63),
        y0: random.between(0, 63),
        x1: random.between(0, 63),
        y1: random.between(0, 63),
    })
}

/// A line along x with ends on both sides of column 0, far away from it, that passes near row 0 there.
fn through_middle(random: &mut Random, lean: i32) -> Ends {
    let x = random.between(FAR, 2 * FAR - 1);
    let y = random.between(-lean, lean);
    let side = if random.between(0, 1) == 0 { 1 } else { -1 };
    let shift = random.between(-4, 4);
    Ends {
        x0: -side * x,
        y0: shift - y,
        x1: side * x,
        y1: shift + y,
    }
}

/// Lines with both ends far outside that pass near the pixel (0, 0).
pub fn from_outside(kind: Kind) -> Vec<Ends> {
    many(kind as u64 + 5, |random| match kind {
        Kind::AnyDirection => {
            let line = through_middle(random, FAR - 8);
            if random.between(0, 1) == 0 {
                line
            } else {
                turned(line)
            }
        }
        Kind::NearVertical => turned(through_middle(random, LEAN)),
        Kind::NearHorizontal => through_middle(random, LEAN),
    })
}

/// One run of `pixels` pixels in each row of the frame, at any column that begins a byte, as a run list along x.
pub fn spans(pixels: i32) -> Vec<i32> {
    let mut random = Random(8);
    let places = (FRAME.width as i32 - pixels) / 8;
    (0..FRAME.height as i32)
        .flat_map(|row| [row, 8 * random.between(0, places), pixels])
        .collect()
}
