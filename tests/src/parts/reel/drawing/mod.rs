//! Drawing a frame's lines straight from the file.
mod bands;
mod frames;
mod hostile;
mod largest;

use crate::comparison::reel::Asked;
use crate::comparison::Comparison;
use crate::make::{any_pixel, halved, in_range};
use crate::parts::reel::fields::{table, Fields};
use crate::random::Random;
use paper::frame::{ends, Ends, Pixel};
use paper::line::Line;

/// A lawful file with a frame, which it may not have.
struct Chosen {
    file: Vec<u8>,
    frame: u32,
    /// The frame's lines.
    lines: Vec<Line>,
    /// One of them, or a line near the file's others where the frame has none.
    near: Line,
}

impl Chosen {
    fn new(random: &mut Random) -> Chosen {
        let (at, reach) = (any_pixel(random), reach(random));
        let fields = fields_near(random, at, reach);
        let beyond = u32::from(random.one_in(8));
        let frame = random.below(fields.frames + beyond);
        let lines = lines_of(&fields, frame);
        let near = match lines.len() as u32 {
            0 => Line::new(ends(at.column, at.row, at.column, at.row)),
            count => lines[random.below(count) as usize].clone(),
        };
        Chosen {
            file: fields.bytes(),
            frame,
            lines,
            near,
        }
    }

    fn asked(&self) -> Asked<'_> {
        Asked {
            file: &self.file,
            frame: self.frame,
        }
    }
}

/// How far the ends of a file's lines are from its pixel; few files have long lines.
fn reach(random: &mut Random) -> i32 {
    match random.below(512) {
        0 => 32767,
        1..=8 => 700,
        _ => random.pick(&[3, 20, 40]),
    }
}

/// A lawful file of lines with both ends at most `reach` from the pixel in each direction, so that they cross and cover each
/// other; some are there more than once.
fn fields_near(random: &mut Random, at: Pixel, reach: i32) -> Fields {
    let (records, frames) = (random.below(12), 1 + random.below(4));
    let mut lines: Vec<[i16; 4]> = Vec::new();
    for _ in 0..records {
        let line = match lines.len() as u32 {
            before if before > 0 && random.one_in(6) => lines[random.below(before) as usize],
            _ => record_near(random, at, reach),
        };
        lines.push(line);
    }
    Fields::new(lines, table(random, records, frames))
}

/// A line with both ends at most `reach` from the pixel in each direction; one in four has halves.
fn record_near(random: &mut Random, at: Pixel, reach: i32) -> [i16; 4] {
    let [x0, y0, x1, y1] = if random.one_in(4) {
        halved_near(random, reach)
    } else {
        [(); 4].map(|()| random.between(-reach, reach))
    };
    let Pixel { column, row } = at;
    [column + x0, row + y0, column + x1, row + y1].map(|number| in_range(number) as i16)
}

/// A line with halves, both ends at most `reach` from (0, 0) in each direction.
fn halved_near(random: &mut Random, reach: i32) -> [i32; 4] {
    let (long, short) = halved(random, 2 * reach);
    let (across, down) = if random.one_in(2) {
        (long, short)
    } else {
        (short, long)
    };
    let ([x0, x1], [y0, y1]) = (apart(random, reach, across), apart(random, reach, down));
    [x0, y0, x1, y1]
}

/// Two numbers so far apart and at most `reach` from 0, the lower or the higher one first.
fn apart(random: &mut Random, reach: i32, by: i32) -> [i32; 2] {
    let lower = random.between(-reach, reach - by);
    let mut numbers = [lower, lower + by];
    if random.one_in(2) {
        numbers.reverse();
    }
    numbers
}

fn ends_of(record: &[i16; 4]) -> Ends {
    let [x0, y0, x1, y1] = record.map(i32::from);
    ends(x0, y0, x1, y1)
}

/// The lines of a lawful file's frame; no lines for a frame that it doesn't have.
fn lines_of(fields: &Fields, frame: u32) -> Vec<Line> {
    let frame = frame as usize;
    let Some(end) = fields.table.get(frame) else {
        return Vec::new();
    };
    let first = if frame == 0 {
        0
    } else {
        fields.table[frame - 1]
    };
    let records = &fields.records[first as usize..*end as usize];
    let line = |record| Line::new(ends_of(record));
    records.iter().map(line).collect()
}

pub fn run(comparison: &mut Comparison, random: &mut Random) {
    frames::run(comparison, random);
    bands::run(comparison, random);
    hostile::run(comparison, random);
    largest::run(comparison, random);
}
