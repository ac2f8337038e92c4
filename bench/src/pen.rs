//! Points of the pen rounded to pixels, beside the same by hand.
use crate::byhand;
use crate::c;
use crate::clock::{Clock, Contestant, REPEATS};
use crate::lines;
use crate::table::{Asked, Row};

type Point = (f32, f32);

/// Points of the frame with a fraction.
pub fn points() -> Vec<Point> {
    lines::in_frame(lines::Kind::AnyDirection)
        .iter()
        .flat_map(|e| [(e.x0, e.y0), (e.x1, e.y1)])
        .map(|(column, row)| (column as f32 + row as f32 / 4096.0, row as f32 - column as f32 / 8192.0))
        .collect()
}

/// Both answer the same.
pub fn check(points: &[Point]) {
    for &(column, row) in points {
        assert_eq!(c::pen(column, row), byhand::pen::pixel(column, row), "the pens differ");
    }
}

pub struct Pen {
    contestants: [Contestant; 2],
    points: usize,
}

impl Pen {
    pub fn enter<'a>(clock: &mut Clock<'a>, points: &'a [Point]) -> Pen {
        let sum = |pixel: fn(f32, f32) -> Option<(i32, i32)>| {
            let sum_of = move |&(column, row): &Point| pixel(column, row).map_or(0, |(x, y)| (x + y) as u64);
            move || points.iter().map(sum_of).sum()
        };
        let (library, by_hand) = (sum(c::pen), sum(byhand::pen::pixel));
        Pen {
            contestants: [
                clock.add_repeated(move |_| library()),
                clock.add_repeated(move |_| by_hand()),
            ],
            points: points.len(),
        }
    }

    pub fn rows(&self, clock: &Clock) -> Vec<Row> {
        let [ours, theirs] = self
            .contestants
            .map(|contestant| clock.ns(contestant) / (REPEATS * self.points) as f64);
        vec![Row {
            what: "pen, a point to a pixel".to_string(),
            ours: format!("{ours:.1} ns"),
            theirs: format!("{theirs:.1}, by hand in 64-bit floats"),
            ratio: ours / theirs,
            asked: Asked::Shown,
        }]
    }
}
