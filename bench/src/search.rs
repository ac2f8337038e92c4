//! The search for the first marked pixel on an empty frame, beside memchr and a byte search by hand.
use crate::byhand;
use crate::c;
use crate::clock::{Clock, Contestant, REPEATS};
use crate::lines::FRAME;
use crate::table::{Asked, Row};

pub struct Search {
    library: Contestant,
    memchr: Contestant,
    by_hand: Contestant,
}

impl Search {
    pub fn enter(clock: &mut Clock) -> Search {
        Search {
            library: clock.add_repeated(|buffers| u64::from(c::first_marked(FRAME, &buffers.raster).is_some())),
            memchr: clock.add_repeated(|buffers| u64::from(c::find_byte(&buffers.raster, 255).is_some())),
            by_hand: clock
                .add_repeated(|buffers| u64::from(byhand::bytes::first_marked_byte(&buffers.raster).is_some())),
        }
    }

    pub fn rows(&self, clock: &Clock) -> Vec<Row> {
        let bytes = (REPEATS * FRAME.raster_bytes()) as f64;
        let ours = bytes / clock.ns(self.library);
        let row = |name: &str, other: Contestant, asked: Asked| {
            let theirs = bytes / clock.ns(other);
            Row {
                what: "search, empty frame".to_string(),
                ours: format!("{ours:.1} bytes a ns"),
                theirs: format!("{theirs:.1}, {name}"),
                ratio: ours / theirs,
                asked,
            }
        };
        vec![
            row("memchr", self.memchr, Asked::AtLeast(1.0 / 3.0)),
            row("byte by byte by hand", self.by_hand, Asked::Shown),
        ]
    }
}
