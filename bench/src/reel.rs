//! The longest reel's file, found and written, and a frame drawn straight from a file.
use crate::byhand;
use crate::c::{self, Ends};
use crate::clock::{Buffers, Clock, Contestant, REPEATS};
use crate::lines::{FRAME, LINES};
use crate::table::{Asked, Row};

/// The most records of a file, all in one frame.
const RECORDS: usize = 8190;

/// A reel of one frame: its list, its table and its file.
pub struct Marked {
    list: Vec<i32>,
    table: [u32; 1],
    file: Vec<u8>,
}

impl Marked {
    fn of(lines: impl Iterator<Item = Ends>) -> Marked {
        let list: Vec<i32> = lines.flat_map(|e| [e.x0, e.y0, e.x1, e.y1]).collect();
        let table = [list.len() as u32 / 4];
        let mut file = vec![0; 2 * list.len() + 4 + 12];
        byhand::reel::write(&list, &table, &mut file);
        Marked { list, table, file }
    }

    /// The longest file, of these lines over and over.
    pub fn longest(lines: &[Ends]) -> Marked {
        Marked::of(lines.iter().copied().cycle().take(RECORDS))
    }

    /// A frame of these lines.
    pub fn frame(lines: &[Ends]) -> Marked {
        Marked::of(lines.iter().copied())
    }

    fn written(&self, write: fn(&[i32], &[u32], &mut [u8]), buffers: &mut Buffers) -> u64 {
        let out = &mut buffers.raster[..self.file.len()];
        write(&self.list, &self.table, out);
        u64::from(out[0])
    }

    /// Library and hand-written functions find the same and write the same, and the frame's drawing is that of its lines.
    pub fn check(&self, lines: &[Ends], buffers: &mut Buffers) {
        for frame in 0..2 {
            assert_eq!(
                c::reel_find(&self.file, frame),
                byhand::reel::find(&self.file, frame),
                "the readers differ"
            );
        }
        let mut out = vec![1; self.file.len()];
        c::reel_write(&self.list, &self.table, &mut out);
        assert!(out == self.file, "the writers differ");
        buffers.raster.fill(0);
        let frame = c::reel_draw(&self.file, FRAME, &mut buffers.raster);
        let raster = buffers.raster.clone();
        buffers.raster.fill(0);
        let pixels: u64 = lines
            .iter()
            .map(|&ends| c::draw_single(ends, FRAME, &mut buffers.raster).count)
            .sum();
        assert!(
            frame.count == pixels && raster == buffers.raster,
            "a frame's drawing differs"
        );
    }
}

pub struct Reel {
    find: [Contestant; 2],
    write: [Contestant; 2],
    draw: [Contestant; 2],
    bytes: usize,
}

impl Reel {
    pub fn enter<'a>(clock: &mut Clock<'a>, longest: &'a Marked, frame: &'a Marked, lines: &'a [Ends]) -> Reel {
        let found = |part: Option<(u32, u32)>| part.map_or(0, |part| u64::from(part.1));
        Reel {
            find: [
                clock.add_repeated(move |_| found(c::reel_find(&longest.file, 0))),
                clock.add_repeated(move |_| found(byhand::reel::find(&longest.file, 0))),
            ],
            write: [
                clock.add_repeated(|buffers| longest.written(c::reel_write, buffers)),
                clock.add_repeated(|buffers| longest.written(byhand::reel::write, buffers)),
            ],
            draw: [
                clock.add(|buffers| c::reel_draw(&frame.file, FRAME, &mut buffers.raster).count),
                clock.add(|buffers| {
                    lines
                        .iter()
                        .map(|&e| c::draw_single(e, FRAME, &mut buffers.raster).count)
                        .sum()
                }),
            ],
            bytes: longest.file.len(),
        }
    }

    pub fn rows(&self, clock: &Clock) -> Vec<Row> {
        let row = |what: String, [ours, theirs]: [Contestant; 2], beside: &str, repeats: usize| {
            let us = |contestant| clock.ns(contestant) / 1000.0 / repeats as f64;
            Row {
                what,
                ours: format!("{:.1} µs", us(ours)),
                theirs: format!("{:.1}, {beside}", us(theirs)),
                ratio: us(ours) / us(theirs),
                asked: Asked::Shown,
            }
        };
        let bytes = self.bytes;
        vec![
            row(
                format!("find a frame, file of {bytes} bytes"),
                self.find,
                "by hand",
                REPEATS,
            ),
            row(
                format!("write a file of {bytes} bytes"),
                self.write,
                "by hand, untested",
                REPEATS,
            ),
            row(
                format!("draw a frame of {LINES} lines from its file"),
                self.draw,
                "single step, line by line",
                1,
            ),
        ]
    }
}
