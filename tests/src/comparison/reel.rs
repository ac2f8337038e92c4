//! The cases of a reel's file.
use super::{drawn_numbers, Comparison};
use crate::added::added;
use crate::answers::number;
use crate::c;
use paper::draw::Band;
use paper::frame::Window;
use paper::raster::{marks, Marks};
use paper::reel::draw::draw_frame;
use paper::reel::read::find;
use paper::reel::write::write;

/// A frame of a file.
#[derive(Clone, Copy)]
pub struct Asked<'a> {
    pub file: &'a [u8],
    pub frame: u32,
}

impl Comparison {
    /// The reader; hands back the library's answer.
    pub fn find(&mut self, file: &[u8], frame: u32) -> c::Frame {
        let answer = c::reel_find(self.input.lend(file), frame);
        let expected = c::Frame::from(find(file, frame));
        let same = answer == expected && self.input.holds(file);
        self.report.case(same, || {
            let file = self.input.tell("file", file, file);
            format!(
                "tc_reel_find frame {frame}\n  answer {answer:?}\n  expected {expected:?}\n{file}"
            )
        });
        answer
    }

    /// The writer; hands back the buffer as the library left it.
    pub fn write(&mut self, list: &[i32], table: &[u32], start: &[u8]) -> &[u8] {
        let (numbers, frames) = (self.list.lend(list), self.table.lend(table));
        let answer = c::reel_write(numbers, frames, self.output.lend(start));
        self.expect_from(start);
        let expected = number(write(list, table, &mut self.expected));
        let given = self.list.holds(list) && self.table.holds(table);
        let same = answer == expected && self.output.holds(&self.expected);
        self.report.case(same && given, || {
            let list = self.list.tell("list", list, list);
            let table = self.table.tell("table", table, table);
            let out = self.output.tell("buffer", start, &self.expected);
            format!("tc_reel_write\n  answer {answer}, expected {expected}\n{list}{table}{out}")
        });
        self.output.contents()
    }

    /// The drawing of a frame on a raster of its own; hands back the library's counts.
    pub fn draw_frame(&mut self, asked: Asked, window: Window, band: Band, start: &[u8]) -> Marks {
        self.raster.lend(start);
        self.draw_frame_again(asked, window, band)
    }

    /// The drawing of a frame on the raster as the case before left it; hands back the library's counts.
    pub fn draw_frame_again(&mut self, asked: Asked, window: Window, band: Band) -> Marks {
        let Asked { file, frame } = asked;
        let start = self.raster.contents().to_vec();
        self.expect_from(&start);
        let lent = self.input.lend(file);
        let answer = c::reel_draw(lent, frame, window, band, self.raster.again());
        let expected = draw_frame(file, frame, window, band, &mut self.expected);
        let expected = c::FrameDrawn::from(expected);
        let added = added(window, &start, self.raster.contents());
        let held = self.raster.holds(&self.expected) && self.input.holds(file);
        let same = answer == expected && added == Some(answer.fresh);
        self.report.case(same && held, || {
            let call = format!("tc_reel_draw frame {frame} {window:?} {band:?}");
            let numbers = drawn_numbers(answer, expected, added);
            let file = self.input.tell("file", file, file);
            let raster = self.raster.tell("raster", &start, &self.expected);
            format!("{call}\n{numbers}{file}{raster}")
        });
        marks(answer.count, answer.fresh)
    }
}
