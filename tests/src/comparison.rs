//! One case of each function: the library and the second implementation get the same arguments, and the whole answer, every
//! element of every lent buffer and the guards are compared. The number of fresh pixels is compared with the bits that the call
//! changed as well.
mod pen;
pub mod reel;
pub mod ways;

use crate::added::added;
use crate::answers::{axis_named, axis_number, number};
use crate::buffer::Lent;
use crate::c;
use crate::report::Report;
use paper::draw::{draw, draw_band, Band};
use paper::frame::Window;
use paper::line::Line;
use paper::raster::{first_marked, row_view};
use paper::runs::{list_runs, paint_runs};
use paper::text::printed;
use std::fmt::Debug;

/// Outputs shorter than this are left as they are, and the answer is 0.
pub const LEAST_ROOM: usize = 110_000;

const BYTES: [u8; 4] = [0x00, 0xFF, 0x5A, 0xA5];
const NUMBERS: [i32; 4] = [0, -1, i32::MIN, i32::MAX];
const TABLE_NUMBERS: [u32; 4] = [0, 1, 0x8000_0000, u32::MAX];

#[derive(Clone, Copy, Debug)]
pub enum Drawer {
    Single,
    Double,
    Band(Band),
}

/// The arguments of the run painter, but for window and raster. The axis is 0 for x, any other for y.
#[derive(Clone, Copy, Debug)]
pub struct Stored<'a> {
    pub axis: u32,
    pub count: u32,
    pub list: &'a [i32],
}

impl Stored<'_> {
    /// The list that the lister left of a line, with the line's axis and number of runs.
    pub fn of<'a>(line: &Line, list: &'a [i32]) -> Stored<'a> {
        Stored {
            axis: axis_number(line.axis),
            count: line.short as u32 + 1,
            list,
        }
    }
}

/// What the lister answered, and the list as it left it.
#[derive(Debug, PartialEq)]
pub struct Listing {
    pub answer: c::Listed,
    pub list: Vec<i32>,
}

impl Listing {
    /// The list with the axis and the number of runs that the lister answered.
    pub fn stored(&self) -> Stored<'_> {
        Stored {
            axis: self.answer.axis,
            count: self.answer.runs,
            list: &self.list,
        }
    }
}

/// What a drawer or the painter answers, should answer, and added.
fn drawn_numbers<T: Debug>(answer: T, expected: T, added: Option<u64>) -> String {
    format!("  answer {answer:?}\n  expected {expected:?}\n  added {added:?}\n")
}

pub struct Comparison {
    pub report: Report,
    raster: Lent<u8>,
    list: Lent<i32>,
    table: Lent<u32>,
    input: Lent<u8>,
    output: Lent<u8>,
    expected: Vec<u8>,
}

impl Comparison {
    pub fn new() -> Comparison {
        Comparison {
            report: Report::default(),
            raster: Lent::new(BYTES),
            list: Lent::new(NUMBERS),
            table: Lent::new(TABLE_NUMBERS),
            input: Lent::new(BYTES),
            output: Lent::new(BYTES),
            expected: Vec::new(),
        }
    }

    /// The buffer of the start, for the second implementation to work in.
    fn expect_from(&mut self, start: &[u8]) {
        self.expected.clear();
        self.expected.extend_from_slice(start);
    }

    pub fn window(&mut self, window: Window) {
        let expected = number(window.check());
        let answer = c::window_check(window);
        self.report.case(answer == expected, || {
            format!("tc_window_check {window:?}\n  answer {answer}, expected {expected}\n")
        });
    }

    /// Begins a list of calls on one raster.
    pub fn lend(&mut self, start: &[u8]) {
        self.raster.lend(start);
    }

    /// The raster as the case before left it.
    pub fn raster(&self) -> &[u8] {
        self.raster.contents()
    }

    /// Two ways to the same result; `what` says which.
    pub fn equal<T>(&mut self, what: impl FnOnce() -> String, one: &T, other: &T)
    where
        T: Debug + PartialEq + ?Sized,
    {
        self.report.case(one == other, || {
            format!("{}\n  {one:?}\n  {other:?}\n", what())
        });
    }

    /// Two ways to the same raster or number of a line.
    pub fn same<T>(&mut self, what: &str, line: &Line, window: Window, one: &T, other: &T)
    where
        T: Debug + PartialEq,
    {
        let what = || format!("{what}: {:?} {window:?}", line.ends);
        self.equal(what, one, other);
    }

    /// A drawer on a raster of its own; hands back the library's answer.
    pub fn draw(&mut self, drawer: Drawer, line: &Line, window: Window, start: &[u8]) -> c::Drawn {
        self.raster.lend(start);
        self.draw_again(drawer, line, window)
    }

    /// A drawer on the raster as the case before left it; hands back the library's answer.
    pub fn draw_again(&mut self, drawer: Drawer, line: &Line, window: Window) -> c::Drawn {
        let start = self.raster.contents().to_vec();
        self.expect_from(&start);
        let raster = self.raster.again();
        let answer = match drawer {
            Drawer::Single => c::draw_single(line.ends, window, raster),
            Drawer::Double => c::draw_double(line.ends, window, raster),
            Drawer::Band(band) => c::draw_band(line.ends, window, band, raster),
        };
        let expected = c::Drawn::from(match drawer {
            Drawer::Single | Drawer::Double => draw(line, window, &mut self.expected),
            Drawer::Band(band) => draw_band(line, window, band, &mut self.expected),
        });
        let added = added(window, &start, self.raster.contents());
        let held = self.raster.holds(&self.expected) && added == Some(answer.fresh);
        self.report.case(answer == expected && held, || {
            let call = format!("draw {drawer:?} {:?} {window:?}", line.ends);
            let numbers = drawn_numbers(answer, expected, added);
            let raster = self.raster.tell("raster", &start, &self.expected);
            format!("{call}\n{numbers}{raster}")
        });
        answer
    }

    /// The lister; hands back what the library answered and left.
    pub fn list(&mut self, line: &Line, start: &[i32]) -> Listing {
        let answer = c::list_runs(line.ends, self.list.lend(start));
        let mut list = start.to_vec();
        let expected = c::Listed::from(list_runs(line, &mut list));
        let same = answer == expected && self.list.holds(&list);
        self.report.case(same, || {
            let call = format!("tc_list_runs {:?}", line.ends);
            let list = self.list.tell("list", start, &list);
            format!("{call}\n  answer {answer:?}\n  expected {expected:?}\n{list}")
        });
        Listing {
            answer,
            list: self.list.contents().to_vec(),
        }
    }

    /// The painter; hands back the library's answer.
    pub fn paint(&mut self, stored: Stored, window: Window, start: &[u8]) -> c::Drawn {
        let Stored { axis, count, list } = stored;
        let mut after = std::mem::take(&mut self.expected);
        after.clear();
        after.extend_from_slice(start);
        let expected = paint_runs(axis_named(axis), count, list, window, &mut after);
        let answer = self.paint_known(stored, window, start, expected.into(), &after);
        self.expected = after;
        answer
    }

    /// The painter, with an answer and a raster that are known; hands back the library's answer.
    pub fn paint_known(
        &mut self,
        stored: Stored,
        window: Window,
        start: &[u8],
        expected: c::Drawn,
        after: &[u8],
    ) -> c::Drawn {
        let Stored { axis, count, list } = stored;
        let lent = self.list.lend(list);
        let answer = c::paint_runs(axis, count, lent, window, self.raster.lend(start));
        let added = added(window, start, self.raster.contents());
        let held = self.raster.holds(after) && self.list.holds(list);
        let same = answer == expected && added == Some(answer.fresh);
        self.report.case(same && held, || {
            let call = format!("tc_paint_runs axis {axis} count {count} {window:?}");
            let numbers = drawn_numbers(answer, expected, added);
            let raster = self.raster.tell("raster", start, after);
            let list = self.list.tell("list", list, list);
            format!("{call}\n{numbers}{list}{raster}")
        });
        answer
    }

    pub fn row(&mut self, window: Window, start: &[u8], row: u32) {
        let answer = c::row_view(window, self.raster.lend(start), row);
        let expected = c::Part::from(row_view(window, start.len(), row));
        let same = answer == expected && self.raster.holds(start);
        self.report.case(same, || {
            let call = format!("tc_row_view {window:?} row {row}");
            let raster = self.raster.tell("raster", start, start);
            format!("{call}\n  answer {answer:?}\n  expected {expected:?}\n{raster}")
        });
    }

    pub fn search(&mut self, window: Window, start: &[u8]) {
        let answer = c::first_marked(window, self.raster.lend(start));
        let expected = c::Found::from(first_marked(window, start));
        let same = answer == expected && self.raster.holds(start);
        self.report.case(same, || {
            let call = format!("tc_first_marked {window:?}");
            let raster = self.raster.tell("raster", start, start);
            format!("{call}\n  answer {answer:?}\n  expected {expected:?}\n{raster}")
        });
    }

    pub fn text(&mut self, input: &[u8], start: &[u8]) {
        let lent = self.input.lend(input);
        let answer = c::lineruns(lent, self.output.lend(start));
        self.expect_from(start);
        let mut expected = 0;
        if start.len() >= LEAST_ROOM {
            let text = printed(input);
            expected = text.len();
            self.expected[..expected].copy_from_slice(&text);
        }
        let held = self.output.holds(&self.expected) && self.input.holds(input);
        self.report.case(answer == expected && held, || {
            let call = format!("tc_lineruns {:?}", String::from_utf8_lossy(input));
            let input = self.input.tell("input", input, input);
            let output = self.output.tell("output", start, &self.expected);
            format!("{call}\n  answer {answer}, expected {expected}\n{input}{output}")
        });
    }
}
