//! The case of a pen's report. That the pixel is within half a pixel of the point is tested by itself as well.
use super::Comparison;
use crate::answers::report_named;
use crate::c;
use crate::within::within_half;
use paper::pen::{touched, Point};

impl Comparison {
    pub fn pen(&mut self, kind: u32, point: Point) {
        let column = f32::from_bits(point.column);
        let row = f32::from_bits(point.row);
        let answer = c::pen(kind, column, row);
        let expected = c::Pixel::from(touched(report_named(kind, point)));
        let near = within_half(answer.column, column) && within_half(answer.row, row);
        let held = near || answer.touching == 0;
        self.report.case(answer == expected && held, || {
            let column = format!("column {column:?} ({:#010x})", point.column);
            let row = format!("row {row:?} ({:#010x})", point.row);
            let call = format!("tc_pen kind {kind} {column} {row}");
            format!("{call}\n  answer {answer:?}\n  expected {expected:?}\n  near {near}\n")
        });
    }
}
