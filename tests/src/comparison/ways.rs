//! The cases of a line that is drawn in every way.
use super::{Comparison, Drawer, Stored};
use crate::c;
use paper::draw::Band;
use paper::frame::Window;
use paper::line::Line;

/// What every way of drawing is given beside the line: a window, a band for the band drawer, and the raster to start from.
#[derive(Debug)]
pub struct Given {
    pub window: Window,
    pub band: Band,
    pub start: Vec<u8>,
}

/// What the library answered to a way of drawing, and the raster as it left it.
#[derive(Debug, PartialEq)]
pub struct Drawing {
    pub way: &'static str,
    pub answer: c::Drawn,
    pub raster: Vec<u8>,
}

impl Comparison {
    fn drawing(&self, way: &'static str, answer: c::Drawn) -> Drawing {
        Drawing {
            way,
            answer,
            raster: self.raster().to_vec(),
        }
    }

    /// The line by each drawer, then painted from its list, all from the same start; hands back what the library answered and
    /// left, in this order.
    pub fn every_way(&mut self, line: &Line, stored: Stored, given: &Given) -> [Drawing; 4] {
        let (window, start) = (given.window, &given.start);
        let drawers = [
            ("single step", Drawer::Single),
            ("double step", Drawer::Double),
            ("band", Drawer::Band(given.band)),
        ];
        let [single, double, band] = drawers.map(|(way, drawer)| {
            let answer = self.draw(drawer, line, window, start);
            self.drawing(way, answer)
        });
        let answer = self.paint(stored, window, start);
        [single, double, band, self.drawing("list and paint", answer)]
    }
}
