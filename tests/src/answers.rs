//! How the C interface states the answers of documents 01 and 02.
use crate::c::{self, Drawn, Found, Frame, FrameDrawn, Listed, Part};
use paper::frame::Pixel;
use paper::line::Axis;
use paper::pen::{Point, Report};
use paper::raster::{marks, Marks};
use paper::reel::read::Place;
use paper::refusal::Refusal;
use paper::runs::Listing;
use std::ops::Range;

/// The axis that a number names: 0 is x, any other is y.
pub fn axis_named(number: u32) -> Axis {
    if number == 0 {
        Axis::X
    } else {
        Axis::Y
    }
}

/// The number that the lister names an axis by.
pub fn axis_number(axis: Axis) -> u32 {
    match axis {
        Axis::X => 0,
        Axis::Y => 1,
    }
}

/// The report that a number names: 0 is touching, 1 is hovering, any other is lifted.
pub fn report_named(number: u32, point: Point) -> Report {
    match number {
        0 => Report::Touching(point),
        1 => Report::Hovering(point),
        _ => Report::Lifted,
    }
}

/// The number of a check's refusal, 0 where there is none.
pub fn number(check: Result<(), Refusal>) -> u32 {
    check.err().map_or(0, |refusal| refusal.number)
}

impl From<Result<Marks, Refusal>> for Drawn {
    fn from(answer: Result<Marks, Refusal>) -> Drawn {
        let (refused, place, marks) = match answer {
            Ok(marks) => (0, 0, marks),
            Err(refusal) => (refusal.number, refusal.place, Marks::default()),
        };
        Drawn {
            refused,
            place,
            count: marks.count,
            fresh: marks.fresh,
        }
    }
}

impl Drawn {
    /// Both counts of the answer.
    pub fn marks(self) -> Marks {
        marks(self.count, self.fresh)
    }
}

impl From<Result<Listing, Refusal>> for Listed {
    fn from(answer: Result<Listing, Refusal>) -> Listed {
        let (refused, axis, runs) = match answer {
            Ok(listing) => (0, axis_number(listing.axis), listing.runs),
            Err(refusal) => (refusal.number, 0, 0),
        };
        Listed {
            refused,
            axis,
            runs,
        }
    }
}

impl From<Result<Option<Pixel>, Refusal>> for Found {
    fn from(answer: Result<Option<Pixel>, Refusal>) -> Found {
        let (refused, found, column, row) = match answer {
            Ok(Some(pixel)) => (0, 1, pixel.column, pixel.row),
            Ok(None) => (0, 0, 0, 0),
            Err(refusal) => (refusal.number, 0, 0, 0),
        };
        Found {
            refused,
            found,
            column,
            row,
        }
    }
}

impl From<Result<Option<Pixel>, Refusal>> for c::Pixel {
    fn from(answer: Result<Option<Pixel>, Refusal>) -> c::Pixel {
        let (refused, touching, column, row) = match answer {
            Ok(Some(pixel)) => (0, 1, pixel.column, pixel.row),
            Ok(None) => (0, 0, 0, 0),
            Err(refusal) => (refusal.number, 0, 0, 0),
        };
        c::Pixel {
            refused,
            touching,
            column,
            row,
        }
    }
}

impl From<Option<Range<usize>>> for Part {
    fn from(view: Option<Range<usize>>) -> Part {
        let view = view.unwrap_or(0..0);
        Part {
            place: view.start,
            len: view.len(),
        }
    }
}

impl From<Result<Option<Place>, Refusal>> for Frame {
    fn from(answer: Result<Option<Place>, Refusal>) -> Frame {
        let (refused, found, place, len) = match answer {
            Ok(Some(at)) => (0, 1, at.place as u32, at.len as u32),
            Ok(None) => (0, 0, 0, 0),
            Err(refusal) => (refusal.number, 0, 0, 0),
        };
        Frame {
            refused,
            found,
            place,
            len,
        }
    }
}

impl From<Result<Option<Marks>, Refusal>> for FrameDrawn {
    fn from(answer: Result<Option<Marks>, Refusal>) -> FrameDrawn {
        let (refused, found, marks) = match answer {
            Ok(Some(marks)) => (0, 1, marks),
            Ok(None) => (0, 0, Marks::default()),
            Err(refusal) => (refusal.number, 0, Marks::default()),
        };
        FrameDrawn {
            refused,
            found,
            count: marks.count,
            fresh: marks.fresh,
        }
    }
}
