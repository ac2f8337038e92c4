//! Drawing: the lines of a frame, straight from the file, in a band of a window.
use super::read::read;
use crate::draw::{mark_band, Band};
use crate::frame::Window;
use crate::line::Line;
use crate::raster::Marks;
use crate::refusal::{first_met, Refusal};

/// Marks the pixels of the frame's lines in the band's rows of the window: their sum over the lines, an overlap counted each
/// time, and how many pixels were unmarked, an overlap counted once. None for a frame that the file doesn't have.
pub fn draw_frame(
    file: &[u8],
    frame: u32,
    window: Window,
    band: Band,
    raster: &mut [u8],
) -> Result<Option<Marks>, Refusal> {
    first_met(&[
        (2, window.size_out()),
        (3, window.place_out()),
        (4, window.raster_out(raster.len())),
        (6, band.out(window)),
    ])?;
    let reel = read(file)?;
    let Some(records) = reel.records_of(frame) else {
        return Ok(None);
    };
    let lines = records.iter().map(|ends| Line::new(*ends));
    let marks = lines.map(|line| mark_band(&line, window, band, raster));
    Ok(Some(marks.sum()))
}
