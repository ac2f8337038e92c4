//! Document 01, 'Operations': the run lister and the run painter.
use crate::frame::{ends_out, out_of_range, pixel, Pixel, Window};
use crate::line::{Axis, Line};
use crate::raster::{mark, Marks};
use crate::refusal::{first_met, Refusal};

/// Short coordinate, lowest long coordinate, number of pixels.
#[derive(Clone, Copy, Debug, PartialEq)]
pub struct Run {
    pub short: i32,
    pub lowest: i32,
    pub pixels: i32,
}

/// The line's axis and its number of runs.
#[derive(Clone, Copy, Debug, PartialEq)]
pub struct Listing {
    pub axis: Axis,
    pub runs: u32,
}

/// A pixel's short and long coordinate.
fn short_and_long(axis: Axis, pixel: Pixel) -> (i32, i32) {
    match axis {
        Axis::X => (pixel.row, pixel.column),
        Axis::Y => (pixel.column, pixel.row),
    }
}

/// All pixels with one short coordinate make a run; the runs stand in the line's order from the first end.
pub fn runs(line: &Line) -> Vec<Run> {
    let mut runs: Vec<Run> = Vec::new();
    for pixel in &line.pixels {
        let (short, long) = short_and_long(line.axis, *pixel);
        match runs.last_mut() {
            Some(run) if run.short == short => {
                run.lowest = run.lowest.min(long);
                run.pixels += 1;
            }
            _ => runs.push(Run {
                short,
                lowest: long,
                pixels: 1,
            }),
        }
    }
    runs
}

/// Writes three numbers a run from the list's start on and leaves the rest.
pub fn list_runs(line: &Line, list: &mut [i32]) -> Result<Listing, Refusal> {
    let needed = 3 * (line.short as u64 + 1);
    first_met(&[(1, ends_out(line.ends)), (5, (list.len() as u64) < needed)])?;
    let runs = runs(line);
    for (place, run) in list.chunks_mut(3).zip(&runs) {
        place.copy_from_slice(&[run.short, run.lowest, run.pixels]);
    }
    Ok(Listing {
        axis: line.axis,
        runs: runs.len() as u32,
    })
}

/// 8: the run's pixel number is below 1, or one of its pixels is out of the coordinate range.
fn bad(run: Run) -> bool {
    let lowest = i64::from(run.lowest);
    let last = lowest + i64::from(run.pixels) - 1;
    run.pixels < 1
        || out_of_range(i64::from(run.short))
        || out_of_range(lowest)
        || out_of_range(last)
}

/// The runs of a list: its numbers, three to a run.
fn counted_runs(count: u32, list: &[i32]) -> Vec<Run> {
    let run = |numbers: &[i32]| Run {
        short: numbers[0],
        lowest: numbers[1],
        pixels: numbers[2],
    };
    list.chunks_exact(3).take(count as usize).map(run).collect()
}

/// Marks the run's pixels in the window: how many they are, and how many were unmarked.
fn paint_run(axis: Axis, run: Run, window: Window, raster: &mut [u8]) -> Marks {
    let at = |long: i32| match axis {
        Axis::X => pixel(long, run.short),
        Axis::Y => pixel(run.short, long),
    };
    (run.lowest..run.lowest + run.pixels)
        .map(|long| mark(window, raster, at(long)))
        .sum()
}

/// Marks the pixels of the first `count` runs in the window: their sum over the runs, an overlap counted each time, and how many
/// pixels were unmarked, an overlap counted once. All runs are checked before the first bit changes.
pub fn paint_runs(
    axis: Axis,
    count: u32,
    list: &[i32],
    window: Window,
    raster: &mut [u8],
) -> Result<Marks, Refusal> {
    first_met(&[
        (2, window.size_out()),
        (3, window.place_out()),
        (4, window.raster_out(raster.len())),
        (7, 3 * u64::from(count) > list.len() as u64),
    ])?;
    let runs = counted_runs(count, list);
    if let Some(place) = runs.iter().position(|run| bad(*run)) {
        return Err(Refusal {
            number: 8,
            place: place as u32,
        });
    }
    Ok(runs
        .iter()
        .map(|run| paint_run(axis, *run, window, raster))
        .sum())
}
