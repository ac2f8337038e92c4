//! The run lister: one division at the start, then sums and one test a run.
use super::line::Line;
use crate::c::Ends;

/// The steps that begin and end a run, and the decision number at its end.
struct Slice {
    start: i32,
    end: i32,
    rest: i32,
}

/// Writes the line's runs, and answers the axis (0: x, 1: y) and their number.
pub fn list_runs(ends: Ends, list: &mut [i32]) -> (u32, u32) {
    let line = Line::of(ends);
    let last = list_but_last(ends, &line, list);
    put_last(ends, &line, last, list);
    (u32::from(line.along_y), line.short + 1)
}

/// The first end's coordinates along the long axis and across it, and whether each grows.
fn lie_of(ends: Ends, line: &Line) -> (i32, i32, bool, bool) {
    let (right, down) = (ends.x0 < ends.x1, ends.y0 < ends.y1);
    if line.along_y {
        (ends.y0, ends.x0, down, right)
    } else {
        (ends.x0, ends.y0, right, down)
    }
}

/// Writes all runs but the last, and answers the last one's first step.
fn list_but_last(ends: Ends, line: &Line, list: &mut [i32]) -> i32 {
    let (along, across, along_up, across_up) = lie_of(ends, line);
    let (long, short) = (line.long as i32, line.short as i32);
    if short == 0 {
        return 0;
    }
    let half = long / (2 * short);
    let half_rest = long % (2 * short);
    let odd = i32::from(half_rest >= short);
    let whole = 2 * half + odd;
    let twice = 2 * (half_rest - odd * short);
    // The division is of L; the line's decision number is L or one less, so `grow` may find -1 here.
    let mut slice = Slice {
        start: 0,
        end: -half,
        rest: half_rest - (line.long - line.rest) as i32,
    };
    slice.grow(whole, twice, short);
    let mut across = across;
    let across_step = if across_up { 1 } else { -1 };
    for run in list[..3 * line.short as usize].chunks_exact_mut(3) {
        run[0] = across;
        run[1] = slice.lowest(along, along_up);
        run[2] = slice.end - slice.start;
        slice.start = slice.end;
        slice.grow(whole, twice, short);
        across += across_step;
    }
    slice.start
}

fn put_last(ends: Ends, line: &Line, start: i32, list: &mut [i32]) {
    let (along, across, along_up, across_up) = lie_of(ends, line);
    let (long, short) = (line.long as i32, line.short as i32);
    let at = 3 * line.short as usize;
    let slice = Slice {
        start,
        end: long + 1,
        rest: 0,
    };
    list[at] = if across_up { across + short } else { across - short };
    list[at + 1] = slice.lowest(along, along_up);
    list[at + 2] = slice.end - slice.start;
}

impl Slice {
    /// Moves the end on by a run: L / S steps, or one more where the decision number does not cover the remainder.
    fn grow(&mut self, whole: i32, twice: i32, short: i32) {
        self.end += whole;
        if twice <= self.rest {
            self.rest -= twice;
        } else {
            self.rest += 2 * short - twice;
            self.end += 1;
        }
    }

    fn lowest(&self, along: i32, up: bool) -> i32 {
        if up {
            along + self.start
        } else {
            along - (self.end - 1)
        }
    }
}
