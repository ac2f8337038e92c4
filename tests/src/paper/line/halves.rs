//! A line's halves, by the second implementation alone. Expected pixels are found by hand from document 02's words: the nearest
//! whole number, a half to the larger coordinate, whichever end is first.
use super::{Axis, Line};
use crate::draw::draw;
use crate::frame::{window, Ends};
use crate::known::{line, numbers, pixels};
use crate::raster::marks;
use crate::text::printed;

/// The coordinates of small lines are from -REACH to REACH.
pub const REACH: i32 = 6;

/// The short coordinates in the order of the steps.
pub fn shorts(line: &Line) -> Vec<i32> {
    let short = |(column, row)| match line.axis {
        Axis::X => row,
        Axis::Y => column,
    };
    pixels(line).into_iter().map(short).collect()
}

#[test]
fn middle_of_two_by_one() {
    // The middle's short coordinate is 1/2, which goes to 1, or -1/2, which goes to 0.
    let middles = [
        ((2, 1), (1, 1)),
        ((-2, 1), (-1, 1)),
        ((2, -1), (1, 0)),
        ((-2, -1), (-1, 0)),
        ((1, 2), (1, 1)),
        ((1, -2), (1, -1)),
        ((-1, 2), (0, 1)),
        ((-1, -2), (0, -1)),
    ];
    for (end, middle) in middles {
        let (x, y) = end;
        assert_eq!(pixels(&line(0, 0, x, y)), [(0, 0), middle, end]);
        assert_eq!(pixels(&line(x, y, 0, 0)), [end, middle, (0, 0)]);
    }
}

/// Expects these short coordinates from (0, 0) in the four directions in which they rise and in the four in which they fall.
/// From the other end the exact ones are the same in reverse order.
fn every_direction(long: i32, short: i32, rising: &[i32], falling: &[i32]) {
    let rise = [(long, short), (-long, short), (short, long), (short, -long)];
    let fall = [
        (long, -short),
        (-long, -short),
        (-short, long),
        (-short, -long),
    ];
    for (ends, expected) in [(rise, rising), (fall, falling)] {
        let back: Vec<i32> = expected.iter().rev().copied().collect();
        for (x, y) in ends {
            assert_eq!(shorts(&line(0, 0, x, y)), expected);
            assert_eq!(shorts(&line(x, y, 0, 0)), back);
        }
    }
}

#[test]
fn halves_in_every_direction() {
    // Between the ends the exact ones are 1/2, 1, 3/2, with a minus where they fall.
    every_direction(4, 2, &[0, 1, 1, 2, 2], &[0, 0, -1, -1, -2]);
    // 1/2, 1, 3/2, 2, 5/2.
    let rising = [0, 1, 1, 2, 2, 3, 3];
    let falling = [0, 0, -1, -1, -2, -2, -3];
    every_direction(6, 3, &rising, &falling);
    // 1/4, 2/4, 3/4.
    every_direction(4, 1, &[0, 0, 1, 1, 1], &[0, 0, 0, -1, -1]);
    // 3/4, 6/4, 9/4.
    every_direction(4, 3, &[0, 1, 2, 2, 3], &[0, -1, -1, -2, -3]);
    // 0.3, 0.6, 0.9, 1.2, 1.5, 1.8, 2.1, 2.4, 2.7.
    let rising = [0, 0, 1, 1, 1, 2, 2, 2, 2, 3, 3];
    let falling = [0, 0, -1, -1, -1, -1, -2, -2, -2, -3, -3];
    every_direction(10, 3, &rising, &falling);
    // A sixth more at each step, so a half at steps 3 and 9.
    let rising = [0, 0, 0, 1, 1, 1, 1, 1, 1, 2, 2, 2, 2];
    let falling = [0, 0, 0, 0, -1, -1, -1, -1, -1, -1, -2, -2, -2];
    every_direction(12, 2, &rising, &falling);
}

#[test]
fn halves_below_zero() {
    // -3, -7/2, -4, -9/2, -5: the larger one is nearer to 0.
    let falling = [-3, -3, -4, -4, -5];
    assert_eq!(shorts(&line(-9, -3, -5, -5)), falling);
    assert_eq!(shorts(&line(-5, -3, -9, -5)), falling);
    assert_eq!(shorts(&line(-3, -9, -5, -5)), falling);
    assert_eq!(shorts(&line(-3, -5, -5, -9)), falling);
    let rising = [-5, -4, -4, -3, -3];
    assert_eq!(shorts(&line(-9, -5, -5, -3)), rising);
    assert_eq!(shorts(&line(-5, -5, -9, -3)), rising);
    assert_eq!(shorts(&line(-5, -9, -3, -5)), rising);
    assert_eq!(shorts(&line(-5, -5, -3, -9)), rising);
}

#[test]
fn halves_on_both_sides_of_zero() {
    // -2, -3/2, -1, -1/2, 0, 1/2, 1.
    assert_eq!(shorts(&line(-3, -2, 3, 1)), [-2, -1, -1, 0, 0, 1, 1]);
    assert_eq!(shorts(&line(3, 1, -3, -2)), [1, 1, 0, 0, -1, -1, -2]);
    assert_eq!(shorts(&line(-2, 5, 1, -1)), [-2, -1, -1, 0, 0, 1, 1]);
    assert_eq!(shorts(&line(1, -1, -2, 5)), [1, 1, 0, 0, -1, -1, -2]);
    // 1, 1/4, -2/4, -5/4, -2.
    assert_eq!(shorts(&line(0, 1, 4, -2)), [1, 0, 0, -1, -2]);
    assert_eq!(shorts(&line(-2, 0, 1, -4)), [-2, -1, 0, 0, 1]);
}

#[test]
fn halves_at_the_limits() {
    // -16383.5 goes to -16383, 16382.5 to 16383.
    let middle = |x0, y0, x1, y1| shorts(&line(x0, y0, x1, y1))[1];
    assert_eq!(middle(-16384, -16384, -16382, -16383), -16383);
    assert_eq!(middle(-16383, -16384, -16384, -16382), -16383);
    assert_eq!(middle(16383, 16383, 16381, 16382), 16383);
    assert_eq!(middle(16382, 16381, 16383, 16383), 16383);
    // From row 16383 to row 0, half a row a step: 16382.5 at step 1, 0.5 at step 32765.
    let rows = shorts(&line(-16384, 16383, 16382, 0));
    assert_eq!(rows[..4], [16383, 16383, 16382, 16382]);
    assert_eq!(rows[32763..], [2, 1, 1, 0]);
}

#[test]
fn runs_of_falling_halves() {
    // 0, -1/2, -1, -3/2, -2, at the long coordinates 0 to 4, 0 to -4, and 4 to 0 from the other end.
    let forth = [[0, 0, 2], [-1, 2, 2], [-2, 4, 1]];
    assert_eq!(numbers(&line(0, 0, 4, -2)), forth);
    assert_eq!(numbers(&line(0, 0, -2, 4)), forth);
    let left = [[0, -1, 2], [-1, -3, 2], [-2, -4, 1]];
    assert_eq!(numbers(&line(0, 0, -4, -2)), left);
    assert_eq!(numbers(&line(0, 0, -2, -4)), left);
    let back = [[-2, 4, 1], [-1, 2, 2], [0, 0, 2]];
    assert_eq!(numbers(&line(4, -2, 0, 0)), back);
    assert_eq!(numbers(&line(-2, 4, 0, 0)), back);
}

#[test]
fn raster_and_text_of_falling_halves() {
    // Rows 2, 3/2, 1, 1/2, 0 at columns 0 to 4.
    let frame = window(0, 0, 5, 3);
    let mut raster = [0; 3];
    let falling = draw(&line(0, 2, 4, 0), frame, &mut raster);
    assert_eq!((falling, raster), (Ok(marks(5, 5)), [8, 48, 192]));
    let rising = draw(&line(4, 0, 0, 2), frame, &mut raster);
    assert_eq!((rising, raster), (Ok(marks(5, 0)), [8, 48, 192]));
    assert_eq!(printed(b"0 2 4 0"), b"axis x runs 3\n2 0 2\n1 2 2\n0 4 1\n");
    assert_eq!(printed(b"4 0 0 2"), b"axis x runs 3\n0 4 1\n1 2 2\n2 0 2\n");
}

/// The lines of all pairs of ends in a square around (0, 0).
pub fn small_lines() -> Vec<Line> {
    let side = 2 * REACH + 1;
    let place = |n: i32| (n % side - REACH, n / side % side - REACH);
    let pair = |n: i32| {
        let ((x0, y0), (x1, y1)) = (place(n), place(n / (side * side)));
        line(x0, y0, x1, y1)
    };
    (0..side.pow(4)).map(pair).collect()
}

/// Lines with the largest even L: a half at every other step, and one half alone.
fn long_lines() -> [Line; 4] {
    [
        line(-16384, 16383, 16382, 0),
        line(16383, -16384, 0, 16382),
        line(-16383, -1, 16383, -2),
        line(-1, 16383, -2, -16383),
    ]
}

#[test]
fn exchanged_ends_have_the_same_pixels_and_runs_in_reverse_order() {
    for forth in small_lines().iter().chain(&long_lines()) {
        let ends = forth.ends;
        let mut back = line(ends.x1, ends.y1, ends.x0, ends.y0);
        assert_eq!(back.axis, forth.axis, "{ends:?}");
        let mut runs = numbers(&back);
        runs.reverse();
        assert_eq!(runs, numbers(forth), "{ends:?}");
        back.pixels.reverse();
        assert_eq!(back.pixels, forth.pixels, "{ends:?}");
    }
}

/// A pixel's column and row, each less the exact one at its step, are above -1/2 and at most 1/2. Here all is times 2 × L.
/// Along the long axis the exact one is whole, so that it alone will do.
#[test]
fn coordinates_are_nearest_and_halves_the_larger() {
    let off = |long: i64, i: i64, first: i32, second: i32, coordinate: i32| {
        let exact = 2 * i * (i64::from(second) - i64::from(first));
        2 * long * (i64::from(coordinate) - i64::from(first)) - exact
    };
    for line in small_lines().iter().chain(&long_lines()) {
        let Ends { x0, y0, x1, y1 } = line.ends;
        let long = i64::from(x1.abs_diff(x0).max(y1.abs_diff(y0)));
        assert_eq!(line.pixels.len() as i64, long + 1);
        if long == 0 {
            assert_eq!(pixels(line), [(x0, y0)]);
            continue;
        }
        for (i, pixel) in (0..).zip(&line.pixels) {
            for z in [
                off(long, i, x0, x1, pixel.column),
                off(long, i, y0, y1, pixel.row),
            ] {
                assert!(-long < z && z <= long, "{:?} {i} {pixel:?}", line.ends);
            }
        }
    }
}

/// Document 01's facts on runs.
#[test]
fn runs_have_their_number_and_lengths() {
    for line in small_lines().iter().chain(&long_lines()) {
        let lengths: Vec<i64> = numbers(line).iter().map(|run| i64::from(run[2])).collect();
        assert_eq!(lengths.len() as i64, line.short + 1, "{:?}", line.ends);
        if let [first, between @ .., last] = &lengths[..] {
            let c = line.long / line.short;
            assert!(between.iter().all(|n| [c, c + 1].contains(n)));
            assert!([c + 1, c + 2].contains(&(first + last)));
        }
    }
}
