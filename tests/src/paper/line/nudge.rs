//! Two lines with the same first end, the same long axis and the same L of at least 1, whose second ends differ by d in the
//! short coordinate alone, by the second implementation alone: at step i their pixels differ by at most i × d / L rounded up, in
//! the short coordinate alone. Expected short coordinates are found by hand from document 02's words: the nearest whole number,
//! a half to the larger coordinate.
use super::halves::{shorts, small_lines, REACH};
use super::{Axis, Line};
use crate::frame::{ends, Ends};
use crate::known::{line, pixels};

/// How far the short coordinates are apart at each step. The long ones have to be the same.
fn apart(one: &Line, other: &Line) -> Vec<u64> {
    let steps = |line: &Line| (line.axis, line.pixels.len());
    assert_eq!(steps(one), steps(other), "{:?}", one.ends);
    let mut apart = Vec::new();
    for (one_at, other_at) in pixels(one).into_iter().zip(pixels(other)) {
        let (across, down) = (one_at.0.abs_diff(other_at.0), one_at.1.abs_diff(other_at.1));
        let (long, short) = match one.axis {
            Axis::X => (across, down),
            Axis::Y => (down, across),
        };
        assert_eq!(long, 0, "{:?}", one.ends);
        apart.push(u64::from(short));
    }
    apart
}

/// i × d / L, rounded up, at each step.
fn bounds(one: &Line, other: &Line) -> Vec<u64> {
    let (a, b) = (one.ends, other.ends);
    let long = u64::from(a.x1.abs_diff(a.x0).max(a.y1.abs_diff(a.y0)));
    // The long coordinates are the same, so one of both is 0.
    let d = u64::from(a.x1.abs_diff(b.x1) + a.y1.abs_diff(b.y1));
    (0..=long).map(|i| (i * d).div_ceil(long)).collect()
}

fn within(one: &Line, other: &Line) -> bool {
    let mut pairs = apart(one, other).into_iter().zip(bounds(one, other));
    pairs.all(|(apart, bound)| apart <= bound)
}

/// Expects the short coordinates of both lines and the bounds. Either line can be the nudged one.
fn expect(one: &Line, one_shorts: &[i32], other: &Line, other_shorts: &[i32], expected: &[u64]) {
    assert_eq!(shorts(one), one_shorts);
    assert_eq!(shorts(other), other_shorts);
    assert_eq!(bounds(one, other), expected);
    assert!(within(one, other) && within(other, one));
}

#[test]
fn as_far_apart_as_the_bound_at_every_step() {
    let (flat, diagonal) = (line(0, 0, 4, 0), line(0, 0, 4, 4));
    let steps = [0, 1, 2, 3, 4];
    assert_eq!(apart(&flat, &diagonal), steps);
    expect(&flat, &[0; 5], &diagonal, &[0, 1, 2, 3, 4], &steps);
    // 0, 1/2, 1, 3/2, 2; so are the bounds before they are rounded up.
    let rising = line(0, 0, 4, 2);
    let up = [0, 1, 1, 2, 2];
    assert_eq!(apart(&flat, &rising), up);
    expect(&flat, &[0; 5], &rising, &[0, 1, 1, 2, 2], &up);
    // 0, -1/2, -1, -3/2, -2, on the other side of the first end's row.
    let falling = line(0, 0, 4, -2);
    assert_eq!(apart(&falling, &rising), steps);
    let shorts = [0, 0, -1, -1, -2];
    expect(&falling, &shorts, &rising, &[0, 1, 1, 2, 2], &steps);
}

#[test]
fn the_bound_rounded_down_would_be_too_low() {
    // At step 1 the rows are 0 and 1/2, which goes to 1; the bound is 1/2.
    let (flat, rising) = (line(0, 0, 2, 0), line(0, 0, 2, 1));
    assert_eq!(apart(&flat, &rising), [0, 1, 1]);
    expect(&flat, &[0, 0, 0], &rising, &[0, 1, 1], &[0, 1, 1]);
}

#[test]
fn on_both_sides_of_the_first_end() {
    // -1/2 goes to 0 and 1/2 to 1. Halves away from the first end would be 2 apart, with a bound of 1.
    let sides = [
        (line(0, 0, 2, -1), line(0, 0, 2, 1)),
        (line(0, 0, -2, -1), line(0, 0, -2, 1)),
        (line(0, 0, -1, 2), line(0, 0, 1, 2)),
        (line(0, 0, -1, -2), line(0, 0, 1, -2)),
    ];
    for (falling, rising) in sides {
        assert_eq!(apart(&falling, &rising), [0, 1, 2]);
        expect(&falling, &[0, 0, -1], &rising, &[0, 1, 1], &[0, 1, 2]);
    }
}

#[test]
fn along_y_and_towards_left_and_up() {
    // Downwards: 0, 1/4, 2/4, 3/4, 1 and 0, 3/4, 6/4, 9/4, 3. The bounds are 0, 2/4, 1, 6/4, 2, rounded up.
    let (one, other) = (line(0, 0, 1, 4), line(0, 0, 3, 4));
    let (one_shorts, other_shorts) = ([0, 0, 1, 1, 1], [0, 1, 2, 2, 3]);
    expect(&one, &one_shorts, &other, &other_shorts, &[0, 1, 1, 2, 2]);
    // Towards the left: 0, -1/4, -2/4, -3/4, -1 and 0, 1/4, 2/4, 3/4, 1. The same bounds.
    let (one, other) = (line(0, 0, -4, -1), line(0, 0, -4, 1));
    let (one_shorts, other_shorts) = ([0, 0, 0, -1, -1], [0, 0, 1, 1, 1]);
    expect(&one, &one_shorts, &other, &other_shorts, &[0, 1, 1, 2, 2]);
    // Towards the left: -3, -7/2, -4, -9/2, -5 and -3, -9/4, -6/4, -3/4, 0. The bounds are 0, 5/4, 10/4, 15/4, 5.
    let (one, other) = (line(-5, -3, -9, -5), line(-5, -3, -9, 0));
    let (one_shorts, other_shorts) = ([-3, -3, -4, -4, -5], [-3, -2, -1, -1, 0]);
    expect(&one, &one_shorts, &other, &other_shorts, &[0, 2, 3, 4, 5]);
    // Upwards: 5, 14/3, 13/3, 4, 11/3, 10/3, 3 and 5, 9/2, 4, 7/2, 3, 5/2, 2. The bound at step i is i / 6.
    let (one, other) = (line(5, -3, 3, -9), line(5, -3, 2, -9));
    let (one_shorts, other_shorts) = ([5, 5, 4, 4, 4, 3, 3], [5, 5, 4, 4, 3, 3, 2]);
    let bounds = [0, 1, 1, 1, 1, 1, 1];
    expect(&one, &one_shorts, &other, &other_shorts, &bounds);
}

#[test]
fn the_largest_difference() {
    // The exact rows are -i / 2 - i / 65534 and i / 2 - i / 65534, so the nearest are -i / 2 and i / 2, both rounded down.
    let falling: Vec<i32> = (0..=32767).map(|i| -((i + 1) / 2)).collect();
    let rising: Vec<i32> = (0..=32767).map(|i| i / 2).collect();
    let steps: Vec<u64> = (0..=32767).collect();
    let (one, other) = (
        line(-16384, 0, 16383, -16384),
        line(-16384, 0, 16383, 16383),
    );
    assert_eq!(apart(&one, &other), steps);
    expect(&one, &falling, &other, &rising, &steps);
}

/// The lines that differ from this one in the second end's short coordinate alone, this one among them, with the same axis and L.
fn nudged(line: &Line) -> Vec<Line> {
    let Ends { x0, y0, x1, y1 } = line.ends;
    let nudge = |short: i32| match line.axis {
        Axis::X => Line::new(ends(x0, y0, x1, short)),
        Axis::Y => Line::new(ends(x0, y0, short, y1)),
    };
    let same = |nudged: &Line| (nudged.axis, nudged.long) == (line.axis, line.long);
    (-REACH..=REACH).map(nudge).filter(same).collect()
}

#[test]
fn all_pairs_of_a_small_square() {
    for line in small_lines().iter().filter(|line| line.long > 0) {
        for nudged in nudged(line) {
            assert!(within(line, &nudged), "{:?} {:?}", line.ends, nudged.ends);
        }
    }
}
