//! Bresenham's line. A drawer checks its line once and then indexes the raster untested, as a loop in C does. The rounding
//! is the library's: halves go to the larger coordinate.
use super::line::Line;
use crate::c::{Counts, Ends, Window};

/// Counts the bit `bit` of the raster.
///
/// # Safety
/// The raster has a bit `bit`.
#[inline(always)]
unsafe fn mark(raster: &mut [u8], bit: usize) {
    *raster.get_unchecked_mut(bit / 8) |= 128 >> (bit % 8);
}

/// Counts the bit `bit` of the raster: 1 if it was 0, else 0. It is done in 32 bits: in 8 the loop takes up to two thirds
/// longer.
///
/// # Safety
/// The raster has a bit `bit`.
#[inline(always)]
unsafe fn mark_counted(raster: &mut [u8], bit: usize) -> u64 {
    let byte = raster.get_unchecked_mut(bit / 8);
    let worth = 128_u32 >> (bit % 8);
    let old = u32::from(*byte);
    *byte = (old | worth) as u8;
    u64::from(old & worth == 0)
}

fn holds(window: Window, x: i32, y: i32) -> bool {
    let column = x.wrapping_sub(window.left) as u32;
    let row = y.wrapping_sub(window.top) as u32;
    column < window.width && row < window.height
}

/// Both ends of the line lie in the window, and so do all its pixels.
fn check_inside(ends: Ends, window: Window, raster: &[u8]) {
    assert_eq!(raster.len(), window.raster_bytes());
    assert!(holds(window, ends.x0, ends.y0) && holds(window, ends.x1, ends.y1));
}

/// Calls `put` with the bit of each pixel, and answers how many they are. Each arm is a whole sum: with a sum that the arms
/// share the compiler makes selects of the branch, and the loop takes half as long again.
#[inline(always)]
fn each_bit(ends: Ends, window: Window, mut put: impl FnMut(usize)) -> u64 {
    let Line {
        long,
        short,
        along_y,
        mut rest,
    } = Line::of(ends);
    let row_bits = 8 * window.row_bytes();
    let (right, left) = if ends.x0 < ends.x1 { (1, 0) } else { (0, 1) };
    let (down, up) = if ends.y0 < ends.y1 {
        (row_bits, 0)
    } else {
        (0, row_bits)
    };
    let (flat_on, flat_back) = if along_y { (down, up) } else { (right, left) };
    let (diagonal_on, diagonal_back) = (right + down, left + up);
    let column = (ends.x0 - window.left) as usize;
    let row = (ends.y0 - window.top) as usize;
    let mut bit = row * row_bits + column;
    let twice = 2 * short;
    let turn = 2 * long - twice;
    let mut step = 0;
    loop {
        put(bit);
        if step == long {
            return u64::from(long) + 1;
        }
        if turn <= rest {
            bit = bit + diagonal_on - diagonal_back;
            rest -= turn;
        } else {
            bit = bit + flat_on - flat_back;
            rest += twice;
        }
        step += 1;
    }
}

/// Bresenham's loop over a bit index, without window tests.
pub fn draw_by_bits(ends: Ends, window: Window, raster: &mut [u8]) -> u64 {
    check_inside(ends, window, raster);
    each_bit(ends, window, |bit| {
        // SAFETY: every pixel of the line lies in the window.
        unsafe { mark(raster, bit) };
    })
}

/// The same, and counts the fresh pixels.
pub fn draw_by_bits_counted(ends: Ends, window: Window, raster: &mut [u8]) -> Counts {
    check_inside(ends, window, raster);
    let mut fresh = 0;
    let count = each_bit(ends, window, |bit| {
        // SAFETY: every pixel of the line lies in the window.
        fresh += unsafe { mark_counted(raster, bit) };
    });
    Counts { count, fresh }
}

/// Calls `put` with column and row, counted from left and top, of each pixel: Bresenham's loop as it is mostly written.
#[inline(always)]
fn each_pixel(ends: Ends, window: Window, mut put: impl FnMut(i32, i32)) {
    let Line {
        long,
        short,
        along_y,
        mut rest,
    } = Line::of(ends);
    let (right, down) = ((ends.x1 - ends.x0).signum(), (ends.y1 - ends.y0).signum());
    let (mut column, mut row) = (ends.x0 - window.left, ends.y0 - window.top);
    for _ in 0..=long {
        put(column, row);
        rest += 2 * short;
        if along_y {
            row += down;
        } else {
            column += right;
        }
        if rest >= 2 * long {
            rest -= 2 * long;
            if along_y {
                column += right;
            } else {
                row += down;
            }
        }
    }
}

/// Bresenham's loop over column and row, without window tests.
pub fn draw_by_pixels(ends: Ends, window: Window, raster: &mut [u8]) -> u64 {
    check_inside(ends, window, raster);
    let row_bits = 8 * window.row_bytes();
    let mut count = 0;
    each_pixel(ends, window, |column, row| {
        // SAFETY: every pixel of the line lies in the window.
        unsafe { mark(raster, row as usize * row_bits + column as usize) };
        count += 1;
    });
    count
}

/// Bresenham's loop over column and row, with a window test at each pixel.
pub fn draw_tested(ends: Ends, window: Window, raster: &mut [u8]) -> u64 {
    assert_eq!(raster.len(), window.raster_bytes());
    let row_bits = 8 * window.row_bytes();
    let mut count = 0;
    each_pixel(ends, window, |column, row| {
        if (column as u32) < window.width && (row as u32) < window.height {
            // SAFETY: the pixel lies in the window.
            unsafe { mark(raster, row as usize * row_bits + column as usize) };
            count += 1;
        }
    });
    count
}
