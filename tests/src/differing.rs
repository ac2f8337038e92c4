//! Where two rasters differ, read off their bytes, without the second implementation.
use paper::frame::{pixel, Pixel, Window};

/// The places of the bits in which two rasters of the window differ, row by row from the top. A place in the padding has a
/// column past the window's last one.
pub fn differing<'a>(
    window: Window,
    one: &'a [u8],
    other: &'a [u8],
) -> impl Iterator<Item = Pixel> + 'a {
    let row_bytes = (window.width as usize).div_ceil(8).max(1);
    let bytes = one.iter().zip(other).map(|(one, other)| one ^ other);
    let unequal = bytes.enumerate().filter(|(_, bits)| *bits != 0);
    unequal.flat_map(move |(place, bits)| {
        let column = window.left + 8 * (place % row_bytes) as i32;
        let row = window.top + (place / row_bytes) as i32;
        (0..8)
            .filter(move |bit| bits & (128 >> bit) != 0)
            .map(move |bit| pixel(column + bit, row))
    })
}
