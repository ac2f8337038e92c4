//! What a call added to a raster, read off the bytes before and after it, without the second implementation.
use paper::frame::Window;

/// The bits of a byte that are pixels, where so many columns are left from its first bit on.
fn visible(columns: usize) -> u8 {
    match columns {
        0..=7 => !(255 >> columns),
        _ => 255,
    }
}

/// How many pixels are marked after and not before; none where a bit of the padding changed or a bit became 0.
pub fn added(window: Window, before: &[u8], after: &[u8]) -> Option<u64> {
    let width = window.width as usize;
    let row_bytes = width.div_ceil(8).max(1);
    let mut pixels = 0;
    for (place, (was, is)) in before.iter().zip(after).enumerate() {
        if was == is {
            continue;
        }
        let column = 8 * (place % row_bytes);
        let more = is & !was;
        if was & !is != 0 || more & !visible(width - column) != 0 {
            return None;
        }
        pixels += u64::from(more.count_ones());
    }
    Some(pixels)
}
