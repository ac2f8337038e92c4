//! Work on whole bytes: filling runs along x by memset, and looking for a byte.
use crate::c::{Counts, Window};

/// The bits of a byte from bit k on, and those up to and with bit k.
const FROM: [u8; 8] = [255, 127, 63, 31, 15, 7, 3, 1];
const UP_TO: [u8; 8] = [128, 192, 224, 240, 248, 252, 254, 255];

/// The bit of a run's first pixel.
fn first_bit(run: &[i32], window: Window) -> usize {
    let row = (run[0] - window.top) as usize;
    let column = (run[1] - window.left) as usize;
    8 * row * window.row_bytes() + column
}

/// Fills the bytes of each run of a list. Every run begins and ends with a byte and lies in the window.
pub fn fill_runs(list: &[i32], window: Window, raster: &mut [u8]) -> u64 {
    let mut pixels = 0;
    for run in list.chunks_exact(3) {
        let at = first_bit(run, window) / 8;
        raster[at..at + run[2] as usize / 8].fill(255);
        pixels += run[2] as u64;
    }
    pixels
}

/// The same for runs that begin and end within a byte: the first and the last byte are masked. Every run lies in the
/// window and goes over more than one byte.
pub fn fill_masked_runs(list: &[i32], window: Window, raster: &mut [u8]) -> u64 {
    let mut pixels = 0;
    for run in list.chunks_exact(3) {
        let start = first_bit(run, window);
        let last = start + run[2] as usize - 1;
        raster[start / 8] |= FROM[start % 8];
        raster[start / 8 + 1..last / 8].fill(255);
        raster[last / 8] |= UP_TO[last % 8];
        pixels += run[2] as u64;
    }
    pixels
}

/// How many bits are 0. Eight bytes are counted at once, since byte by byte takes several times as long.
fn zeros(bytes: &[u8]) -> u64 {
    let (words, rest) = bytes.as_chunks();
    let in_words: u32 = words.iter().map(|word| u64::from_ne_bytes(*word).count_zeros()).sum();
    let in_rest: u32 = rest.iter().map(|byte| byte.count_zeros()).sum();
    u64::from(in_words + in_rest)
}

/// Sets the bits of a byte, and answers how many of them were 0.
fn set_counted(byte: &mut u8, bits: u8) -> u64 {
    let more = bits & !*byte;
    *byte |= bits;
    u64::from(more.count_ones())
}

/// The same as `fill_masked_runs`, and counts the fresh pixels.
pub fn fill_masked_runs_counted(list: &[i32], window: Window, raster: &mut [u8]) -> Counts {
    let mut counts = Counts { count: 0, fresh: 0 };
    for run in list.chunks_exact(3) {
        let start = first_bit(run, window);
        let last = start + run[2] as usize - 1;
        counts.fresh += set_counted(&mut raster[start / 8], FROM[start % 8]);
        let between = &mut raster[start / 8 + 1..last / 8];
        counts.fresh += zeros(between);
        between.fill(255);
        counts.fresh += set_counted(&mut raster[last / 8], UP_TO[last % 8]);
        counts.count += run[2] as u64;
    }
    counts
}

/// The place of the first byte that is not 0.
pub fn first_marked_byte(raster: &[u8]) -> Option<usize> {
    raster.iter().position(|&byte| byte != 0)
}
