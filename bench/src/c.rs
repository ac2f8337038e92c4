//! The library's C interface and libc's byte search, behind functions that take slices.
use std::ffi::{c_int, c_void};

/// A line's first end and second end.
#[repr(C)]
#[derive(Clone, Copy)]
pub struct Ends {
    pub x0: i32,
    pub y0: i32,
    pub x1: i32,
    pub y1: i32,
}

#[repr(C)]
#[derive(Clone, Copy)]
pub struct Window {
    pub left: i32,
    pub top: i32,
    pub width: u32,
    pub height: u32,
}

impl Window {
    pub fn row_bytes(self) -> usize {
        self.width.div_ceil(8) as usize
    }

    pub fn raster_bytes(self) -> usize {
        self.height as usize * self.row_bytes()
    }
}

#[repr(C)]
struct Drawn {
    refused: u32,
    place: u32,
    count: u64,
    fresh: u64,
}

/// The counts of a drawing: its pixels in the window, and how many of them were unmarked.
#[derive(Clone, Copy, Debug, PartialEq)]
pub struct Counts {
    pub count: u64,
    pub fresh: u64,
}

#[repr(C)]
struct Listed {
    refused: u32,
    axis: u32,
    runs: u32,
}

#[repr(C)]
struct Found {
    refused: u32,
    found: u32,
    column: i32,
    row: i32,
}

#[repr(C)]
struct Frame {
    refused: u32,
    found: u32,
    place: u32,
    len: u32,
}

#[repr(C)]
struct FrameDrawn {
    refused: u32,
    found: u32,
    count: u64,
    fresh: u64,
}

#[repr(C)]
struct Pixel {
    refused: u32,
    touching: u32,
    column: i32,
    row: i32,
}

extern "C" {
    fn tc_draw_single(ends: Ends, window: Window, raster: *mut u8, len: usize) -> Drawn;
    fn tc_draw_double(ends: Ends, window: Window, raster: *mut u8, len: usize) -> Drawn;
    fn tc_draw_band(ends: Ends, window: Window, first: u32, rows: u32, raster: *mut u8, len: usize) -> Drawn;
    fn tc_list_runs(ends: Ends, list: *mut i32, len: usize) -> Listed;
    fn tc_paint_runs(
        axis: u32,
        count: u32,
        list: *const i32,
        list_len: usize,
        window: Window,
        raster: *mut u8,
        len: usize,
    ) -> Drawn;
    fn tc_first_marked(window: Window, raster: *const u8, len: usize) -> Found;
    fn tc_reel_find(file: *const u8, len: usize, frame: u32) -> Frame;
    fn tc_reel_write(list: *const i32, n: usize, table: *const u32, frames: usize, out: *mut u8, room: usize) -> u32;
    fn tc_reel_draw(
        file: *const u8,
        len: usize,
        frame: u32,
        window: Window,
        first: u32,
        rows: u32,
        raster: *mut u8,
        raster_len: usize,
    ) -> FrameDrawn;
    fn tc_pen(kind: u32, column: f32, row: f32) -> Pixel;
    fn memchr(bytes: *const c_void, byte: c_int, len: usize) -> *const c_void;
}

/// The counts of a drawing. Every input here is lawful, so a refusal is a fault of this program.
fn counts_of(drawn: Drawn) -> Counts {
    assert_eq!(drawn.refused, 0, "refused at place {}", drawn.place);
    Counts {
        count: drawn.count,
        fresh: drawn.fresh,
    }
}

pub fn draw_single(ends: Ends, window: Window, raster: &mut [u8]) -> Counts {
    counts_of(unsafe { tc_draw_single(ends, window, raster.as_mut_ptr(), raster.len()) })
}

pub fn draw_double(ends: Ends, window: Window, raster: &mut [u8]) -> Counts {
    counts_of(unsafe { tc_draw_double(ends, window, raster.as_mut_ptr(), raster.len()) })
}

pub fn draw_band(ends: Ends, window: Window, first: u32, rows: u32, raster: &mut [u8]) -> Counts {
    let (start, len) = (raster.as_mut_ptr(), raster.len());
    counts_of(unsafe { tc_draw_band(ends, window, first, rows, start, len) })
}

/// The axis (0: x, 1: y) and the number of runs.
pub fn list_runs(ends: Ends, list: &mut [i32]) -> (u32, u32) {
    let listed = unsafe { tc_list_runs(ends, list.as_mut_ptr(), list.len()) };
    assert_eq!(listed.refused, 0);
    (listed.axis, listed.runs)
}

pub fn paint_runs(axis: u32, count: u32, list: &[i32], window: Window, raster: &mut [u8]) -> Counts {
    let (runs, runs_len) = (list.as_ptr(), list.len());
    let (start, len) = (raster.as_mut_ptr(), raster.len());
    counts_of(unsafe { tc_paint_runs(axis, count, runs, runs_len, window, start, len) })
}

/// The first marked pixel's column and row.
pub fn first_marked(window: Window, raster: &[u8]) -> Option<(i32, i32)> {
    let found = unsafe { tc_first_marked(window, raster.as_ptr(), raster.len()) };
    assert_eq!(found.refused, 0);
    (found.found != 0).then_some((found.column, found.row))
}

/// The place and the length of a frame's records in a reel's file.
pub fn reel_find(file: &[u8], frame: u32) -> Option<(u32, u32)> {
    let part = unsafe { tc_reel_find(file.as_ptr(), file.len(), frame) };
    assert_eq!(part.refused, 0);
    (part.found != 0).then_some((part.place, part.len))
}

pub fn reel_write(list: &[i32], table: &[u32], out: &mut [u8]) {
    let (numbers, frames) = (list.as_ptr(), table.as_ptr());
    let (start, room) = (out.as_mut_ptr(), out.len());
    let refused = unsafe { tc_reel_write(numbers, list.len(), frames, table.len(), start, room) };
    assert_eq!(refused, 0);
}

/// Draws frame 0 of a reel's file in the whole window.
pub fn reel_draw(file: &[u8], window: Window, raster: &mut [u8]) -> Counts {
    let (start, len) = (raster.as_mut_ptr(), raster.len());
    let drawn = unsafe { tc_reel_draw(file.as_ptr(), file.len(), 0, window, 0, window.height, start, len) };
    assert_eq!((drawn.refused, drawn.found), (0, 1));
    Counts {
        count: drawn.count,
        fresh: drawn.fresh,
    }
}

/// The pixel that a touching pen touches.
pub fn pen(column: f32, row: f32) -> Option<(i32, i32)> {
    let pixel = unsafe { tc_pen(0, column, row) };
    (pixel.touching != 0).then_some((pixel.column, pixel.row))
}

/// The place of the first byte that equals `byte`.
pub fn find_byte(bytes: &[u8], byte: u8) -> Option<usize> {
    let start = bytes.as_ptr();
    let at = unsafe { memchr(start.cast(), c_int::from(byte), bytes.len()) };
    (!at.is_null()).then(|| at as usize - start as usize)
}
