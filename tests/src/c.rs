//! The C interface: its structs, its functions, and a safe function over each, which lends whole slices.
#![allow(unsafe_code)]
use paper::draw::Band;
use paper::frame::{Ends, Window};

#[repr(C)]
struct TcEnds {
    x0: i32,
    y0: i32,
    x1: i32,
    y1: i32,
}

#[repr(C)]
struct TcWindow {
    left: i32,
    top: i32,
    width: u32,
    height: u32,
}

/// `place` is the first bad run's at 8, else 0; `count` and `fresh` are 0 where refused.
#[repr(C)]
#[derive(Clone, Copy, Debug, PartialEq)]
pub struct Drawn {
    pub refused: u32,
    pub place: u32,
    pub count: u64,
    pub fresh: u64,
}

/// `axis` is 0 for x and 1 for y; `axis` and `runs` are 0 where refused.
#[repr(C)]
#[derive(Clone, Copy, Debug, PartialEq)]
pub struct Listed {
    pub refused: u32,
    pub axis: u32,
    pub runs: u32,
}

/// `found` is 0 for none and where refused; `column` and `row` are 0 then.
#[repr(C)]
#[derive(Clone, Copy, Debug, PartialEq)]
pub struct Found {
    pub refused: u32,
    pub found: u32,
    pub column: i32,
    pub row: i32,
}

/// `touching` is 0 where the pen isn't touching and where refused; `column` and `row` are 0 then.
#[repr(C)]
#[derive(Clone, Copy, Debug, PartialEq)]
pub struct Pixel {
    pub refused: u32,
    pub touching: u32,
    pub column: i32,
    pub row: i32,
}

/// 0 and 0 for the empty part.
#[repr(C)]
#[derive(Clone, Copy, Debug, PartialEq)]
pub struct Part {
    pub place: usize,
    pub len: usize,
}

/// `found` is 0 for none and where refused; `place` and `len`, in bytes, are 0 then.
#[repr(C)]
#[derive(Clone, Copy, Debug, PartialEq)]
pub struct Frame {
    pub refused: u32,
    pub found: u32,
    pub place: u32,
    pub len: u32,
}

/// `found` is 0 for none and where refused; `count` and `fresh` are 0 then.
#[repr(C)]
#[derive(Clone, Copy, Debug, PartialEq)]
pub struct FrameDrawn {
    pub refused: u32,
    pub found: u32,
    pub count: u64,
    pub fresh: u64,
}

#[link(name = "capi", kind = "static")]
extern "C" {
    fn tc_window_check(left: i32, top: i32, width: u32, height: u32) -> u32;
    fn tc_draw_single(ends: TcEnds, window: TcWindow, raster: *mut u8, len: usize) -> Drawn;
    fn tc_draw_double(ends: TcEnds, window: TcWindow, raster: *mut u8, len: usize) -> Drawn;
    fn tc_draw_band(
        ends: TcEnds,
        window: TcWindow,
        first: u32,
        rows: u32,
        raster: *mut u8,
        len: usize,
    ) -> Drawn;
    fn tc_list_runs(ends: TcEnds, list: *mut i32, len: usize) -> Listed;
    fn tc_paint_runs(
        axis: u32,
        count: u32,
        list: *const i32,
        list_len: usize,
        window: TcWindow,
        raster: *mut u8,
        len: usize,
    ) -> Drawn;
    fn tc_row_view(window: TcWindow, raster: *const u8, len: usize, row: u32) -> Part;
    fn tc_first_marked(window: TcWindow, raster: *const u8, len: usize) -> Found;
    fn tc_lineruns(input: *const u8, len: usize, output: *mut u8, room: usize) -> usize;
    fn tc_reel_find(file: *const u8, len: usize, frame: u32) -> Frame;
    fn tc_reel_write(
        list: *const i32,
        n: usize,
        table: *const u32,
        frames: usize,
        out: *mut u8,
        room: usize,
    ) -> u32;
    fn tc_reel_draw(
        file: *const u8,
        len: usize,
        frame: u32,
        window: TcWindow,
        first: u32,
        rows: u32,
        raster: *mut u8,
        raster_len: usize,
    ) -> FrameDrawn;
    fn tc_pen(kind: u32, column: f32, row: f32) -> Pixel;
}

pub fn window_check(w: Window) -> u32 {
    unsafe { tc_window_check(w.left, w.top, w.width, w.height) }
}

pub fn draw_single(ends: Ends, window: Window, raster: &mut [u8]) -> Drawn {
    unsafe {
        tc_draw_single(
            ends.into(),
            window.into(),
            raster.as_mut_ptr(),
            raster.len(),
        )
    }
}

pub fn draw_double(ends: Ends, window: Window, raster: &mut [u8]) -> Drawn {
    unsafe {
        tc_draw_double(
            ends.into(),
            window.into(),
            raster.as_mut_ptr(),
            raster.len(),
        )
    }
}

pub fn draw_band(ends: Ends, window: Window, band: Band, raster: &mut [u8]) -> Drawn {
    let (first, rows) = (band.first, band.rows);
    let (place, len) = (raster.as_mut_ptr(), raster.len());
    unsafe { tc_draw_band(ends.into(), window.into(), first, rows, place, len) }
}

pub fn list_runs(ends: Ends, list: &mut [i32]) -> Listed {
    unsafe { tc_list_runs(ends.into(), list.as_mut_ptr(), list.len()) }
}

pub fn paint_runs(axis: u32, count: u32, list: &[i32], window: Window, raster: &mut [u8]) -> Drawn {
    let (numbers, list_len) = (list.as_ptr(), list.len());
    let (place, len) = (raster.as_mut_ptr(), raster.len());
    unsafe { tc_paint_runs(axis, count, numbers, list_len, window.into(), place, len) }
}

pub fn row_view(window: Window, raster: &[u8], row: u32) -> Part {
    unsafe { tc_row_view(window.into(), raster.as_ptr(), raster.len(), row) }
}

pub fn first_marked(window: Window, raster: &[u8]) -> Found {
    unsafe { tc_first_marked(window.into(), raster.as_ptr(), raster.len()) }
}

pub fn lineruns(input: &[u8], output: &mut [u8]) -> usize {
    let (place, room) = (output.as_mut_ptr(), output.len());
    unsafe { tc_lineruns(input.as_ptr(), input.len(), place, room) }
}

pub fn reel_find(file: &[u8], frame: u32) -> Frame {
    unsafe { tc_reel_find(file.as_ptr(), file.len(), frame) }
}

pub fn reel_write(list: &[i32], table: &[u32], out: &mut [u8]) -> u32 {
    let (numbers, n) = (list.as_ptr(), list.len());
    let (place, room) = (out.as_mut_ptr(), out.len());
    unsafe { tc_reel_write(numbers, n, table.as_ptr(), table.len(), place, room) }
}

pub fn reel_draw(
    file: &[u8],
    frame: u32,
    window: Window,
    band: Band,
    raster: &mut [u8],
) -> FrameDrawn {
    let (bytes, file_len) = (file.as_ptr(), file.len());
    let (first, rows) = (band.first, band.rows);
    let (place, len) = (raster.as_mut_ptr(), raster.len());
    let window = window.into();
    unsafe { tc_reel_draw(bytes, file_len, frame, window, first, rows, place, len) }
}

pub fn pen(kind: u32, column: f32, row: f32) -> Pixel {
    unsafe { tc_pen(kind, column, row) }
}

impl From<Ends> for TcEnds {
    fn from(ends: Ends) -> TcEnds {
        let Ends { x0, y0, x1, y1 } = ends;
        TcEnds { x0, y0, x1, y1 }
    }
}

impl From<Window> for TcWindow {
    fn from(window: Window) -> TcWindow {
        TcWindow {
            left: window.left,
            top: window.top,
            width: window.width,
            height: window.height,
        }
    }
}
