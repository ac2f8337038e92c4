//! Document 01, 'Known lines', with E as document 02 has it, and the refusals' order, by the second implementation alone.
//! Expected numbers of fresh pixels (document 02, 'How much was new') are counted by hand on those lines' pixels.
use crate::draw::{draw, draw_band, Band};
use crate::frame::{ends, pixel, window};
use crate::line::{Axis, Line};
use crate::raster::{first_marked, marks, row_view};
use crate::refusal::Refusal;
use crate::runs::{list_runs, paint_runs, runs};
use crate::text::printed;

pub fn line(x0: i32, y0: i32, x1: i32, y1: i32) -> Line {
    Line::new(ends(x0, y0, x1, y1))
}

fn refused<T>(number: u32) -> Result<T, Refusal> {
    Err(Refusal { number, place: 0 })
}

pub fn numbers(line: &Line) -> Vec<[i32; 3]> {
    runs(line)
        .iter()
        .map(|run| [run.short, run.lowest, run.pixels])
        .collect()
}

pub fn pixels(line: &Line) -> Vec<(i32, i32)> {
    line.pixels
        .iter()
        .map(|pixel| (pixel.column, pixel.row))
        .collect()
}

fn rows(line: &Line) -> Vec<i32> {
    line.pixels.iter().map(|pixel| pixel.row).collect()
}

#[test]
fn runs_of_a_b_c_g_i() {
    let a = line(5, 5, 5, 5);
    assert_eq!((a.axis, numbers(&a)), (Axis::X, vec![[5, 5, 1]]));
    assert_eq!(numbers(&line(0, 0, 10, 0)), [[0, 0, 11]]);
    let c = [[0, 0, 1], [1, 1, 1], [2, 2, 1], [3, 3, 1]];
    assert_eq!(numbers(&line(0, 0, 3, 3)), c);
    let g = line(0, 0, 3, 7);
    assert_eq!(g.axis, Axis::Y);
    assert_eq!(numbers(&g), [[0, 0, 2], [1, 2, 2], [2, 4, 2], [3, 6, 2]]);
    let i = [[0, -1, 2], [-1, -5, 4], [-2, -9, 4], [-3, -11, 2]];
    assert_eq!(numbers(&line(0, 0, -11, -3)), i);
}

#[test]
fn pixels_of_d_e_f() {
    assert_eq!(pixels(&line(0, 0, 2, 1)), [(0, 0), (1, 1), (2, 1)]);
    assert_eq!(pixels(&line(2, 1, 0, 0)), [(2, 1), (1, 1), (0, 0)]);
    assert_eq!(rows(&line(0, 0, 4, 2)), [0, 1, 1, 2, 2]);
}

#[test]
fn step_codes_of_h() {
    let code = |pair: &[i32]| if pair[1] > pair[0] { '1' } else { '0' };
    let codes: String = rows(&line(0, 0, 11, 3)).windows(2).map(code).collect();
    assert_eq!(codes, "01000100010");
}

#[test]
fn rasters_of_j_and_k() {
    let mut raster = [0];
    let counts = draw(&line(-3, 0, 3, 0), window(0, 0, 4, 1), &mut raster);
    assert_eq!((counts, raster), (Ok(marks(4, 4)), [240]));
    let mut raster = [0; 8];
    let counts = draw(&line(0, 0, 11, 3), window(0, 0, 12, 4), &mut raster);
    let k = [192, 0, 60, 0, 3, 192, 0, 48];
    assert_eq!((counts, raster), (Ok(marks(12, 12)), k));
}

#[test]
fn a_line_drawn_twice_has_nothing_new() {
    let (k, frame) = (line(0, 0, 11, 3), window(0, 0, 12, 4));
    let mut raster = [0; 8];
    assert_eq!(draw(&k, frame, &mut raster), Ok(marks(12, 12)));
    assert_eq!(draw(&k, frame, &mut raster), Ok(marks(12, 0)));
}

#[test]
fn e_over_d_has_nothing_new() {
    // Both have (0, 0), (1, 1) and (2, 1).
    let frame = window(0, 0, 3, 2);
    let mut raster = [0; 2];
    let d = draw(&line(0, 0, 2, 1), frame, &mut raster);
    assert_eq!((d, raster), (Ok(marks(3, 3)), [128, 96]));
    let e = draw(&line(2, 1, 0, 0), frame, &mut raster);
    assert_eq!((e, raster), (Ok(marks(3, 0)), [128, 96]));
}

#[test]
fn marked_pixels_are_not_new() {
    // Marked are K's (6, 2), (7, 0), which isn't K's, and all padding.
    let mut raster = [1, 15, 0, 15, 2, 15, 0, 15];
    let k = draw(&line(0, 0, 11, 3), window(0, 0, 12, 4), &mut raster);
    let after = [193, 15, 60, 15, 3, 207, 0, 63];
    assert_eq!((k, raster), (Ok(marks(12, 11)), after));
    // Marked are J's columns 1 and 2, and all padding.
    let mut raster = [0b0110_1111];
    let j = draw(&line(-3, 0, 3, 0), window(0, 0, 4, 1), &mut raster);
    assert_eq!((j, raster), (Ok(marks(4, 2)), [255]));
}

#[test]
fn new_pixels_of_bands() {
    // Marked are K's (0, 0) and (9, 2); K has 2, 4, 4 and 2 pixels in its rows.
    let (k, frame) = (line(0, 0, 11, 3), window(0, 0, 12, 4));
    let mut raster = [128, 0, 0, 0, 0, 64, 0, 0];
    let mut band = |first, rows| draw_band(&k, frame, Band { first, rows }, &mut raster);
    assert_eq!(band(1, 2), Ok(marks(8, 7)));
    assert_eq!(band(2, 2), Ok(marks(6, 2)));
    assert_eq!(band(2, 3), refused(6));
    assert_eq!(band(0, 1), Ok(marks(2, 1)));
    assert_eq!(band(0, 4), Ok(marks(12, 0)));
    assert_eq!(raster, [192, 0, 60, 0, 3, 192, 0, 48]);
}

#[test]
fn overlapping_runs_are_new_once() {
    // Pixels 0, 1 and 1, 2 of a row and of a column.
    let list = [0, 0, 2, 0, 1, 2];
    let (row, column) = (window(0, 0, 4, 1), window(0, 0, 1, 3));
    let mut raster = [0];
    let counts = paint_runs(Axis::X, 2, &list, row, &mut raster);
    assert_eq!((counts, raster), (Ok(marks(4, 3)), [224]));
    // Pixel 0 is marked, and the padding.
    let mut raster = [0b1000_1111];
    let counts = paint_runs(Axis::X, 2, &list, row, &mut raster);
    assert_eq!((counts, raster), (Ok(marks(4, 2)), [239]));
    // Pixel 1 is marked, and row 0's padding.
    let mut raster = [127, 128, 0];
    let counts = paint_runs(Axis::Y, 2, &list, column, &mut raster);
    assert_eq!((counts, raster), (Ok(marks(4, 2)), [255, 128, 128]));
    // The whole row three times.
    let counts = paint_runs(Axis::X, 3, &[0, -2, 7].repeat(3), row, &mut [0]);
    assert_eq!(counts, Ok(marks(12, 4)));
}

#[test]
fn limits_of_ends_window_and_list() {
    let one = window(0, 0, 1, 1);
    assert_eq!(draw(&line(16383, 0, 0, 0), one, &mut [0]), Ok(marks(1, 1)));
    assert_eq!(draw(&line(16384, 0, 0, 0), one, &mut [0]), refused(1));
    assert_eq!(window(0, 0, 8192, 1).check(), Ok(()));
    assert_eq!(window(0, 0, 0, 1).check(), refused(2));
    assert_eq!(window(0, 0, 8193, 1).check(), refused(2));
    let h = line(0, 0, 11, 3);
    assert_eq!(
        list_runs(&h, &mut [0; 12]).map(|listing| listing.runs),
        Ok(4)
    );
    assert_eq!(list_runs(&h, &mut [0; 11]), refused(5));
}

#[test]
fn refusals_come_in_the_order_of_their_numbers() {
    let (bad, good) = (line(i32::MIN, 0, 0, 0), line(0, 0, 1, 1));
    let band = Band {
        first: u32::MAX,
        rows: 2,
    };
    let wide = window(i32::MAX, 0, 8193, 1);
    let far = window(16383, 0, 2, 1);
    let lawful = window(0, 0, 2, 1);
    assert_eq!(draw_band(&bad, wide, band, &mut []), refused(1));
    assert_eq!(draw_band(&good, wide, band, &mut []), refused(2));
    assert_eq!(draw_band(&good, far, band, &mut []), refused(3));
    assert_eq!(draw_band(&good, lawful, band, &mut []), refused(4));
    assert_eq!(draw_band(&good, lawful, band, &mut [0]), refused(6));
    assert_eq!(list_runs(&bad, &mut []), refused(1));
    assert_eq!(first_marked(far, &[]), refused(3));
    assert_eq!(row_view(lawful, 1, 0), Some(0..1));
    assert_eq!(row_view(lawful, 1, 1), None);
}

#[test]
fn painters_refusals() {
    let lawful = window(0, 0, 4, 1);
    let paint = |count, list: &[i32]| paint_runs(Axis::X, count, list, lawful, &mut [0]);
    assert_eq!(paint(0x55555556, &[0, 0, 1]), refused(7));
    assert_eq!(paint(1, &[0, 0]), refused(7));
    assert_eq!(paint(2, &[0, 0, 2, 0, 1, 2]), Ok(marks(4, 3)));
    assert_eq!(paint(1, &[0, -16384, 32768]), Ok(marks(4, 4)));
    let eight = |place| Err(Refusal { number: 8, place });
    assert_eq!(paint(1, &[0, -16384, 32769]), eight(0));
    assert_eq!(paint(2, &[0, 0, 1, 0, 16383, i32::MAX]), eight(1));
    assert_eq!(paint(1, &[0, 0, 0]), eight(0));
}

#[test]
fn search_passes_over_padding() {
    let narrow = window(-7, 5, 3, 2);
    let at = |column, row| Ok(Some(pixel(column, row)));
    assert_eq!(first_marked(narrow, &[0b0001_1111, 0b0011_0000]), at(-5, 6));
    assert_eq!(first_marked(narrow, &[0b0001_1111, 0b0001_1111]), Ok(None));
}

#[test]
fn lineruns_text() {
    let text = |input: &str| String::from_utf8(printed(input.as_bytes())).unwrap();
    let h = "axis x runs 4\n0 0 2\n1 2 4\n2 6 4\n3 10 2\n";
    assert_eq!(text("0 0 11 3"), h);
    assert_eq!(text("-0 000000 000011 3\n"), h);
    assert_eq!(text("0 0 16384 3"), "refused 1\n");
    assert_eq!(text("0 0 5000 5000"), "refused 5\n");
    assert!(text("0 0 4999 4999").starts_with("axis x runs 5000\n"));
    for input in [
        "",
        "\n",
        "0 0 11",
        "0 0 11 3\n\n",
        "0  0 11 3",
        "0 0 11 3 ",
        "0 0 11 0000003",
        "+0 0 11 3",
    ] {
        assert_eq!(text(input), "refused 9\n");
    }
}
