//! Files written out byte by byte from document 02's words, by the second implementation alone.
use super::draw::draw_frame;
use super::read::{find, read, Place, Reel};
use super::write::write;
use crate::draw::Band;
use crate::frame::{ends, window, Window};
use crate::raster::marks;
use crate::refusal::Refusal;

/// No records, no frames.
const EMPTY: [u8; 12] = [0, 0, 0, 0, 0, 0, 0, 0, 77, 82, 75, 83];

/// A frame with the line from (-1, -16384) to (16383, 258).
#[rustfmt::skip]
const ONE: [u8; 24] = [
    255, 255, 0, 192, 255, 63, 2, 1,
    1, 0, 0, 0,
    8, 0, 0, 0, 1, 0, 0, 0, 77, 82, 75, 83,
];

/// Three frames: the lines D and E of document 01, no line, the line from (-3, 0) to (3, 0).
#[rustfmt::skip]
const THREE: [u8; 48] = [
    0, 0, 0, 0, 2, 0, 1, 0,
    2, 0, 1, 0, 0, 0, 0, 0,
    253, 255, 0, 0, 3, 0, 0, 0,
    2, 0, 0, 0, 2, 0, 0, 0, 3, 0, 0, 0,
    24, 0, 0, 0, 3, 0, 0, 0, 77, 82, 75, 83,
];
const THREE_LIST: [i32; 12] = [0, 0, 2, 1, 2, 1, 0, 0, -3, 0, 3, 0];
const THREE_TABLE: [u32; 3] = [2, 2, 3];

/// Where the table's numbers, the position, the number of frames and the letters begin in THREE.
const TABLE: usize = 24;
const POSITION: usize = 36;
const FRAMES: usize = 40;
const LETTERS: usize = 44;

fn refused<T>(number: u32) -> Result<T, Refusal> {
    Err(Refusal { number, place: 0 })
}

fn at(place: u64, len: u64) -> Result<Option<Place>, Refusal> {
    Ok(Some(Place { place, len }))
}

/// THREE with some bytes changed.
fn changed(changes: &[(usize, u8)]) -> [u8; 48] {
    let mut file = THREE;
    for (place, byte) in changes {
        file[*place] = *byte;
    }
    file
}

/// The file that the writer makes in a buffer of this length, which begins as 170 throughout.
fn written(list: &[i32], table: &[u32], room: usize) -> Result<Vec<u8>, Refusal> {
    let mut out = vec![170; room];
    let answer = write(list, table, &mut out);
    if answer.is_err() {
        assert_eq!(out, vec![170; room]);
    }
    answer.map(|()| out)
}

#[test]
fn the_empty_file() {
    let (records, table) = (vec![], vec![]);
    assert_eq!(read(&EMPTY), Ok(Reel { records, table }));
    assert_eq!(find(&EMPTY, 0), Ok(None));
    assert_eq!(find(&EMPTY, u32::MAX), Ok(None));
    assert_eq!(written(&[], &[], 12), Ok(EMPTY.to_vec()));
}

#[test]
fn one_record_with_negative_numbers() {
    let (records, table) = (vec![ends(-1, -16384, 16383, 258)], vec![1]);
    assert_eq!(read(&ONE), Ok(Reel { records, table }));
    assert_eq!(find(&ONE, 0), at(0, 8));
    assert_eq!(find(&ONE, 1), Ok(None));
    let list = [-1, -16384, 16383, 258];
    assert_eq!(written(&list, &[1], 24), Ok(ONE.to_vec()));
}

#[test]
fn three_frames_one_of_them_empty() {
    assert_eq!(find(&THREE, 0), at(0, 16));
    assert_eq!(find(&THREE, 1), at(16, 0));
    assert_eq!(find(&THREE, 2), at(16, 8));
    assert_eq!(find(&THREE, 3), Ok(None));
    let reel = read(&THREE).unwrap();
    let (d, e) = (ends(0, 0, 2, 1), ends(2, 1, 0, 0));
    assert_eq!(reel.records_of(0), Some(&[d, e][..]));
    assert_eq!(reel.records_of(1), Some(&[][..]));
    assert_eq!(reel.records_of(2), Some(&[ends(-3, 0, 3, 0)][..]));
    assert_eq!(reel.records_of(3), None);
    let file = written(&THREE_LIST, &THREE_TABLE, 48);
    assert_eq!(file, Ok(THREE.to_vec()));
}

#[test]
fn numbers_of_two_bytes_have_the_low_one_first() {
    // 258 records in frame 1, none in the others, up to number 257: 258 is 1 x 256 + 2, 8 x 258 is 8 x 256 + 16.
    let mut file = vec![0; 8 * 258];
    file.extend([0, 0, 0, 0]);
    file.extend([2, 1, 0, 0].repeat(257));
    file.extend([16, 8, 0, 0, 2, 1, 0, 0, 77, 82, 75, 83]);
    assert_eq!(find(&file, 0), at(0, 0));
    assert_eq!(find(&file, 1), at(0, 2064));
    assert_eq!(find(&file, 257), at(2064, 0));
    assert_eq!(find(&file, 258), Ok(None));
    let mut table = vec![258; 258];
    table[0] = 0;
    assert_eq!(written(&[0; 1032], &table, 3108), Ok(file));
}

#[test]
fn ten_is_short_long_or_without_letters() {
    assert_eq!(find(&[], 0), refused(10));
    assert_eq!(find(&EMPTY[1..], 0), refused(10));
    assert_eq!(find(&changed(&[(LETTERS, 109)]), 0), refused(10));
    assert_eq!(find(&changed(&[(LETTERS + 3, 0)]), 0), refused(10));
    // 8190 records and a frame are 65536 bytes; with a second frame they are 65540.
    let mut file = vec![0; 65_520];
    file.extend([254, 31, 0, 0, 240, 255, 0, 0, 1, 0, 0, 0, 77, 82, 75, 83]);
    assert_eq!(find(&file, 0), at(0, 65_520));
    file.splice(65_520..65_520, [0; 4]);
    file[65_532] = 2;
    assert_eq!(find(&file, 0), refused(10));
    // 16381 frames without a record are 65536 bytes.
    let mut file = vec![0; 65_524];
    file.extend([0, 0, 0, 0, 253, 63, 0, 0, 77, 82, 75, 83]);
    assert_eq!(find(&file, 16_380), at(0, 0));
    assert_eq!(find(&file, 16_381), Ok(None));
}

#[test]
fn eleven_is_a_table_that_does_not_fit() {
    let eleven = |changes: &[(usize, u8)]| assert_eq!(find(&changed(changes), 9), refused(11));
    // The table 2 3 2 or 3 2 3 falls, 2 2 4 and 2 2 2 have another last number.
    eleven(&[(TABLE + 4, 3), (TABLE + 8, 2)]);
    eleven(&[(TABLE, 3)]);
    eleven(&[(TABLE + 8, 4)]);
    eleven(&[(TABLE + 8, 2)]);
    // 8 x 0x20000003 and 8 x 3 differ by 2^32.
    eleven(&[(TABLE + 11, 0x20)]);
    eleven(&[(POSITION, 23)]);
    eleven(&[(POSITION, 25)]);
    eleven(&[(POSITION, 32)]);
    eleven(&[(FRAMES, 2)]);
    eleven(&[(FRAMES, 4)]);
    // 4 x 0x40000003 and 4 x 3 differ by 2^32.
    eleven(&[(FRAMES + 3, 0x40)]);
    // Position and number of frames give the length, eight times the last table number isn't the position.
    eleven(&[(POSITION, 28), (FRAMES, 2)]);
    eleven(&[(POSITION, 20), (FRAMES, 4)]);
    // Without frames the records are none.
    eleven(&[(POSITION, 36), (FRAMES, 0)]);
    assert_eq!(find(&[&[0][..], &EMPTY].concat(), 0), refused(11));
}

#[test]
fn twelve_is_any_record_out_of_range() {
    // 16384, -16385, 32767, -32768; each in another place, all of other frames than those asked.
    for bytes in [[0, 64], [255, 191], [255, 127], [0, 128]] {
        for place in [0, 6, 10, 22] {
            let file = changed(&[(place, bytes[0]), (place + 1, bytes[1])]);
            assert_eq!(find(&file, 1), refused(12));
            assert_eq!(find(&file, 3), refused(12));
        }
    }
    // 16383, -16384.
    for bytes in [[255, 63], [0, 192]] {
        let file = changed(&[(22, bytes[0]), (23, bytes[1])]);
        assert_eq!(find(&file, 2), at(16, 8));
    }
}

#[test]
fn readers_refusals_come_in_the_order_of_their_numbers() {
    let (letters, falling, record) = ((LETTERS, 109), (TABLE, 3), (1, 64));
    assert_eq!(find(&changed(&[letters, falling, record]), 0), refused(10));
    assert_eq!(find(&changed(&[letters, record]), 0), refused(10));
    assert_eq!(find(&changed(&[falling, record]), 0), refused(11));
    assert_eq!(find(&changed(&[record]), 0), refused(12));
}

#[test]
fn writers_refusals() {
    let list = |len| vec![0; len];
    // 2 x 32763 + 12 is 65538, 2 x 32762 + 12 is 65536.
    assert_eq!(written(&list(32_763), &[], 12), refused(10));
    assert_eq!(written(&list(32_762), &[], 65_536), refused(11));
    assert_eq!(written(&list(32_760), &[8190, 8190], 65_536), refused(10));
    assert!(written(&list(32_760), &[8190], 65_536).is_ok());
    assert_eq!(written(&[], &[0; 16_382], 65_540), refused(10));
    assert!(written(&[], &[0; 16_381], 65_536).is_ok());
    let three = |table: &[u32], room| written(&THREE_LIST, table, room);
    assert_eq!(three(&[3, 2, 3], 48), refused(11));
    assert_eq!(three(&[2, 3, 2], 48), refused(11));
    assert_eq!(three(&[2, 2, 4], 48), refused(11));
    // 4 x 0x40000003 and 4 x 3 differ by 2^32.
    assert_eq!(three(&[2, 2, 0x4000_0003], 48), refused(11));
    assert_eq!(three(&[], 36), refused(11));
    assert_eq!(three(&THREE_TABLE, 47), refused(11));
    assert_eq!(three(&THREE_TABLE, 49), refused(11));
    assert_eq!(three(&THREE_TABLE, 0), refused(11));
    assert_eq!(written(&[0; 5], &[1], 26), refused(11));
}

#[test]
fn writers_numbers() {
    let one = |number| written(&[0, 0, 0, number], &[1], 24);
    for number in [i32::MIN, -65536, -16385, 16384, 65535, 65536, i32::MAX] {
        assert_eq!(one(number), refused(12));
        assert_eq!(written(&[0, 0, 0, number], &[1], 23), refused(11));
    }
    let last = |number| one(number).map(|file| [file[6], file[7]]);
    assert_eq!(last(-16384), Ok([0, 192]));
    assert_eq!(last(-1), Ok([255, 255]));
    assert_eq!(last(255), Ok([255, 0]));
    assert_eq!(last(16383), Ok([255, 63]));
}

const FRAME: Window = window(0, 0, 3, 2);
const WHOLE: Band = Band { first: 0, rows: 2 };

#[test]
fn overlapping_lines_count_each_time_and_are_new_once() {
    // D and E both have (0, 0), (1, 1) and (2, 1).
    let mut raster = [0; 2];
    let answer = draw_frame(&THREE, 0, FRAME, WHOLE, &mut raster);
    assert_eq!((answer, raster), (Ok(Some(marks(6, 3))), [128, 96]));
    // Row 1 alone, with (1, 1) and the padding marked before.
    let mut raster = [0, 95];
    let band = Band { first: 1, rows: 1 };
    let answer = draw_frame(&THREE, 0, FRAME, band, &mut raster);
    assert_eq!((answer, raster), (Ok(Some(marks(4, 1))), [0, 127]));
    // The second line from (2, 1) to (0, 1) has (2, 1), (1, 1), (0, 1).
    let mut raster = [0; 2];
    let answer = draw_frame(&changed(&[(14, 1)]), 0, FRAME, WHOLE, &mut raster);
    assert_eq!((answer, raster), (Ok(Some(marks(6, 4))), [128, 224]));
}

#[test]
fn an_empty_frame_is_found_and_none_is_not() {
    let mut raster = [0; 2];
    let mut draw = |frame| draw_frame(&THREE, frame, FRAME, WHOLE, &mut raster);
    assert_eq!(draw(1), Ok(Some(marks(0, 0))));
    assert_eq!(draw(3), Ok(None));
    assert_eq!(draw(2), Ok(Some(marks(3, 3))));
    assert_eq!(raster, [224, 0]);
}

#[test]
fn drawings_refusals_come_in_the_order_of_their_numbers() {
    let (wide, far) = (window(i32::MAX, 0, 8193, 1), window(16383, 0, 2, 1));
    let none = Band { first: 0, rows: 0 };
    let (letters, falling, record) = ((LETTERS, 109), (TABLE, 3), (1, 64));
    let ten = changed(&[letters, falling, record]);
    let draw = |file: &[u8], window, band, len| {
        let mut raster = vec![90; len];
        let answer = draw_frame(file, 3, window, band, &mut raster);
        assert_eq!(raster, vec![90; len]);
        answer
    };
    assert_eq!(draw(&ten, wide, none, 1), refused(2));
    assert_eq!(draw(&ten, far, none, 0), refused(3));
    assert_eq!(draw(&ten, FRAME, none, 1), refused(4));
    assert_eq!(draw(&ten, FRAME, none, 2), refused(6));
    assert_eq!(draw(&ten, FRAME, WHOLE, 2), refused(10));
    let eleven = changed(&[falling, record]);
    assert_eq!(draw(&eleven, FRAME, WHOLE, 2), refused(11));
    assert_eq!(draw(&changed(&[record]), FRAME, WHOLE, 2), refused(12));
    assert_eq!(draw(&THREE, FRAME, WHOLE, 2), Ok(None));
}
