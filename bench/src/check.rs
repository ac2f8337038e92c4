//! What is compared before the timing: contestants that do the same work must leave the same bytes.
use crate::byhand;
use crate::byhand::bytes::{fill_masked_runs, fill_masked_runs_counted, fill_runs};
use crate::c::{self, Ends, Window};
use crate::clock::Buffers;
use crate::drawers::DRAWERS;
use crate::lines::FRAME;
use crate::outside::{draw_all, single};
use crate::spans::paint;

fn marked(raster: &[u8]) -> u64 {
    raster.iter().map(|byte| u64::from(byte.count_ones())).sum()
}

/// Every drawer leaves the same raster, and answers the same count for each line. The fresh pixels of all lines, where a drawer
/// counts them, are as many as are marked in the end.
pub fn drawers(lines: &[Ends], buffers: &mut Buffers) {
    let mut first = None;
    for drawer in DRAWERS {
        buffers.raster.fill(0);
        let (counts, fresh): (Vec<u64>, Vec<Option<u64>>) =
            lines.iter().map(|&ends| drawer.draw(ends, buffers)).unzip();
        let drawn = (buffers.raster.clone(), counts);
        let same = first.get_or_insert_with(|| drawn.clone()) == &drawn;
        assert!(same, "{} differs", drawer.name());
        let fresh: Option<u64> = fresh.into_iter().sum();
        let same = fresh.is_none_or(|fresh| fresh == marked(&buffers.raster));
        assert!(same, "{} differs in the fresh pixels", drawer.name());
    }
}

/// Both listers leave the same list for each line.
pub fn lister(lines: &[Ends], buffers: &mut Buffers) {
    for &ends in lines {
        buffers.list.fill(0);
        let library = c::list_runs(ends, &mut buffers.list);
        let list = buffers.list.clone();
        buffers.list.fill(0);
        let by_hand = byhand::list::list_runs(ends, &mut buffers.list);
        assert!(library == by_hand && list == buffers.list, "the listers differ");
    }
}

/// Painting and all ways of memset leave the same raster.
pub fn spans(list: &[i32], buffers: &mut Buffers) {
    buffers.raster.fill(0);
    let library = paint(list, &mut buffers.raster);
    let painted = buffers.raster.clone();
    for fill in [fill_runs, fill_masked_runs] {
        buffers.raster.fill(0);
        let by_hand = fill(list, FRAME, &mut buffers.raster);
        assert!(
            library.count == by_hand && painted == buffers.raster,
            "painter and memset differ"
        );
    }
    buffers.raster.fill(0);
    let counted = fill_masked_runs_counted(list, FRAME, &mut buffers.raster);
    assert!(
        library == counted && painted == buffers.raster,
        "painter and counting memset differ"
    );
}

/// The searches find nothing in an empty frame, and the frame's last pixel where it alone is marked.
pub fn search(buffers: &mut Buffers) {
    buffers.raster.fill(0);
    assert_eq!(places(&buffers.raster), [None; 3], "a search differs");
    let last = buffers.raster.len() - 1;
    buffers.raster[last] = 1;
    assert_eq!(places(&buffers.raster), [Some(last); 3], "a search differs");
}

/// The byte with the first marked pixel, by the library, memchr and by hand; memchr looks for the byte 1.
fn places(raster: &[u8]) -> [Option<usize>; 3] {
    let byte_of = |(column, row): (i32, i32)| row as usize * FRAME.row_bytes() + column as usize / 8;
    [
        c::first_marked(FRAME, raster).map(byte_of),
        c::find_byte(raster, 1),
        byhand::bytes::first_marked_byte(raster),
    ]
}

/// In a small window single step and the hand-written drawer with window tests leave the same raster and count.
pub fn outside(lines: &[Ends], window: Window, buffers: &mut Buffers) {
    buffers.raster.fill(0);
    let library = draw_all(lines, window, &mut buffers.raster, single);
    let drawn = buffers.raster.clone();
    buffers.raster.fill(0);
    let by_hand = draw_all(lines, window, &mut buffers.raster, byhand::draw::draw_tested);
    assert!(
        library == by_hand && drawn == buffers.raster,
        "lines from outside differ"
    );
}
