//! Counts, lists and runs at and beyond every limit, for the run painter.
use crate::comparison::{Comparison, Stored};
use crate::make::raster;
use crate::random::Random;
use paper::frame::{window, Window};

const AXES: [u32; 6] = [0, 1, 7, 256, 0x8000_0000, u32::MAX];
const COUNTS: [u32; 12] = [
    0,
    1,
    2,
    3,
    4,
    0x5555_5555,
    0x5555_5556,
    0x7FFF_FFFF,
    0x8000_0000,
    0xAAAA_AAAA,
    0xAAAA_AAAB,
    u32::MAX,
];
const PLACES: [i32; 10] = [
    i32::MIN,
    -32768,
    -16385,
    -16384,
    -1,
    0,
    1,
    16383,
    16384,
    i32::MAX,
];
const PIXELS: [i32; 14] = [
    i32::MIN,
    -32768,
    -1,
    0,
    1,
    2,
    16383,
    16384,
    16385,
    32767,
    32768,
    32769,
    i32::MAX - 16383,
    i32::MAX,
];

/// The last one is refused itself.
const WINDOWS: [Window; 4] = [
    window(-3, -2, 13, 4),
    window(16373, 16380, 11, 4),
    window(-16384, -16384, 9, 5),
    window(0, 0, 8, 0),
];

const RANDOM_LISTS: u32 = 400_000;

/// All runs of hostile numbers, alone and as the first, the middle and the last of three.
fn single_runs(comparison: &mut Comparison, random: &mut Random) {
    for short in PLACES {
        for lowest in PLACES {
            for pixels in PIXELS {
                let list = [short, lowest, pixels, 0, 0, 2, 1, 1, 3];
                let (axis, window) = (random.pick(&AXES), random.pick(&WINDOWS));
                let start = raster(random, window);
                for turn in [0, 3, 6] {
                    let mut list = list;
                    list.rotate_right(turn);
                    let stored = Stored {
                        axis,
                        count: 3,
                        list: &list,
                    };
                    comparison.paint(stored, window, &start);
                    comparison.paint(Stored { count: 1, ..stored }, window, &start);
                }
            }
        }
    }
}

/// All counts with lists of all lengths around them; the numbers after the counted runs are hostile.
fn counts(comparison: &mut Comparison, random: &mut Random) {
    for count in COUNTS {
        for len in 0..=14 {
            for lawful in 0..=4 {
                let mut list = vec![0, 2, 3, 1, 1, 1, -1, -16384, 32768, 0, 0, 1];
                list.truncate(3 * lawful);
                list.resize(len, i32::MIN);
                let window = random.pick(&WINDOWS);
                let start = raster(random, window);
                for axis in AXES {
                    let stored = Stored {
                        axis,
                        count,
                        list: &list,
                    };
                    comparison.paint(stored, window, &start);
                }
            }
        }
    }
}

/// Lists of a few runs whose numbers are lawful or hostile each by itself.
fn mixed(comparison: &mut Comparison, random: &mut Random) {
    let runs = random.below(6);
    let mut list = Vec::new();
    for _ in 0..runs {
        let hostile = random.one_in(6);
        list.push(if hostile {
            random.pick(&PLACES)
        } else {
            random.between(-4, 4)
        });
        list.push(if hostile {
            random.pick(&PLACES)
        } else {
            random.between(-20, 20)
        });
        list.push(if hostile {
            random.pick(&PIXELS)
        } else {
            random.between(1, 30)
        });
    }
    list.resize(list.len() + random.below(4) as usize, i32::MAX);
    let count = if random.one_in(6) {
        random.pick(&COUNTS)
    } else {
        runs
    };
    let window = random.pick(&WINDOWS);
    let mut start = raster(random, window);
    if random.one_in(8) {
        start.push(0);
    }
    let stored = Stored {
        axis: random.pick(&AXES),
        count,
        list: &list,
    };
    comparison.paint(stored, window, &start);
}

pub fn run(comparison: &mut Comparison, random: &mut Random) {
    single_runs(comparison, random);
    counts(comparison, random);
    for _ in 0..RANDOM_LISTS {
        mixed(comparison, random);
    }
}
