//! What `lineruns` prints: lawful lines, lines with some bytes changed, and the edges of what it reads.
use crate::comparison::{Comparison, LEAST_ROOM};
use crate::make::coordinate;
use crate::random::Random;

const TEXTS: u32 = 400_000;
const LONG_LINES: u32 = 2_000;
const LONGEST_INPUT: u32 = 70;

/// The bytes that a change puts in.
const BYTES: &[u8] = b"0123456789--  \n\n\r\t+.,x\0\x1f/:\xff";

const EDGES: [&str; 40] = [
    "",
    "\n",
    " ",
    "-",
    "0",
    "0 0 11 3",
    "0 0 11 3\n",
    "0 0 11 3\n\n",
    "0 0 11 3\r\n",
    "0 0 11 3 ",
    "0 0 11 3 \n",
    " 0 0 11 3",
    "0  0 11 3",
    "0\t0 11 3",
    "0 0 11",
    "0 0 11 3 5",
    "0 0 11 3\n5",
    "-0 -000000 11 3",
    "--1 0 11 3",
    "+1 0 11 3",
    "- 1 0 11 3",
    "000011 0 0 0",
    "0000011 0 0 0",
    "-000011 0 0 0",
    "-0000011 0 0 0",
    "0 0 16383 3",
    "0 0 16384 3",
    "-16384 0 0 3",
    "-16385 0 0 3",
    "999999 -999999 0 0",
    "1000000 0 0 0",
    "0 0 4999 4999",
    "0 0 5000 5000",
    "0 0 16383 5000",
    "16384 0 -16384 16383",
    "-11384 -11384 -16384 -16384",
    "-16384 -16384 -11385 16383",
    "-16384 -11385 16383 -16384",
    "0 0 11 3\0",
    "0 0 1 -",
];

/// A number as text, with leading zeros where 6 digits leave room; few are out of range.
fn number(random: &mut Random, near: bool) -> String {
    let value = match random.below(24) {
        0 => random.pick(&[16384, -16385, 999_999, -999_999, 1_000_000]),
        _ if near => random.between(-99, 99),
        _ => coordinate(random),
    };
    let sign = if value < 0 || random.one_in(24) {
        "-"
    } else {
        ""
    };
    let digits = 1 + random.below(6) as usize;
    format!("{sign}{:0digits$}", value.unsigned_abs())
}

fn line(random: &mut Random, near: bool) -> Vec<u8> {
    let numbers: Vec<String> = (0..4).map(|_| number(random, near)).collect();
    let end = random.pick(&["", "\n"]);
    (numbers.join(" ") + end).into_bytes()
}

/// One byte put in, taken out or replaced.
fn change(random: &mut Random, text: &mut Vec<u8>) {
    let byte = random.pick(BYTES);
    let place = random.below(text.len() as u32 + 1) as usize;
    match random.below(3) {
        0 => text.insert(place, byte),
        1 if place < text.len() => drop(text.remove(place)),
        _ if place < text.len() => text[place] = byte,
        _ => text.push(byte),
    }
}

fn text(random: &mut Random) -> Vec<u8> {
    let mut text = line(random, true);
    match random.below(8) {
        0..=2 => (),
        3..=6 => {
            for _ in 0..=random.below(3) {
                change(random, &mut text);
            }
        }
        _ => {
            let len = random.below(LONGEST_INPUT + 1) as usize;
            text.resize_with(len, || random.pick(BYTES));
        }
    }
    text
}

/// The edges, each with rooms around the least one; inputs around 64 bytes, and very long ones.
fn edges(comparison: &mut Comparison, output: &[u8]) {
    let mut longer = output.to_vec();
    longer.extend_from_slice(&[1, 2, 3, 4, 5]);
    let rooms = [
        &output[..0],
        &output[..100],
        &output[..LEAST_ROOM - 1],
        output,
        &longer,
    ];
    for edge in EDGES {
        for room in rooms {
            comparison.text(edge.as_bytes(), room);
        }
    }
    for len in [62, 63, 64, 65, 66, 70, 4096, 1 << 20] {
        for byte in [b'0', b' ', b'\n', b'1', b'-', 0] {
            let mut input = b"0 0 11 3".to_vec();
            input.resize(len, byte);
            comparison.text(&input, output);
            comparison.text(&vec![byte; len], output);
        }
    }
}

/// Lines of just under and just over 5000 runs, in all directions from a corner or the middle.
fn around_most_runs(comparison: &mut Comparison, output: &[u8]) {
    for short in 4998..=5001 {
        for long in [short, short + 1, 2 * short, 16383] {
            for (x, y) in [(long, short), (short, long)] {
                for text in [
                    format!("0 0 {x} {y}"),
                    format!("0 0 -{x} {y}"),
                    format!("0 0 {x} -{y}\n"),
                    format!("-16384 -16384 {} {}", x - 16384, y - 16384),
                    format!("{} {} -16384 -16384\n", x - 16384, y - 16384),
                ] {
                    comparison.text(text.as_bytes(), output);
                }
            }
        }
    }
}

pub fn run(comparison: &mut Comparison, random: &mut Random) {
    let mut output = vec![0; LEAST_ROOM];
    random.fill(&mut output);
    edges(comparison, &output);
    around_most_runs(comparison, &output);
    for _ in 0..TEXTS {
        comparison.text(&text(random), &output);
    }
    for _ in 0..LONG_LINES {
        comparison.text(&line(random, false), &output);
    }
}
