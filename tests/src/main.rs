//! Compares every function of the library's C interface with a second implementation, written from the definitions of
//! documents 01 and 02. A seed can be given as the argument. Prints a line for each part, with the first case that differs in
//! full, and last how many cases there are and how many differ; ends in 1 where one does. With the argument `every-float` it
//! tries instead, for some minutes, every float as the pen's column and every float as its row.
#![deny(unsafe_code)]

mod added;
mod answers;
mod buffer;
mod c;
mod comparison;
mod differing;
mod make;
mod parts;
mod random;
mod report;
mod steps;
mod within;

use comparison::Comparison;
use random::Random;
use std::process::ExitCode;
use std::time::Instant;

const SEED: u64 = 1;

type Run = fn(&mut Comparison, &mut Random);

const PARTS: [(&str, Run); 18] = [
    ("all lines of a small square", parts::square::run),
    ("random lines", parts::lines::run),
    ("nudged ends", parts::nudged::run),
    ("exchanged ends", parts::exchanged::run),
    ("hostile windows and rasters", parts::hostile::windows::run),
    ("hostile ends", parts::hostile::ends::run),
    ("hostile bands", parts::hostile::bands::run),
    ("hostile run lists", parts::hostile::lists::run),
    ("hostile and lawful mixed", parts::hostile::mixed::run),
    ("largest frames", parts::largest::run),
    ("lists of bands", parts::bands::run),
    ("random run lists", parts::stored::run),
    ("rows and search", parts::rows::run),
    ("lineruns", parts::texts::run),
    ("reel files", parts::reel::files::run),
    ("reel writing", parts::reel::writing::run),
    ("reel drawing", parts::reel::drawing::run),
    ("pen reports", parts::pen::run),
];

/// In place of the parts, where the argument is `every-float`.
const EVERY_FLOAT: [(&str, Run); 2] = [
    ("every float as column", parts::pen::every_float::as_column),
    ("every float as row", parts::pen::every_float::as_row),
];

fn main() -> ExitCode {
    let (chosen, seed) = match std::env::args().nth(1).as_deref() {
        Some("every-float") => (&EVERY_FLOAT[..], SEED),
        Some(text) => (&PARTS[..], text.parse().expect("the seed is a number")),
        None => (&PARTS[..], SEED),
    };
    println!("seed {seed}");
    let mut comparison = Comparison::new();
    let (mut cases, mut differ) = (0, 0);
    for (name, run) in chosen {
        let begun = Instant::now();
        // Each part has its own sequence, so that a part's numbers can be changed without changing the others' cases.
        run(&mut comparison, &mut Random::new(seed));
        let (more, wrong) = comparison.report.close(name, begun.elapsed().as_secs_f64());
        cases += more;
        differ += wrong;
    }
    println!("{cases} cases, {differ} differ");
    ExitCode::from(u8::from(differ > 0))
}
