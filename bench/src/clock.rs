//! Times contestants side by side: in each round every contestant runs once, and the best round of each counts.
use std::hint::black_box;
use std::time::Instant;

/// How often a contestant with little to do does it in a round.
pub const REPEATS: usize = 16;

/// What the contestants write, the same for all of them.
pub struct Buffers {
    pub raster: Vec<u8>,
    pub list: Vec<i32>,
}

/// What a contestant does; it answers a number made of its results, so that the compiler cannot leave its work out.
type Run<'a> = Box<dyn Fn(&mut Buffers) -> u64 + 'a>;

/// A contestant's number.
#[derive(Clone, Copy)]
pub struct Contestant(usize);

#[derive(Default)]
pub struct Clock<'a> {
    runs: Vec<Run<'a>>,
    best: Vec<f64>,
}

impl<'a> Clock<'a> {
    pub fn add(&mut self, run: impl Fn(&mut Buffers) -> u64 + 'a) -> Contestant {
        self.runs.push(Box::new(run));
        self.best.push(f64::INFINITY);
        Contestant(self.runs.len() - 1)
    }

    pub fn add_repeated(&mut self, run: impl Fn(&mut Buffers) -> u64 + 'a) -> Contestant {
        self.add(move |buffers| (0..REPEATS).map(|_| run(black_box(&mut *buffers))).sum())
    }

    /// Runs all contestants `rounds` times. The raster is cleared before each, outside the time.
    pub fn run(&mut self, rounds: usize, buffers: &mut Buffers) {
        for _ in 0..rounds {
            for (run, best) in self.runs.iter().zip(&mut self.best) {
                buffers.raster.fill(0);
                let start = Instant::now();
                black_box(run(black_box(&mut *buffers)));
                *best = best.min(start.elapsed().as_nanos() as f64);
            }
        }
    }

    /// The best round's time.
    pub fn ns(&self, contestant: Contestant) -> f64 {
        self.best[contestant.0]
    }
}
