//! Measures the library beside hand-written Rust and libc, and prints the tables that docs/BENCHMARK.md keeps.
mod byhand;
mod c;
mod check;
mod clock;
mod commit;
mod drawers;
mod lines;
mod outside;
mod pen;
mod reel;
mod runs;
mod search;
mod spans;
mod table;

use c::{Ends, Window};
use clock::{Buffers, Clock, REPEATS};
use drawers::Drawers;
use lines::{Kind, FAR, FRAME, KINDS, LEAN, LINES};
use outside::{Outside, LARGE, SMALL};
use pen::Pen;
use reel::{Marked, Reel};
use runs::{Listed, Lister};
use search::Search;
use spans::{Spans, LENGTHS};

const ROUNDS: usize = 40;

/// Numbers of the list: room for every line's runs.
const LIST: usize = 3 * 4096;

/// All that is drawn, listed and painted.
struct Work {
    in_frame: [Vec<Ends>; KINDS.len()],
    short: Vec<Ends>,
    from_outside: [Vec<Ends>; KINDS.len()],
    spans: [Vec<i32>; LENGTHS.len()],
    longest: Marked,
    frame: Marked,
    points: Vec<(f32, f32)>,
}

impl Work {
    fn new() -> Work {
        let in_frame = KINDS.map(lines::in_frame);
        let any = &in_frame[Kind::AnyDirection as usize];
        Work {
            longest: Marked::longest(any),
            frame: Marked::frame(any),
            in_frame,
            short: lines::short(),
            from_outside: KINDS.map(lines::from_outside),
            spans: LENGTHS.map(lines::spans),
            points: pen::points(),
        }
    }

    /// The lines that the listers list.
    fn listed(&self) -> Vec<Listed<'_>> {
        let mut all = vec![Listed {
            name: "lines within 64 pixels",
            lines: &self.short,
        }];
        all.extend(KINDS.map(|kind| Listed {
            name: kind.name(),
            lines: &self.in_frame[kind as usize],
        }));
        all
    }

    /// The lines of the frame that is drawn from its file.
    fn marked(&self) -> &[Ends] {
        &self.in_frame[Kind::AnyDirection as usize]
    }

    fn check(&self, buffers: &mut Buffers) {
        for lines in &self.in_frame {
            check::drawers(lines, buffers);
        }
        for listed in self.listed() {
            check::lister(listed.lines, buffers);
        }
        for list in &self.spans {
            check::spans(list, buffers);
        }
        check::search(buffers);
        self.frame.check(self.marked(), buffers);
        pen::check(&self.points);
        for lines in &self.from_outside {
            check::outside(lines, SMALL, buffers);
            check::outside(lines, LARGE, buffers);
        }
    }
}

fn print_head() {
    let Window { width, height, .. } = FRAME;
    println!(
        "Commit {commit}.

Frame {width} × {height}, {LINES} lines of a kind. Near-vertical and near-horizontal lines go a quarter of the frame's
side or further along it, and at most {LEAN} pixels across. Best of {ROUNDS} rounds; in each round every contestant runs once,
one after the other. All write the same raster, which is cleared before each, outside the time, so caches are warm. The
list is not cleared. Listers, painters of runs, searches, small windows, a reel's file and the pen do their work {REPEATS}
times in a round, with no clearing between. The hand-written drawers index the raster untested. Every drawer and painter of the
library counts the fresh pixels, those that were unmarked; what stands beside it does so where that is said.

Checked before the timing: contestants with the same work leave equal bytes and answer equal counts. These are the
drawers and bands in the frame, the listers, painter and memset, the searches, what is found, written and drawn of a reel's
file, the pens, and single step and hand-written drawer on lines from outside.
",
        commit = commit::name()
    );
}

fn print_tables(clock: &Clock, drawers: &Drawers, outside: &Outside) {
    println!("Lines in the frame; in parentheses, times the first row's:\n");
    println!("{}", drawers.frame_table(clock));
    println!("Lines by bands, a call for every band of the frame; in parentheses, times the whole frame's:\n");
    println!("{}", drawers.band_table(clock));
    println!(
        "A call for a band of 16 rows costs, beyond its pixels, in ns: {}.\n",
        drawers.band_call(clock)
    );
    let (small, large) = (SMALL.width, LARGE.width);
    println!("Lines through the middle of a window of {large} × {large}, both ends {FAR} pixels or further from it. What they cost");
    println!("beyond their visible pixels comes from this window and one of {small} × {small}:\n");
    println!("{}", outside.table(clock));
}

fn main() {
    let work = Work::new();
    let mut buffers = Buffers {
        raster: vec![0; FRAME.raster_bytes()],
        list: vec![0; LIST],
    };
    work.check(&mut buffers);

    let mut clock = Clock::default();
    let drawers = Drawers::enter(&mut clock, &work.in_frame);
    let lister = Lister::enter(&mut clock, &work.listed());
    let spans = Spans::enter(&mut clock, &work.spans);
    let search = Search::enter(&mut clock);
    let reel = Reel::enter(&mut clock, &work.longest, &work.frame, work.marked());
    let pen = Pen::enter(&mut clock, &work.points);
    let outside = Outside::enter(&mut clock, &work.from_outside, &mut buffers.raster);
    clock.run(ROUNDS, &mut buffers);

    print_head();
    print_tables(&clock, &drawers, &outside);
    let mut rows = drawers.rows(&clock);
    rows.extend(lister.rows(&clock));
    rows.extend(spans.rows(&clock));
    rows.extend(search.rows(&clock));
    rows.extend(reel.rows(&clock));
    rows.extend(pen.rows(&clock));
    print!("What is asked:\n\n{}", table::asked(rows));
}
