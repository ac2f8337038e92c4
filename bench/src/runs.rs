//! The run lister beside the same loop by hand.
use crate::byhand;
use crate::byhand::line::Line;
use crate::c::{self, Ends};
use crate::clock::{Clock, Contestant, REPEATS};
use crate::table::{Asked, Row};

/// Lines to be listed, and what they are called.
pub struct Listed<'a> {
    pub name: &'static str,
    pub lines: &'a [Ends],
}

struct Pair {
    name: &'static str,
    runs: u64,
    library: Contestant,
    by_hand: Contestant,
}

pub struct Lister(Vec<Pair>);

impl Lister {
    pub fn enter<'a>(clock: &mut Clock<'a>, all: &[Listed<'a>]) -> Lister {
        let pair = |listed: &Listed<'a>| Pair {
            name: listed.name,
            runs: listed.lines.iter().map(|&ends| Line::of(ends).runs()).sum(),
            library: add(clock, listed.lines, c::list_runs),
            by_hand: add(clock, listed.lines, byhand::list::list_runs),
        };
        Lister(all.iter().map(pair).collect())
    }

    pub fn rows(&self, clock: &Clock) -> Vec<Row> {
        let row = |pair: &Pair| {
            let runs = (REPEATS as u64 * pair.runs) as f64;
            let ours = clock.ns(pair.library) / runs;
            let theirs = clock.ns(pair.by_hand) / runs;
            Row {
                what: format!("lister, {}", pair.name),
                ours: format!("{ours:.2} ns a run"),
                theirs: format!("{theirs:.2}, same loop by hand"),
                ratio: ours / theirs,
                asked: Asked::AtMost(1.2),
            }
        };
        self.0.iter().map(row).collect()
    }
}

/// Lists each line into the start of the same list.
fn add<'a>(clock: &mut Clock<'a>, lines: &'a [Ends], list: impl Fn(Ends, &mut [i32]) -> (u32, u32) + 'a) -> Contestant {
    clock.add_repeated(move |buffers| {
        let runs = |&ends: &Ends| u64::from(list(ends, &mut buffers.list).1);
        lines.iter().map(runs).sum()
    })
}
