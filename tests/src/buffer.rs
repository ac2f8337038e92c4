//! A buffer that is lent to the library, with guards before and after it.
use std::fmt::Debug;

/// A guard's length, in elements: at least the first, and as long as the contents up to the second, so that a write a row
/// too far is seen in a wide raster too.
const GUARD: usize = 64;
const LONGEST_GUARD: usize = 2048;

/// Contents longer than this are not printed whole.
const PRINTED: usize = 4096;

pub struct Lent<T> {
    all: Vec<T>,
    from: usize,
    len: usize,
    guards: [T; 4],
    turn: usize,
}

impl<T: Copy + Debug + PartialEq> Lent<T> {
    /// The guards' values take turns, since a bit that is set where it is 1 already changes nothing.
    pub fn new(guards: [T; 4]) -> Lent<T> {
        Lent {
            all: Vec::new(),
            from: 0,
            len: 0,
            guards,
            turn: 0,
        }
    }

    fn guard(&self) -> T {
        self.guards[self.turn % 4]
    }

    /// A buffer with these contents. Its place in memory varies from turn to turn.
    pub fn lend(&mut self, contents: &[T]) -> &mut [T] {
        self.turn = self.turn.wrapping_add(1);
        let guard = self.guard();
        let edge = GUARD.max(contents.len().min(LONGEST_GUARD));
        self.from = edge + self.turn % 8;
        self.len = contents.len();
        self.all.clear();
        self.all.resize(self.from, guard);
        self.all.extend_from_slice(contents);
        self.all.resize(self.from + self.len + edge, guard);
        self.again()
    }

    /// The buffer as the call before left it.
    pub fn again(&mut self) -> &mut [T] {
        &mut self.all[self.from..self.from + self.len]
    }

    pub fn contents(&self) -> &[T] {
        &self.all[self.from..self.from + self.len]
    }

    fn guards_hold(&self) -> bool {
        let guard = self.guard();
        let same = |part: &[T]| {
            part.iter()
                .fold(true, |all, element| all & (*element == guard))
        };
        same(&self.all[..self.from]) && same(&self.all[self.from + self.len..])
    }

    /// Whether the contents are these and the guards are unaltered.
    pub fn holds(&self, expected: &[T]) -> bool {
        self.contents() == expected && self.guards_hold()
    }

    /// What the buffer was, is, and should be.
    pub fn tell(&self, name: &str, start: &[T], expected: &[T]) -> String {
        let guards = if self.guards_hold() {
            "hold"
        } else {
            "are altered"
        };
        let mut text = format!("  {name} of {}, guards {guards}", self.len);
        let differ = |(is, should): (&T, &T)| is != should;
        match self.contents().iter().zip(expected).position(differ) {
            None => text += ", as expected\n",
            Some(place) => text += &format!(", differs first at place {place}\n"),
        }
        let parts = [
            ("start", start),
            ("now", self.contents()),
            ("expected", expected),
        ];
        for (title, part) in parts {
            let shown = &part[..part.len().min(PRINTED)];
            text += &format!("    {title}: {shown:?}\n");
        }
        text
    }
}
