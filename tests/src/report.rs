//! How many cases were compared, and which differ.

#[derive(Default)]
pub struct Report {
    pub cases: u64,
    pub differ: u64,
    first: Option<String>,
}

impl Report {
    /// Counts a case; `tell` says it in full and is asked only for the first that differs.
    pub fn case(&mut self, same: bool, tell: impl FnOnce() -> String) {
        self.cases += 1;
        if same {
            return;
        }
        self.differ += 1;
        if self.first.is_none() {
            self.first = Some(tell());
        }
    }

    /// Prints the part's line, with the first case that differs, and begins the next part at 0.
    pub fn close(&mut self, part: &str, seconds: f64) -> (u64, u64) {
        println!(
            "{part}: {} cases, {} differ, {seconds:.1} s",
            self.cases, self.differ
        );
        if let Some(first) = &self.first {
            println!("first that differs:\n{first}");
        }
        let totals = (self.cases, self.differ);
        *self = Report::default();
        totals
    }
}
