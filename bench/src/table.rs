//! The printed tables, in Markdown.

/// What is asked of a ratio.
#[derive(Clone, Copy)]
pub enum Asked {
    AtMost(f64),
    AtLeast(f64),
    /// Nothing: the ratio is only shown.
    Shown,
}

impl Asked {
    fn bound(self) -> String {
        match self {
            Asked::AtMost(bound) => format!("at most {bound:.2}"),
            Asked::AtLeast(bound) => format!("at least {bound:.2}"),
            Asked::Shown => String::new(),
        }
    }

    /// Whether the ratio is as asked, and where not by how much it is missed.
    fn verdict(self, ratio: f64) -> String {
        match self {
            Asked::AtMost(bound) if ratio > bound => {
                format!("no, by {:.0} %", 100.0 * (ratio / bound - 1.0))
            }
            Asked::AtLeast(bound) if ratio < bound => {
                format!("no, by {:.0} %", 100.0 * (1.0 - ratio / bound))
            }
            Asked::Shown => String::new(),
            _ => "yes".to_string(),
        }
    }
}

/// A figure of the library beside another one.
pub struct Row {
    pub what: String,
    pub ours: String,
    pub theirs: String,
    pub ratio: f64,
    pub asked: Asked,
}

fn line(cells: &[&str]) -> String {
    format!("| {} |\n", cells.join(" | "))
}

/// A table with `corner` above its first column, and a line for each name with its cells.
pub fn markdown<const N: usize>(corner: &str, heads: &[String; N], lines: &[(String, [String; N])]) -> String {
    let mut text = String::new();
    let row = |name: &str, cells: &[String; N]| {
        let mut all = vec![name];
        all.extend(cells.iter().map(String::as_str));
        line(&all)
    };
    text += &row(corner, heads);
    text += &format!("|---|{}\n", "---|".repeat(N));
    for (name, cells) in lines {
        text += &row(name, cells);
    }
    text
}

/// The table of figures beside others, with what is asked and whether it is met.
pub fn asked(rows: Vec<Row>) -> String {
    let heads = ["library", "beside", "ratio", "asked", "met"].map(String::from);
    let lines: Vec<_> = rows
        .into_iter()
        .map(|row| {
            let ratio = format!("{:.2}", row.ratio);
            let verdict = row.asked.verdict(row.ratio);
            (row.what, [row.ours, row.theirs, ratio, row.asked.bound(), verdict])
        })
        .collect();
    markdown("operation", &heads, &lines)
}
