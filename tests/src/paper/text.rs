//! Document 01, 'Operations': what the program `lineruns` prints for its input.
use crate::frame::{ends_out, Ends};
use crate::line::{Axis, Line};
use crate::refusal::{first_met, Refusal};
use crate::runs::runs;

const LONGEST_INPUT: usize = 64;
const MOST_RUNS: i64 = 5000;

/// An optional minus and 1 to 6 digits.
fn number(word: &[u8]) -> Option<i32> {
    let (sign, digits) = match word.strip_prefix(b"-") {
        Some(digits) => (-1, digits),
        None => (1, word),
    };
    let lawful = (1..=6).contains(&digits.len()) && digits.iter().all(u8::is_ascii_digit);
    let value = |digits: &[u8]| {
        digits
            .iter()
            .fold(0, |n, digit| 10 * n + i32::from(digit - b'0'))
    };
    lawful.then(|| sign * value(digits))
}

/// One line: four numbers, single blanks between, ended by a newline or the end of input; none where 9 is met.
fn ends_of(input: &[u8]) -> Option<Ends> {
    if input.len() > LONGEST_INPUT {
        return None;
    }
    let line = input.strip_suffix(b"\n").unwrap_or(input);
    let numbers: Option<Vec<i32>> = line.split(|byte| *byte == b' ').map(number).collect();
    match numbers?[..] {
        [x0, y0, x1, y1] => Some(Ends { x0, y0, x1, y1 }),
        _ => None,
    }
}

/// The list's lines, or the refusal.
fn list_of(input: &[u8]) -> Result<String, Refusal> {
    let nine = Refusal {
        number: 9,
        place: 0,
    };
    let ends = ends_of(input).ok_or(nine)?;
    first_met(&[(1, ends_out(ends))])?;
    let line = Line::new(ends);
    first_met(&[(5, line.short + 1 > MOST_RUNS)])?;
    let runs = runs(&line);
    let axis = match line.axis {
        Axis::X => 'x',
        Axis::Y => 'y',
    };
    let mut text = format!("axis {axis} runs {}\n", runs.len());
    for run in runs {
        text += &format!("{} {} {}\n", run.short, run.lowest, run.pixels);
    }
    Ok(text)
}

/// The list, or one line with `refused`, a blank and the number.
pub fn printed(input: &[u8]) -> Vec<u8> {
    list_of(input)
        .unwrap_or_else(|refusal| format!("refused {}\n", refusal.number))
        .into_bytes()
}
