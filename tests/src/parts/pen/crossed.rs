//! Every special float as the column with every one as the row, in a report of each kind.
use super::floats::special;
use super::KINDS;
use crate::comparison::Comparison;
use paper::pen::point;

pub fn run(comparison: &mut Comparison) {
    let floats = special();
    for kind in KINDS {
        for column in &floats {
            for row in &floats {
                comparison.pen(kind, point(*column, *row));
            }
        }
    }
}
