//! The parts of the comparison, one file each.
pub mod bands;
pub mod exchanged;
pub mod hostile;
pub mod largest;
pub mod lines;
pub mod nudged;
pub mod pen;
pub mod reel;
pub mod rows;
pub mod square;
pub mod stored;
pub mod texts;
