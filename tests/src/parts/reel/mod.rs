//! The file of a reel's marks: reading it, writing it, drawing a frame straight from it.
pub mod drawing;
pub mod files;
pub mod writing;

mod fields;
