//! The same work, written by hand in Rust.
pub mod bytes;
pub mod draw;
pub mod line;
pub mod list;
pub mod pen;
pub mod reel;
