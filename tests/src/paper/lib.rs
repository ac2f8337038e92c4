//! The operations of documents 01 and 02, written a second time from their definitions: a division a step, no decision number,
//! every pixel tested by itself, all arithmetic in 64 bits. It shares no code with the library that it is compared with.
#![forbid(unsafe_code)]

pub mod draw;
pub mod frame;
pub mod line;
pub mod pen;
pub mod raster;
pub mod reel;
pub mod refusal;
pub mod runs;
pub mod text;

#[cfg(test)]
mod known;
