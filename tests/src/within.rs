//! Whether a coordinate is nearest to a float, halves to the larger, without the second implementation.

/// The float is from half a pixel below the coordinate up to, but without, half a pixel above it. A 64-bit float has every
/// 32-bit float and every half of a coordinate without rounding, so the comparisons are exact.
pub fn within_half(coordinate: i32, float: f32) -> bool {
    let (coordinate, float) = (f64::from(coordinate), f64::from(float));
    coordinate - 0.5 <= float && float < coordinate + 0.5
}
