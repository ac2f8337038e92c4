//! A pen's point rounded in 64-bit floats, where one half more is exact enough for every 32-bit float.

/// The nearest whole number, a half to the larger, where it is a coordinate.
fn rounded(x: f32) -> Option<i32> {
    let nearest = (f64::from(x) + 0.5).floor();
    (-16384.0..=16383.0).contains(&nearest).then_some(nearest as i32)
}

pub fn pixel(column: f32, row: f32) -> Option<(i32, i32)> {
    Some((rounded(column)?, rounded(row)?))
}
