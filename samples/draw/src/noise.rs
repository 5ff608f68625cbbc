//! Seeded irregularity. Only sums, products, quotients and square roots are used, so that the
//! same pixels are drawn everywhere.

/// A number from 0 to 1 for each seed and place (splitmix64).
pub fn at(seed: u64, x: i32, y: i32) -> f64 {
    let place = (x as u32 as u64) << 32 | y as u32 as u64;
    let z = place.wrapping_add(seed.wrapping_mul(0x9e3779b97f4a7c15));
    let z = (z ^ z >> 30).wrapping_mul(0xbf58476d1ce4e5b9);
    let z = (z ^ z >> 27).wrapping_mul(0x94d049bb133111eb);
    ((z ^ z >> 31) >> 11) as f64 / (1u64 << 53) as f64
}

/// The same, smooth over patches of so many pixels.
pub fn patches(seed: u64, x: i32, y: i32, size: i32) -> f64 {
    let (left, top) = (x.div_euclid(size), y.div_euclid(size));
    let along = x.rem_euclid(size) as f64 / size as f64;
    let down = y.rem_euclid(size) as f64 / size as f64;
    let row = |y| at(seed, left, y) * (1.0 - along) + at(seed, left + 1, y) * along;
    row(top) * (1.0 - down) + row(top + 1) * down
}
