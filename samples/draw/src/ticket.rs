//! A ticket stamped by hand: the machine stood askew and pressed harder on its right side, so
//! lines rise, and strokes are thin at the left edge. Its wheels are a little out of line.

use crate::digits::{Point, DIGITS};
use crate::noise;
use crate::Image;

const WIDTH: u8 = 255;
/// A digit's box and the way from one digit to the next, in pixels.
const DIGIT: (f64, f64) = (38.0, 56.0);
const PITCH: f64 = 66.0;
/// How far a line rises for each pixel to the right.
const RISE: f64 = 0.1;
/// Half a stroke's thickness: at the left edge, its growth for each pixel to the right, and
/// its limit.
const THIN: f64 = 0.85;
const GROWTH: f64 = 0.018;
const THICK: f64 = 3.4;

/// A ticket of so many rows, with one line or more of digits from the left edge. The last
/// digit of the first line reaches the top edge, the first of the last line the bottom edge.
pub fn ticket(height: u8, lines: &[&str], seed: u64) -> Image {
    let bottom = height as f64 - 1.0 - DIGIT.1 + RISE * DIGIT.0 / 2.0;
    let line_pitch = height as f64 / lines.len() as f64;
    let mut segments = Vec::new();
    for (i, line) in lines.iter().enumerate() {
        for (j, digit) in line.bytes().enumerate() {
            let left = j as f64 * PITCH;
            let top = bottom - (lines.len() - 1 - i) as f64 * line_pitch;
            let top = match j {
                0 => top,
                _ if i == 0 && j == line.len() - 1 => RISE * left + 3.0,
                _ => top + 3.0 * noise::at(seed, i as i32, j as i32) - 1.5,
            };
            segments.extend(stamp(digit, left, top));
        }
    }
    Image::collect(WIDTH, height, |x, y| inked(&segments, x, y, seed))
}

/// The segments of a digit whose box begins at (left, top), before the rise.
fn stamp(digit: u8, left: f64, top: f64) -> Vec<[Point; 2]> {
    let place = |(x, y): Point| {
        let x = left + x * DIGIT.0;
        (x, top + y * DIGIT.1 - RISE * x)
    };
    let strokes = DIGITS[(digit - b'0') as usize].iter();
    let segments = strokes.flat_map(|stroke| {
        let points: Vec<Point> = stroke.points().into_iter().map(place).collect();
        let pairs = points.windows(2).map(|ends| [ends[0], ends[1]]);
        pairs.collect::<Vec<_>>()
    });
    segments.collect()
}

/// Whether the stamp left ink on a pixel: near enough to a segment, with frayed edges, a few
/// pinholes in thick strokes and a few specks beside them.
fn inked(segments: &[[Point; 2]], x: i32, y: i32, seed: u64) -> bool {
    let pixel = (x as f64, y as f64);
    let distances = segments.iter().map(|segment| distance(*segment, pixel));
    let away = distances.fold(f64::MAX, f64::min);
    let pressed = (THIN + GROWTH * pixel.0).min(THICK);
    let frayed = 0.8 + 0.3 * noise::patches(seed, x, y, 4) + 0.2 * noise::at(seed + 1, x, y);
    let half = pressed * frayed;
    let rare = noise::at(seed + 2, x, y);
    if away <= half {
        half < 2.0 || rare > 0.012
    } else {
        away < half + 5.0 && rare > 0.996
    }
}

/// The distance of a point from a segment.
fn distance([a, b]: [Point; 2], p: Point) -> f64 {
    let (along, to) = ((b.0 - a.0, b.1 - a.1), (p.0 - a.0, p.1 - a.1));
    let square = along.0 * along.0 + along.1 * along.1;
    // The nearest point of the segment, as a share of the way from a to b.
    let share = ((to.0 * along.0 + to.1 * along.1) / square).clamp(0.0, 1.0);
    let (dx, dy) = (to.0 - along.0 * share, to.1 - along.1 * share);
    (dx * dx + dy * dy).sqrt()
}

#[cfg(test)]
mod tests {
    use super::*;

    /// The foreground points at the left, top and bottom edge.
    fn at_edges(image: &Image, height: usize) -> [usize; 3] {
        let along =
            |places: usize, on: &dyn Fn(usize) -> bool| (0..places).filter(|&i| on(i)).count();
        [
            along(height, &|y| image.has(0, y)),
            along(WIDTH as usize, &|x| image.has(x, 0)),
            along(WIDTH as usize, &|x| image.has(x, height - 1)),
        ]
    }

    #[test]
    fn digits_touch_the_edges() {
        for (height, lines) in [
            (80, vec!["0417"]),
            (80, vec!["417"]),
            (255, vec!["0417", "417"]),
        ] {
            for seed in 0..9 {
                let edges = at_edges(&ticket(height, &lines, seed), height as usize);
                assert!(edges.iter().all(|&points| points >= 2), "{edges:?}");
            }
        }
    }

    #[test]
    fn leading_zero_is_thin_at_the_edge() {
        let image = ticket(80, &["0417"], 1);
        for y in 40..66 {
            let width = (0..10).take_while(|&x| image.has(x, y)).count();
            assert!((1..=2).contains(&width), "{width} pixels in row {y}");
        }
    }
}
