//! The strokes of a numbering machine's digits, in a box of 1 by 1: x grows right, y down.

/// A point in the box.
pub type Point = (f64, f64);

/// A stroke through or, where it is round, along its corners.
pub enum Stroke {
    Straight(&'static [Point]),
    Round(&'static [Point]),
    /// Round, and its end is its start.
    Loop(&'static [Point]),
}

use Stroke::*;

/// The strokes of the digits 0 to 9.
#[rustfmt::skip]
pub const DIGITS: [&[Stroke]; 10] = [
    &[Loop(&[(0.0, 0.0), (1.0, 0.0), (1.0, 0.5), (1.0, 1.0), (0.0, 1.0), (0.0, 0.5)])],
    &[Straight(&[(0.2, 0.2), (0.55, 0.0), (0.55, 1.0)]), Straight(&[(0.2, 1.0), (0.9, 1.0)])],
    &[Round(&[(0.0, 0.3), (0.0, 0.0), (1.0, 0.0), (1.0, 0.45), (0.3, 0.75), (0.0, 1.0)]),
      Straight(&[(0.0, 1.0), (1.0, 1.0)])],
    &[Round(&[(0.0, 0.2), (0.1, 0.0), (0.95, 0.0), (0.95, 0.47), (0.4, 0.47)]),
      Round(&[(0.4, 0.47), (1.0, 0.47), (1.0, 1.0), (0.05, 1.0), (0.0, 0.78)])],
    &[Straight(&[(0.72, 1.0), (0.72, 0.0), (0.0, 0.68), (1.0, 0.68)])],
    &[Straight(&[(0.92, 0.0), (0.12, 0.0), (0.06, 0.46)]),
      Round(&[(0.06, 0.46), (0.3, 0.36), (1.0, 0.34), (1.0, 1.0), (0.05, 1.0), (0.0, 0.8)])],
    &[Round(&[(0.9, 0.06), (0.6, 0.0), (0.0, 0.1), (0.0, 0.7)]),
      Loop(&[(0.0, 0.4), (1.0, 0.4), (1.0, 0.7), (1.0, 1.0), (0.0, 1.0), (0.0, 0.7)])],
    &[Straight(&[(0.0, 0.12), (0.0, 0.0), (1.0, 0.0)]), Round(&[(1.0, 0.0), (0.45, 0.5), (0.4, 1.0)])],
    &[Loop(&[(0.06, 0.0), (0.94, 0.0), (0.94, 0.23), (0.94, 0.46), (0.06, 0.46), (0.06, 0.23)]),
      Loop(&[(0.0, 0.46), (1.0, 0.46), (1.0, 0.73), (1.0, 1.0), (0.0, 1.0), (0.0, 0.73)])],
    &[Round(&[(0.1, 0.94), (0.4, 1.0), (1.0, 0.9), (1.0, 0.3)]),
      Loop(&[(0.0, 0.0), (1.0, 0.0), (1.0, 0.3), (1.0, 0.6), (0.0, 0.6), (0.0, 0.3)])],
];

impl Stroke {
    /// The points of the stroke, each to be joined with the next.
    pub fn points(&self) -> Vec<Point> {
        match self {
            Straight(corners) => corners.to_vec(),
            Round(corners) => {
                let mut points = corners.to_vec();
                for _ in 0..3 {
                    let (first, last) = (points[0], points[points.len() - 1]);
                    points = [&[first], &cut_corners(&points)[..], &[last]].concat();
                }
                points
            }
            Loop(corners) => {
                let mut points = corners.to_vec();
                for _ in 0..3 {
                    points.push(points[0]);
                    points = cut_corners(&points);
                }
                points.push(points[0]);
                points
            }
        }
    }
}

/// A quarter and three quarters of the way along each side.
fn cut_corners(points: &[Point]) -> Vec<Point> {
    let between = |a: Point, b: Point, t: f64| (a.0 + (b.0 - a.0) * t, a.1 + (b.1 - a.1) * t);
    let sides = points.windows(2);
    sides
        .flat_map(|side| [0.25, 0.75].map(|t| between(side[0], side[1], t)))
        .collect()
}
