//! Structuring elements, and their n-fold Minkowski sums as explicit sets of offsets.

use crate::frame::Frame;
use std::ops::Range;

/// The 3 by 3 block.
pub const SQUARE: u32 = 473536;
/// The origin and its four neighbours.
pub const PLUS: u32 = 145536;
/// The 5 by 5 block less its corners.
pub const ROUND: u32 = 15728622;
/// The origin and (1, 0).
pub const RIGHT: u32 = 12288;
/// The origin and (-1, 0).
pub const LEFT: u32 = 6144;

/// The bit of the origin.
pub const ORIGIN: u32 = 1 << 12;

/// The offsets of an element: bit 5(dy+2) + (dx+2) stands for (dx, dy).
pub fn offsets(element: u32) -> Vec<(i32, i32)> {
    (0..25)
        .filter(|bit| element >> bit & 1 == 1)
        .map(|bit| (bit % 5 - 2, bit / 5 - 2))
        .collect()
}

/// Offsets of one row that stand side by side: (from, dy) to (to, dy).
#[derive(Clone, Debug, PartialEq, PartialOrd, Eq, Ord)]
struct Run {
    dy: i32,
    from: i32,
    to: i32,
}

/// A set of offsets nB as runs: by rows, left to right, no two of them touching.
#[derive(Clone, Debug, PartialEq)]
pub struct Fold(Vec<Run>);

impl Fold {
    /// 0B: the origin alone.
    fn origin() -> Fold {
        Fold(vec![Run {
            dy: 0,
            from: 0,
            to: 0,
        }])
    }

    /// This set dilated by the offsets b: every run moved by every offset, then joined.
    fn dilate(&self, b: &[(i32, i32)]) -> Fold {
        let moved = |run: &Run, (dx, dy): (i32, i32)| Run {
            dy: run.dy + dy,
            from: run.from + dx,
            to: run.to + dx,
        };
        let mut runs: Vec<Run> = self
            .0
            .iter()
            .flat_map(|run| b.iter().map(move |&offset| moved(run, offset)))
            .collect();
        runs.sort();
        runs.dedup_by(|next, last| {
            let join = next.dy == last.dy && next.from <= last.to + 1;
            if join {
                last.to = last.to.max(next.to);
            }
            join
        });
        Fold(runs)
    }

    /// Whether the set, moved to some point, lies in the frame.
    fn fits_somewhere(&self, frame: Frame) -> bool {
        let left = self.0.iter().map(|run| run.from).min().unwrap_or(0);
        let right = self.0.iter().map(|run| run.to).max().unwrap_or(0);
        let top = self.0.iter().map(|run| run.dy).min().unwrap_or(0);
        let bottom = self.0.iter().map(|run| run.dy).max().unwrap_or(0);
        right - left < frame.width && bottom - top < frame.height
    }

    /// Whether the set, moved to (x, y), lies in the frame: asked of every run.
    pub fn fits(&self, frame: Frame, x: i32, y: i32) -> bool {
        self.0.iter().all(|run| {
            frame.index(x + run.from, y + run.dy).is_some()
                && frame.index(x + run.to, y + run.dy).is_some()
        })
    }

    /// The places covered by the set moved to (x, y), where it fits.
    pub fn places(&self, frame: Frame, x: i32, y: i32) -> impl Iterator<Item = Range<usize>> + '_ {
        self.0.iter().map(move |run| {
            let start = ((y + run.dy) * frame.width + x + run.from) as usize;
            start..start + (run.to - run.from + 1) as usize
        })
    }
}

/// 0B, 1B, up to lastB, but only as far as the frame can hold them. The origin is in B, so
/// nB lies in (n+1)B: after the first set that is too wide or too high, all are. A second
/// point is in B, so every set is wider or higher than the one before: at most 255 fit.
pub fn folds(element: u32, frame: Frame, last: usize) -> Vec<Fold> {
    let b = offsets(element);
    std::iter::successors(Some(Fold::origin()), |fold| Some(fold.dilate(&b)))
        .take(last + 1)
        .take_while(|fold| fold.fits_somewhere(frame))
        .collect()
}
