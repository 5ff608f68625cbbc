//! Erosion, opening, the skeleton, its reconstruction and the minimal skeleton.
//!
//! X(n) is X eroded by nB, and X(n+1) is X(n) eroded by B. The origin is in B, so the X(n)
//! shrink, and one number for each point says everything: D(z), how many n have z in X(n).
//! z is in X(n) exactly when D(z) > n. Off the foreground D is 0.
//!
//! D is a distance. Let z be in X, and m the least D(z+b) over the b of B but the origin.
//! z is in X(n+1) exactly when D(z) > n and m > n. So D(z) > n+1 gives m > n: D(z) is at
//! most m+1. And from D(z) > 0, for each n below m, D(z) > n gives D(z) > n+1: D(z) is at
//! least m+1. Hence D(z) = m+1, and 0 off X: the least number of steps, each by an offset of
//! B but the origin, that lead from z out of X. A breadth-first search against the steps
//! finds it. Any one step, repeated, leaves the frame: D is at most the larger side.
//!
//! The skeleton compares distances. z has size n when z is in X(n) and not in X(n+1)
//! dilated by B: when D(z) > n, and D(z-b) <= n+1 for every b of B. The origin is among
//! these b, so D(z) = n+1. Hence z is a point of size D(z)-1 exactly when D(z) >= 1 and no
//! D(z-b) is larger than D(z), and else of no size.

use crate::element::{folds, offsets};
use crate::frame::{Frame, Set};
use std::collections::VecDeque;

/// D(z) for each point, in row order.
fn depths(x: &Set, element: u32) -> Vec<usize> {
    let mut steps = offsets(element);
    steps.retain(|&b| b != (0, 0));
    let mut depths = vec![0; x.frame.pixels()];
    let leaves = |&(zx, zy): &(i32, i32)| steps.iter().any(|b| !x.has(zx + b.0, zy + b.1));
    let mut queue: VecDeque<_> = x.points().filter(leaves).map(|z| (z, 1)).collect();
    while let Some(((zx, zy), depth)) = queue.pop_front() {
        let Some(i) = x.frame.index(zx, zy) else {
            continue;
        };
        // The first visit comes by a shortest way.
        if x.member[i] && depths[i] == 0 {
            depths[i] = depth;
            queue.extend(steps.iter().map(|b| ((zx - b.0, zy - b.1), depth + 1)));
        }
    }
    depths
}

/// X eroded by nB.
pub fn erode(x: &Set, element: u32, n: usize) -> Set {
    let member = depths(x, element).into_iter().map(|d| d > n).collect();
    Set {
        frame: x.frame,
        member,
    }
}

/// X opened by nB: nB moved to every point of X(n).
pub fn open(x: &Set, element: u32, n: usize) -> Set {
    let eroded = erode(x, element, n);
    let points: Vec<_> = eroded
        .points()
        .map(|(x, y)| Point { x, y, size: n })
        .collect();
    cover(x.frame, element, &points)
}

/// The skeleton function, label n+1 on the points of size n, else 0 (the "map" of 01).
pub fn decompose(x: &Set, element: u32) -> Vec<u8> {
    let (b, depths) = (offsets(element), depths(x, element));
    let depth = |zx, zy| x.frame.index(zx, zy).map_or(0, |i| depths[i]);
    x.frame
        .points()
        .map(|(zx, zy)| {
            let here = depth(zx, zy);
            let largest = b.iter().all(|b| depth(zx - b.0, zy - b.1) <= here);
            // On the background `here` is 0, and so is the label.
            u8::try_from(if largest { here } else { 0 }).expect("D is at most 255")
        })
        .collect()
}

/// A skeleton point.
#[derive(Clone, Copy)]
struct Point {
    x: i32,
    y: i32,
    size: usize,
}

/// The points of labels, row by row, left to right.
fn points(frame: Frame, labels: &[u8]) -> Vec<Point> {
    let sized = frame.points().zip(labels).filter(|(_, &label)| label > 0);
    sized
        .map(|((x, y), &label)| Point {
            x,
            y,
            size: label as usize - 1,
        })
        .collect()
}

fn largest(points: &[Point]) -> usize {
    points.iter().map(|point| point.size).max().unwrap_or(0)
}

/// Whether a point of the labels, dilated to its size, leaves the frame (row 5).
pub fn leaves_frame(frame: Frame, element: u32, labels: &[u8]) -> bool {
    let points = points(frame, labels);
    let folds = folds(element, frame, largest(&points));
    points.iter().any(|p| match folds.get(p.size) {
        Some(fold) => !fold.fits(frame, p.x, p.y),
        None => true,
    })
}

/// The union of nB moved to each point of size n. All of them fit.
fn cover(frame: Frame, element: u32, points: &[Point]) -> Set {
    let folds = folds(element, frame, largest(points));
    let mut member = vec![false; frame.pixels()];
    for p in points {
        for places in folds[p.size].places(frame, p.x, p.y) {
            member[places].fill(true);
        }
    }
    Set { frame, member }
}

/// Partial reconstruction ("rebuilding") from the points of size `cut` and up.
pub fn reconstruct(frame: Frame, element: u32, cut: u32, labels: &[u8]) -> Set {
    let mut points = points(frame, labels);
    points.retain(|point| point.size >= cut as usize);
    cover(frame, element, &points)
}

/// The globally minimal skeleton ("shortening"): by size, smallest first, and within a size
/// in row order, a point is dropped when each pixel it covers is also covered by another
/// point still there.
pub fn minimise(frame: Frame, element: u32, labels: &[u8]) -> Vec<u8> {
    let mut points = points(frame, labels);
    let folds = folds(element, frame, largest(&points));
    let covered = |p: &Point| folds[p.size].places(frame, p.x, p.y);
    // How many points still there cover each pixel.
    let mut counts = vec![0u32; frame.pixels()];
    for p in &points {
        for places in covered(p) {
            counts[places].iter_mut().for_each(|count| *count += 1);
        }
    }
    points.sort_by_key(|p| p.size); // stable: row order stays within a size
    let mut minimal = labels.to_vec();
    for p in &points {
        if covered(p).all(|places| counts[places].iter().all(|&count| count >= 2)) {
            for places in covered(p) {
                counts[places].iter_mut().for_each(|count| *count -= 1);
            }
            minimal[frame.index(p.x, p.y).expect("a point of the frame")] = 0;
        }
    }
    minimal
}
