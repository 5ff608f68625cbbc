//! The globally minimal skeleton ("shortening") by cover counts.

use super::frame::{refuse, Frame, Offsets};
use super::planes::dilate_plane;
use super::skeleton::has_label;
use std::mem::swap;
use std::ops::Range;

/// By size, smallest first, and within a size in row order, drops every point each of whose
/// covered pixels is covered by another point still there. Answers the points left.
pub fn minimise(
    w: u32,
    h: u32,
    element: u32,
    labels: &mut [u8],
    work: &mut [u8],
    counters: &mut [u16],
) -> Result<u32, u8> {
    let frame = Frame::new(w, h)?;
    let element = Offsets::element(element)?;
    frame.lengths(&[], Some(labels), work)?;
    refuse(3, counters.len() != frame.pixels())?;
    frame.fitting(&element, labels)?;
    counters.fill(0);
    let mut present = [false; 256];
    for &label in labels.iter() {
        present[label as usize] = true;
    }
    for_covers(frame, &element, &present, work, |label, cover| {
        for_points(frame, labels, label, |place, _| {
            for run in cover {
                let counters = &mut counters[run.at(place)];
                counters.iter_mut().for_each(|count| *count += 1);
            }
        });
    });
    for_covers(frame, &element, &present, work, |label, cover| {
        for_points(frame, labels, label, |place, label| {
            let twice = |run: &Run| {
                let counters = counters[run.at(place)].iter();
                counters.fold(true, |all, &count| all & (count > 1))
            };
            if cover.iter().all(twice) {
                *label = 0;
                for run in cover {
                    let counters = &mut counters[run.at(place)];
                    counters.iter_mut().for_each(|count| *count -= 1);
                }
            }
        });
    });
    counters.fill(0);
    work[..3 * frame.plane_bytes].fill(0);
    Ok(labels.iter().map(|&label| (label > 0) as u32).sum())
}

/// Pixels side by side that a point covers: so many, from so far after it in row order.
struct Run {
    start: isize,
    len: usize,
}

impl Run {
    /// The places of the pixels for a point at a place.
    fn at(&self, place: usize) -> Range<usize> {
        let start = place.wrapping_add_signed(self.start);
        start..start + self.len
    }
}

/// For each label present, smallest first, what a point of it covers: nB, dilated in a plane
/// about an origin where the largest fits, as runs.
fn for_covers(
    frame: Frame,
    element: &Offsets,
    present: &[bool; 256],
    work: &mut [u8],
    mut visit: impl FnMut(u8, &[Run]),
) {
    let [mut plane, mut next, _] = frame.planes(work);
    let last = present.iter().rposition(|&label| label).unwrap_or(0);
    let max_size = (last as isize - 1).max(0);
    let (x, y) = (-element.left * max_size, -element.top * max_size);
    plane.fill(0);
    plane[y as usize * frame.stride + x as usize / 8] = 0x80 >> (x % 8);
    let mut cover = Vec::new();
    for label in 1..=last as u8 {
        if label > 1 {
            dilate_plane(frame, element, plane, next);
            swap(&mut plane, &mut next);
        }
        if present[label as usize] {
            cover.clear();
            push_runs(frame, plane, y * frame.width as isize + x, &mut cover);
            visit(label, &cover);
        }
    }
}

/// The foreground of a plane as runs, seen from an origin.
fn push_runs(frame: Frame, plane: &[u8], origin: isize, runs: &mut Vec<Run>) {
    for (y, row) in plane.chunks_exact(frame.stride).enumerate() {
        if row.iter().all(|&byte| byte == 0) {
            continue;
        }
        let start = (y * frame.width) as isize - origin;
        let mut inside = false;
        for x in 0..frame.width {
            let pixel = row[x / 8] << (x % 8) & 0x80 != 0;
            if pixel && !inside {
                let start = start + x as isize;
                runs.push(Run { start, len: 0 });
            }
            if let Some(run) = runs.last_mut().filter(|_| pixel) {
                run.len += 1;
            }
            inside = pixel;
        }
    }
}

/// Visits the points of a label in row order, each with its place. Most rows have none.
fn for_points(frame: Frame, labels: &mut [u8], label: u8, mut visit: impl FnMut(usize, &mut u8)) {
    for (y, row) in labels.chunks_exact_mut(frame.width).enumerate() {
        if !has_label(row, label) {
            continue;
        }
        for (x, other) in row.iter_mut().enumerate() {
            if *other == label {
                visit(y * frame.width + x, other);
            }
        }
    }
}
