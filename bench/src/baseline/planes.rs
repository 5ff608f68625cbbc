//! One erosion, dilation or hit-or-miss of a whole plane: each row is moved by each offset
//! and combined with the row that the offset leads to. Nothing at the frame's edge is hit.

use super::frame::{Frame, Offsets, MAX_STRIDE};

/// Erosion of a plane by an element: every z with z+b in the plane for all b.
pub fn erode_plane(frame: Frame, element: &Offsets, plane: &[u8], out: &mut [u8]) {
    join_rows(frame, element, &Offsets::NONE, plane, out);
    // Here an offset leads out of the frame.
    let rows = |count: isize| (count as usize).min(frame.height) * frame.stride;
    out[..rows(-element.top)].fill(0);
    out[frame.plane_bytes - rows(element.bottom)..].fill(0);
}

/// The points of a plane, none at the frame's edge, where all offsets of fg, the centre among
/// them, fall on foreground and all of bg on background.
pub fn hit_or_miss_plane(frame: Frame, fg: &Offsets, bg: &Offsets, plane: &[u8], out: &mut [u8]) {
    join_rows(frame, fg, bg, plane, out);
    out[..frame.stride].fill(0);
    out[frame.plane_bytes - frame.stride..].fill(0);
    let but_the_last = frame.last_byte() << 1;
    for row in out.chunks_exact_mut(frame.stride) {
        row[0] &= 0x7f;
        row[frame.stride - 1] &= but_the_last;
    }
}

/// The points of a plane where all offsets of fg and the centre fall on foreground and all of bg
/// on background; an offset that leads above or below the frame is passed over.
fn join_rows(frame: Frame, fg: &Offsets, bg: &Offsets, plane: &[u8], out: &mut [u8]) {
    out.copy_from_slice(plane); // the centre
    let mut guarded = GuardedRow::new(frame);
    for (y, row) in plane.chunks_exact(frame.stride).enumerate() {
        guarded.set(row);
        for (dx, dy) in fg.iter() {
            if let Some(to) = frame.row(y as isize - dy) {
                guarded.moved(-dx, &mut out[to], |to, pixels| *to &= pixels);
            }
        }
        for (dx, dy) in bg.iter() {
            if let Some(to) = frame.row(y as isize - dy) {
                guarded.moved(-dx, &mut out[to], |to, pixels| *to &= !pixels);
            }
        }
    }
}

/// Dilation of a plane by an element: every x+b.
pub fn dilate_plane(frame: Frame, element: &Offsets, plane: &[u8], out: &mut [u8]) {
    out.copy_from_slice(plane); // the origin
    let mut guarded = GuardedRow::new(frame);
    for (y, row) in plane.chunks_exact(frame.stride).enumerate() {
        guarded.set(row);
        for (dx, dy) in element.iter() {
            if let Some(to) = frame.row(y as isize + dy) {
                guarded.moved(dx, &mut out[to], |to, pixels| *to |= pixels);
            }
        }
    }
    for row in out.chunks_exact_mut(frame.stride) {
        row[frame.stride - 1] &= frame.last_byte();
    }
}

/// A copy of a row with a background byte on each side, so that no end of it is special. It
/// lies in one line of the cache.
#[repr(align(64))]
struct GuardedRow {
    bytes: [u8; MAX_STRIDE + 2],
    stride: usize,
}

impl GuardedRow {
    fn new(frame: Frame) -> GuardedRow {
        GuardedRow {
            bytes: [0; MAX_STRIDE + 2],
            stride: frame.stride,
        }
    }

    fn set(&mut self, row: &[u8]) {
        self.bytes[1..=self.stride].copy_from_slice(row);
    }

    /// Combines a row with this one, moved right by dx.
    #[inline(always)]
    fn moved(&self, dx: isize, to: &mut [u8], combine: impl Fn(&mut u8, u8)) {
        let before = &self.bytes[..self.stride];
        let row = &self.bytes[1..][..self.stride];
        let after = &self.bytes[2..][..self.stride];
        match dx {
            -2 => moved_left::<2>(row, after, to, combine),
            -1 => moved_left::<1>(row, after, to, combine),
            1 => moved_left::<7>(before, row, to, combine),
            2 => moved_left::<6>(before, row, to, combine),
            _ => to
                .iter_mut()
                .zip(row)
                .for_each(|(to, row)| combine(to, *row)),
        }
    }
}

/// Combines a row with another one moved left by D pixels, `after` being one byte further.
#[inline(always)]
fn moved_left<const D: u32>(
    row: &[u8],
    after: &[u8],
    to: &mut [u8],
    combine: impl Fn(&mut u8, u8),
) {
    for ((to, byte), after) in to.iter_mut().zip(row).zip(after) {
        combine(to, byte << D | after >> (8 - D));
    }
}

/// Whether a plane has no foreground.
pub fn is_empty(frame: Frame, plane: &[u8]) -> bool {
    let mut rows = plane.chunks_exact(frame.stride);
    rows.all(|row| row.iter().fold(0, |all, byte| all | byte) == 0)
}
