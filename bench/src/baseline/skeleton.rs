//! Erosion and opening by n-fold elements, skeleton decomposition and reconstruction.

use super::frame::{area, largest, refuse, Frame, Offsets};
use super::planes::{dilate_plane, erode_plane, is_empty};
use std::mem::swap;

/// Erosion by the n-fold element. Answers the area.
pub fn erode(
    w: u32,
    h: u32,
    element: u32,
    n: u32,
    image: &[u8],
    out: &mut [u8],
    work: &mut [u8],
) -> Result<u32, u8> {
    folded(w, h, element, n, 0, image, out, work)
}

/// Opening by the n-fold element. Answers the area.
pub fn open(
    w: u32,
    h: u32,
    element: u32,
    n: u32,
    image: &[u8],
    out: &mut [u8],
    work: &mut [u8],
) -> Result<u32, u8> {
    folded(w, h, element, n, n, image, out, work)
}

/// So many erosions, then so many dilations. Both stop where nothing is left.
#[allow(clippy::too_many_arguments)]
fn folded(
    w: u32,
    h: u32,
    element: u32,
    erosions: u32,
    dilations: u32,
    image: &[u8],
    out: &mut [u8],
    work: &mut [u8],
) -> Result<u32, u8> {
    let frame = Frame::new(w, h)?;
    let element = Offsets::element(element)?;
    frame.lengths(&[image, out], None, work)?;
    frame.padding(image)?;
    refuse(7, erosions > 255)?;
    let [mut plane, mut next, _] = frame.planes(work);
    plane.copy_from_slice(image);
    for _ in 0..erosions {
        if is_empty(frame, plane) {
            break;
        }
        erode_plane(frame, &element, plane, next);
        swap(&mut plane, &mut next);
    }
    if !is_empty(frame, plane) {
        for _ in 0..dilations {
            dilate_plane(frame, &element, plane, next);
            swap(&mut plane, &mut next);
        }
    }
    out.copy_from_slice(plane);
    work[..3 * frame.plane_bytes].fill(0);
    Ok(area(out))
}

/// The number of skeleton points and the largest size, none on a blank image.
#[derive(Debug, PartialEq)]
pub struct Skeleton {
    pub points: u32,
    pub max_size: Option<u32>,
}

/// Skeleton decomposition ("taking apart"): label n+1 on the points of size n, else 0.
pub fn decompose(
    w: u32,
    h: u32,
    element: u32,
    image: &[u8],
    labels: &mut [u8],
    work: &mut [u8],
) -> Result<Skeleton, u8> {
    let frame = Frame::new(w, h)?;
    let element = Offsets::element(element)?;
    frame.lengths(&[image], Some(labels), work)?;
    frame.padding(image)?;
    // X(n), X(n+1) and the opening of X(n).
    let [mut plane, mut eroded, opened] = frame.planes(work);
    plane.copy_from_slice(image);
    labels.fill(0);
    let (mut points, mut sizes) = (0, 0);
    while !is_empty(frame, plane) {
        erode_plane(frame, &element, plane, eroded);
        dilate_plane(frame, &element, eroded, opened);
        sizes += 1;
        points += label_difference(frame, plane, opened, sizes as u8, labels);
        swap(&mut plane, &mut eroded);
    }
    work[..3 * frame.plane_bytes].fill(0);
    Ok(Skeleton {
        points,
        max_size: u32::checked_sub(sizes, 1),
    })
}

/// Labels what the opening lacks of a plane, and answers how many points that is. Most rows
/// lack nothing.
fn label_difference(
    frame: Frame,
    plane: &[u8],
    opened: &[u8],
    label: u8,
    labels: &mut [u8],
) -> u32 {
    let mut points = 0;
    let rows = plane.chunks_exact(frame.stride);
    let rows = rows.zip(opened.chunks_exact(frame.stride));
    for ((row, opened), labels) in rows.zip(labels.chunks_exact_mut(frame.width)) {
        if row == opened {
            continue;
        }
        for ((row, opened), labels) in row.iter().zip(opened).zip(labels.chunks_mut(8)) {
            let mut lacking = row & !opened;
            points += lacking.count_ones();
            while lacking != 0 {
                let pixel = lacking.leading_zeros();
                labels[pixel as usize] = label;
                lacking &= !(0x80 >> pixel);
            }
        }
    }
    points
}

/// Partial reconstruction ("rebuilding at a cut"). Answers the area.
pub fn reconstruct(
    w: u32,
    h: u32,
    element: u32,
    cut: u32,
    labels: &[u8],
    image: &mut [u8],
    work: &mut [u8],
) -> Result<u32, u8> {
    let frame = Frame::new(w, h)?;
    let element = Offsets::element(element)?;
    frame.lengths(&[image], Some(labels), work)?;
    frame.fitting(&element, labels)?;
    refuse(7, cut > 255)?;
    let [mut plane, mut next, _] = frame.planes(work);
    plane.fill(0);
    let sizes = largest(labels) as u32;
    if sizes > cut {
        // From the largest label down to the cut, then `cut` further dilations.
        for size in (0..sizes).rev() {
            if size >= cut {
                add_points(frame, labels, size as u8 + 1, plane);
            }
            if size > 0 {
                dilate_plane(frame, &element, plane, next);
                swap(&mut plane, &mut next);
            }
        }
    }
    image.copy_from_slice(plane);
    work[..3 * frame.plane_bytes].fill(0);
    Ok(area(image))
}

/// Adds the points of a label to a plane. Most rows have none.
fn add_points(frame: Frame, labels: &[u8], label: u8, plane: &mut [u8]) {
    let rows = plane.chunks_exact_mut(frame.stride);
    for (row, labels) in rows.zip(labels.chunks_exact(frame.width)) {
        if !has_label(labels, label) {
            continue;
        }
        let packed = |labels: &[u8]| {
            let bits = labels.iter().map(|&other| (other == label) as u8);
            bits.fold(0, |byte, bit| byte << 1 | bit)
        };
        let eights = labels.chunks_exact(8);
        let rest = eights.remainder();
        for (byte, labels) in row.iter_mut().zip(eights) {
            *byte |= packed(labels);
        }
        if !rest.is_empty() {
            row[frame.stride - 1] |= packed(rest) << (8 - rest.len());
        }
    }
}

/// Whether a row of labels has this one.
pub fn has_label(row: &[u8], label: u8) -> bool {
    row.iter().fold(false, |any, &other| any | (other == label))
}
