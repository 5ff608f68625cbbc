//! The code of an image ("coded ticket"): its skeleton as base-3 runs in symbols of two bits.
//!
//! The stream has the largest size first, and sizes are found from 0 on. So the image is eroded
//! twice: once to measure the section of each size, and once to write each at its place.

use super::frame::{area, refuse, Frame, Offsets};
use super::planes::{dilate_plane, erode_plane, is_empty};
use std::mem::swap;

/// X(n) is empty once n reaches the larger side.
const MAX_SIZES: usize = 255;

/// The bytes of the stream and the largest size; of a blank image no bytes and no size.
#[derive(Debug, PartialEq)]
pub struct Coded {
    pub bytes: u32,
    pub max_size: Option<u32>,
}

/// Writes the code over the first bytes of the output, whose length is free.
pub fn encode(
    w: u32,
    h: u32,
    element: u32,
    image: &[u8],
    out: &mut [u8],
    work: &mut [u8],
) -> Result<Coded, u8> {
    let frame = Frame::new(w, h)?;
    let element = Offsets::element(element)?;
    frame.lengths(&[image], None, work)?;
    frame.padding(image)?;
    // The symbols of each size.
    let (mut lengths, mut sizes) = ([0; MAX_SIZES], 0);
    each_size(frame, &element, image, work, |plane, opened| {
        // The runs with a comma each, and one more comma; an empty size has two.
        let mut symbols = 0;
        each_run(frame, plane, opened, |run| symbols += digits(run) + 1);
        lengths[sizes] = symbols.max(1) + 1;
        sizes += 1;
    });
    let symbols: usize = lengths.iter().sum();
    let bytes = symbols.div_ceil(4);
    let fits = bytes <= out.len();
    if fits {
        let (stream, mut end, mut size) = (&mut out[..bytes], symbols, 0);
        stream.fill(0); // commas and padding
        each_size(frame, &element, image, work, |plane, opened| {
            end -= lengths[size];
            let mut at = end;
            each_run(frame, plane, opened, |run| at = put(stream, at, run) + 1);
            size += 1;
        });
    }
    work[..3 * frame.plane_bytes].fill(0);
    refuse(8, !fits)?;
    Ok(Coded {
        bytes: bytes as u32,
        max_size: u32::checked_sub(sizes as u32, 1),
    })
}

/// Hands over X(n) and its opening, which is the mask of size n, from size 0 to the largest.
fn each_size(
    frame: Frame,
    element: &Offsets,
    image: &[u8],
    work: &mut [u8],
    mut size: impl FnMut(&[u8], &[u8]),
) {
    let [mut plane, mut eroded, opened] = frame.planes(work);
    plane.copy_from_slice(image);
    while !is_empty(frame, plane) {
        erode_plane(frame, element, plane, eroded);
        dilate_plane(frame, element, eroded, opened);
        size(plane, opened);
        swap(&mut plane, &mut eroded);
    }
}

/// Hands over the runs of a size: of the pixels that are not in the mask, those before each
/// point. Most rows have no point.
fn each_run(frame: Frame, plane: &[u8], mask: &[u8], mut ends: impl FnMut(u32)) {
    let mut run = 0;
    let rows = plane.chunks_exact(frame.stride);
    for (row, mask) in rows.zip(mask.chunks_exact(frame.stride)) {
        if row == mask {
            run += frame.width as u32 - area(mask);
            continue;
        }
        for (i, (byte, mask)) in row.iter().zip(mask).enumerate() {
            let pixels = if i + 1 == frame.stride {
                frame.last_byte()
            } else {
                0xff
            };
            let (mut points, mut counted) = (byte & !mask, pixels & !mask);
            while points != 0 {
                let pixel = points.leading_zeros();
                let (before, after) = (!(0xff >> pixel), 0x7f >> pixel);
                ends(run + (counted & before).count_ones());
                run = 0;
                points &= after;
                counted &= after;
            }
            run += counted.count_ones();
        }
    }
}

/// How many base-3 digits a run has.
fn digits(run: u32) -> usize {
    match run {
        0..=2 => 1,
        3..=8 => 2,
        _ => 2 + digits(run / 9),
    }
}

/// Writes the digits of a run from a symbol's place on; the place after them.
fn put(stream: &mut [u8], at: usize, run: u32) -> usize {
    let (end, mut left) = (at + digits(run), run);
    for place in (at..end).rev() {
        stream[place / 4] |= (left % 3 + 1) as u8 * (64 >> (2 * (place % 4)));
        left /= 3;
    }
    end
}
