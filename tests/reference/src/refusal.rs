//! The table of refusals of 01, row 5 as T-05 has it. A call names the arguments that it has; the
//! first row that applies is the answer. Rows 8 to 11 of 02 ask for a stream, and are tested where
//! that is written or read.

use crate::element::ORIGIN;
use crate::frame::Frame;
use crate::skeleton::leaves_frame;

/// The arguments of a call, as far as the table asks for them. What a call does not have
/// stays empty.
#[derive(Default)]
pub struct Arguments<'a> {
    pub w: u32,
    pub h: u32,
    pub element: Option<u32>,
    /// The lengths of all lent images, read or written. A stream is none.
    pub images: &'a [usize],
    /// The lengths of the other lent buffers.
    pub labels: Option<usize>,
    /// The length, and how many times P it must be at least.
    pub work: Option<(usize, usize)>,
    pub counters: Option<usize>,
    /// The image that is read.
    pub read: Option<&'a [u8]>,
    /// The labels that are reconstructed or minimised.
    pub read_labels: Option<&'a [u8]>,
    /// fg and bg of a mask.
    pub mask: Option<(u32, u32)>,
    /// A cut, or the n of an erosion or opening.
    pub cut_or_n: Option<u32>,
}

impl Arguments<'_> {
    /// The frame, for the rows below the first.
    fn frame(&self) -> Frame {
        Frame::new(self.w, self.h).expect("row 1 has let the sides pass")
    }
}

/// Whether a row of the table applies. Each may rely on the rows above it.
type Row = fn(&Arguments) -> bool;

/// Rows 1 to 7.
const TABLE: [Row; 7] = [
    bad_side,
    bad_element,
    bad_length,
    bad_padding,
    bad_labels,
    bad_mask,
    bad_cut_or_n,
];

/// The frame of a call that no row refuses, or else the number of the lowest row that does.
pub fn accept(a: &Arguments) -> Result<Frame, u8> {
    match TABLE.iter().position(|applies| applies(a)) {
        Some(above) => Err(above as u8 + 1),
        None => Ok(a.frame()),
    }
}

/// Row 1: a side is 0 or above 255.
fn bad_side(a: &Arguments) -> bool {
    Frame::new(a.w, a.h).is_none()
}

/// Row 2: a bit above 24, no origin, or fewer than two points.
fn bad_element(a: &Arguments) -> bool {
    a.element
        .is_some_and(|e| e >> 25 != 0 || e & ORIGIN == 0 || e.count_ones() < 2)
}

/// Row 3: a lent image, labels or counters of another length, or work below 3P; for the reader
/// of codes below 5P.
fn bad_length(a: &Arguments) -> bool {
    let (bytes, pixels) = (a.frame().plane_bytes(), a.frame().pixels());
    a.images.iter().any(|&len| len != bytes)
        || a.labels.is_some_and(|len| len != pixels)
        || a.work.is_some_and(|(len, planes)| len < planes * bytes)
        || a.counters.is_some_and(|len| len != pixels)
}

/// Row 4: an image that is read has a 1 in a padding bit.
fn bad_padding(a: &Arguments) -> bool {
    let frame = a.frame();
    a.read
        .is_some_and(|image| frame.pack(&frame.unpack(image)) != image)
}

/// Row 5: a point of the labels, of any size and at any cut, dilated to its size leaves the frame.
fn bad_labels(a: &Arguments) -> bool {
    match (a.element, a.read_labels) {
        (Some(element), Some(labels)) => leaves_frame(a.frame(), element, labels),
        _ => false,
    }
}

/// Row 6: a mask has a bit above 8, lacks the centre in fg, or fg and bg overlap.
fn bad_mask(a: &Arguments) -> bool {
    a.mask
        .is_some_and(|(fg, bg)| (fg | bg) >> 9 != 0 || fg >> 4 & 1 == 0 || fg & bg != 0)
}

/// Row 7: a cut, or the n of an erosion or opening, above 255.
fn bad_cut_or_n(a: &Arguments) -> bool {
    a.cut_or_n.is_some_and(|n| n > 255)
}
