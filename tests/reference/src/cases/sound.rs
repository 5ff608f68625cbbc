//! Sound arguments of many kinds: sides, elements, images, labels, cuts, masks and outputs.
//! Labels may be wild, cuts too large, and outputs of a code too short.

use crate::element::{folds, ORIGIN};
use crate::frame::{Frame, Set};
use crate::rng::Rng;
use crate::{skeleton, GOLAY_L, LEFT, PLUS, RIGHT, ROUND, SQUARE};
use std::ops::Range;

/// A side: 1 to 40 and 248 to 255, small ones more often.
pub fn side(rng: &mut Rng) -> u32 {
    let side = match rng.below(24) {
        0 => rng.between(248, 255),
        1..=7 => rng.between(1, 40),
        _ => rng.between(1, 12),
    };
    side as u32
}

/// An element: one of the five named ones, or a random one of 2 to 25 points, with holes,
/// and now and then all on one side of the origin.
pub fn element(rng: &mut Rng) -> u32 {
    if rng.one_in(2) {
        return rng.pick(&[SQUARE, PLUS, ROUND, RIGHT, LEFT]);
    }
    let bits = rng.pick(&[0..25, 0..25, 12..25, 0..13]);
    let largest = rng.pick(&[2, 4, bits.len()]);
    let points = rng.between(2, largest) as u32;
    element_of(rng, points, bits)
}

/// An element of so many points, on these bits. They have the origin's and are enough.
pub fn element_of(rng: &mut Rng, points: u32, bits: Range<usize>) -> u32 {
    let mut element = ORIGIN;
    while element.count_ones() < points {
        element |= 1 << rng.between(bits.start, bits.end - 1);
    }
    element
}

/// The digits 0 to 9, three by five, each touching all edges of its box.
const DIGITS: [&[u8; 15]; 10] = [
    b"111101101101111",
    b"010110010010111",
    b"111001111100111",
    b"111001111001111",
    b"101101111001001",
    b"111100111001111",
    b"111100111101111",
    b"111001010010010",
    b"111101111101111",
    b"111101111001111",
];

/// The kinds of images.
#[derive(Clone, Copy, Debug, PartialEq, Eq, PartialOrd, Ord)]
pub enum ImageKind {
    Blank,
    Full,
    Sparse,
    Half,
    Dense,
    Stripes,
    /// Digits that touch one or more edges.
    Digits,
    /// A few filled boxes.
    Blocks,
}

pub const IMAGE_KINDS: [ImageKind; 8] = [
    ImageKind::Blank,
    ImageKind::Full,
    ImageKind::Sparse,
    ImageKind::Half,
    ImageKind::Dense,
    ImageKind::Stripes,
    ImageKind::Digits,
    ImageKind::Blocks,
];

/// A packed image of any kind.
pub fn image(rng: &mut Rng, w: u32, h: u32) -> Vec<u8> {
    let kind = rng.pick(&IMAGE_KINDS);
    image_of(rng, kind, w, h)
}

/// A packed image of this kind.
pub fn image_of(rng: &mut Rng, kind: ImageKind, w: u32, h: u32) -> Vec<u8> {
    let frame = Frame::new(w, h).expect("sides from 1 to 255");
    frame.pack(&foreground(rng, kind, frame))
}

fn foreground(rng: &mut Rng, kind: ImageKind, frame: Frame) -> Set {
    let blank = frame.collect(|_, _| false);
    match kind {
        ImageKind::Blank => blank,
        ImageKind::Full => frame.collect(|_, _| true),
        ImageKind::Sparse => noise(rng, frame, 2),
        ImageKind::Half => noise(rng, frame, 8),
        ImageKind::Dense => noise(rng, frame, 15),
        ImageKind::Stripes => stripes(rng, frame),
        ImageKind::Digits => digits(rng, blank),
        ImageKind::Blocks => blocks(rng, blank),
    }
}

/// Each point with a chance of so many sixteenths.
fn noise(rng: &mut Rng, frame: Frame, sixteenths: usize) -> Set {
    let mut set = frame.collect(|_, _| false);
    set.member.fill_with(|| rng.below(16) < sixteenths);
    set
}

/// Stripes across, down or slanted.
fn stripes(rng: &mut Rng, frame: Frame) -> Set {
    let period = rng.between(2, 20) as i32;
    let thickness = rng.between(1, period as usize - 1) as i32;
    let (dx, dy) = rng.pick(&[(1, 0), (0, 1), (1, 1)]);
    frame.collect(|x, y| (dx * x + dy * y) % period < thickness)
}

/// Digits that touch one or more edges, scaled as far as they fit.
fn digits(rng: &mut Rng, mut set: Set) -> Set {
    let (width, height) = (set.frame.width, set.frame.height);
    let edges = rng.between(1, 15);
    for edge in (0..4).filter(|edge| edges >> edge & 1 == 1) {
        let largest = (width / 3).min(height / 5).max(1);
        let scale = rng.between(1, largest as usize) as i32;
        let (right, bottom) = ((width - 3 * scale).max(0), (height - 5 * scale).max(0));
        let (x, y) = (
            rng.between(0, right as usize),
            rng.between(0, bottom as usize),
        );
        let (left, top) = match edge {
            0 => (0, y as i32),
            1 => (right, y as i32),
            2 => (x as i32, 0),
            _ => (x as i32, bottom),
        };
        let digit = rng.pick(&DIGITS);
        for (dx, dy) in (0..5 * scale).flat_map(|dy| (0..3 * scale).map(move |dx| (dx, dy))) {
            if digit[(dy / scale * 3 + dx / scale) as usize] == b'1' {
                if let Some(i) = set.frame.index(left + dx, top + dy) {
                    set.member[i] = true;
                }
            }
        }
    }
    set
}

/// A few filled boxes.
fn blocks(rng: &mut Rng, mut set: Set) -> Set {
    let (width, height) = (set.frame.width as usize, set.frame.height as usize);
    for _ in 0..rng.between(1, 6) {
        let (left, top) = (rng.below(width), rng.below(height));
        let (right, bottom) = (rng.between(left, width - 1), rng.between(top, height - 1));
        for y in top..=bottom {
            set.member[y * width + left..=y * width + right].fill(true);
        }
    }
    set
}

/// The kinds of labels.
#[derive(Clone, Copy, Debug, PartialEq, Eq, PartialOrd, Ord)]
pub enum LabelsKind {
    /// From an image.
    Skeleton,
    /// The same, minimal ("shortened").
    Minimal,
    /// From no image, but accepted.
    Free,
    /// The same, but for one point that is too large by one size.
    Beyond,
    /// Any bytes.
    Any,
}

pub const LABELS_KINDS: [LabelsKind; 5] = [
    LabelsKind::Skeleton,
    LabelsKind::Minimal,
    LabelsKind::Free,
    LabelsKind::Beyond,
    LabelsKind::Any,
];

/// Labels of any kind, those that are mostly accepted more often.
pub fn labels(rng: &mut Rng, w: u32, h: u32, element: u32) -> Vec<u8> {
    let kind = match rng.below(8) {
        0..=2 => LabelsKind::Skeleton,
        3 => LabelsKind::Minimal,
        4..=5 => LabelsKind::Free,
        6 => LabelsKind::Beyond,
        _ => LabelsKind::Any,
    };
    labels_of(rng, kind, w, h, element)
}

/// Labels of this kind.
pub fn labels_of(rng: &mut Rng, kind: LabelsKind, w: u32, h: u32, element: u32) -> Vec<u8> {
    let frame = Frame::new(w, h).expect("sides from 1 to 255");
    let mut skeleton = || {
        let kind = rng.pick(&IMAGE_KINDS);
        skeleton::decompose(&foreground(rng, kind, frame), element)
    };
    match kind {
        LabelsKind::Skeleton => skeleton(),
        LabelsKind::Minimal => skeleton::minimise(frame, element, &skeleton()),
        LabelsKind::Free => free(rng, frame, element, false),
        LabelsKind::Beyond => free(rng, frame, element, true),
        LabelsKind::Any => {
            let holes = rng.pick(&[1, 2, 8]);
            let label = |rng: &mut Rng| rng.number() as u8 * rng.one_in(holes) as u8;
            (0..frame.pixels()).map(|_| label(rng)).collect()
        }
    }
}

/// Labels that come from no image: each point has any size that fits its place; if asked for,
/// one has the smallest size that does not.
fn free(rng: &mut Rng, frame: Frame, element: u32, beyond: bool) -> Vec<u8> {
    let folds = folds(element, frame, 254);
    let mut labels = vec![0; frame.pixels()];
    let points = rng.between(1, frame.pixels().min(60));
    for left in (0..points).rev() {
        let place = rng.below(frame.pixels());
        let (x, y) = (place as i32 % frame.width, place as i32 / frame.width);
        let fits = folds.iter().take_while(|fold| fold.fits(frame, x, y));
        let fitting = fits.count();
        let size = if left == 0 && beyond {
            fitting.min(254)
        } else if rng.one_in(2) {
            fitting - 1
        } else {
            rng.below(fitting)
        };
        labels[place] = size as u8 + 1;
    }
    labels
}

/// A cut or an n: 0, 1, around the largest size, the limit and beyond, or any size.
pub fn cut_or_n(rng: &mut Rng, labels: &[u8]) -> u32 {
    let largest = labels.iter().copied().max().unwrap_or(0).saturating_sub(1) as u32;
    let any = rng.between(0, largest as usize) as u32;
    rng.pick(&[0, 1, largest, largest + 1, any, any, 255, 256, u32::MAX])
}

/// A mask that is accepted: one of the house set, or any other.
pub fn mask(rng: &mut Rng) -> (u32, u32) {
    if rng.one_in(2) {
        return rng.pick(&GOLAY_L);
    }
    let (mut fg, mut bg) = (16, 0);
    for bit in [0, 1, 2, 3, 5, 6, 7, 8] {
        match rng.below(4) {
            0 => fg |= 1 << bit,
            1 => bg |= 1 << bit,
            _ => {}
        }
    }
    (fg, bg)
}

/// The kinds of outputs that are lent for a stream, by their length.
#[derive(Clone, Copy, Debug, PartialEq, Eq, PartialOrd, Ord)]
pub enum OutputKind {
    /// As many bytes as the stream has.
    Exact,
    /// One byte less, where there is one.
    Short,
    Empty,
    /// Some bytes more.
    Longer,
    /// The longest that is lent.
    FarLonger,
    /// Any length up to twice the stream's.
    Any,
}

pub const OUTPUT_KINDS: [OutputKind; 6] = [
    OutputKind::Exact,
    OutputKind::Short,
    OutputKind::Empty,
    OutputKind::Longer,
    OutputKind::FarLonger,
    OutputKind::Any,
];

/// The longest output: `replay` takes no longer buffer.
const LONGEST: usize = 65_536;

/// An output for a stream of so many bytes, those that are long enough more often. It holds
/// anything.
pub fn output(rng: &mut Rng, bytes: usize) -> Vec<u8> {
    let kind = match rng.below(16) {
        0..=4 => OutputKind::Exact,
        5..=7 => OutputKind::Short,
        8 => OutputKind::Empty,
        9..=11 => OutputKind::Longer,
        12 => OutputKind::FarLonger,
        _ => OutputKind::Any,
    };
    output_of(rng, kind, bytes)
}

/// An output of this kind for a stream of so many bytes.
pub fn output_of(rng: &mut Rng, kind: OutputKind, bytes: usize) -> Vec<u8> {
    let len = match kind {
        OutputKind::Exact => bytes,
        OutputKind::Short => bytes.saturating_sub(1),
        OutputKind::Empty => 0,
        OutputKind::Longer => bytes + rng.between(1, 9),
        OutputKind::FarLonger => LONGEST,
        OutputKind::Any => rng.between(0, 2 * bytes),
    };
    rng.bytes(len)
}

#[cfg(test)]
mod tests {
    use super::*;

    #[test]
    fn digits_touch_each_edge() {
        let mut touched = [0; 4];
        for seed in 0..200 {
            let rng = &mut Rng::new(seed);
            let (w, h) = (side(rng).max(3), side(rng).max(5));
            let frame = Frame::new(w, h).expect("sides from 1 to 255");
            let set = digits(rng, frame.collect(|_, _| false));
            let edges = [
                set.points().any(|(x, _)| x == 0),
                set.points().any(|(x, _)| x == frame.width - 1),
                set.points().any(|(_, y)| y == 0),
                set.points().any(|(_, y)| y == frame.height - 1),
            ];
            assert!(edges.contains(&true));
            for (count, edge) in touched.iter_mut().zip(edges) {
                *count += edge as u32;
            }
        }
        assert!(touched.iter().all(|&count| count > 50));
    }
}
