//! The code of an image ("coded ticket" in 02): its skeleton as runs, written in base 3.
//!
//! Size n is coded on the pixels that no larger point, grown as far as this size, covers: here
//! these are the places of (m-n)B moved to the points of size m, for every m above n. 02 grows
//! in turn: the points one size up together with their own mask, once by B. Growing a union
//! is the union of what is grown, and (k+1)B is kB grown by B, so that both are one set. With
//! the points of an image nothing that is grown leaves the frame: (m-n)B lies in mB.

use crate::element::{folds, Fold};
use crate::frame::{Frame, Set};
use crate::skeleton::decompose;

/// The stream, and the largest size, which travels beside it.
#[derive(Debug, PartialEq)]
pub struct Code {
    pub max_size: usize,
    pub stream: Vec<u8>,
}

/// The code of an image; a blank one has none.
pub fn encode(x: &Set, element: u32) -> Option<Code> {
    encode_labels(x.frame, element, &decompose(x, element))
}

/// The code of labels of any kind; without a point they have none. A point that a larger one
/// covers has no run, and is lost.
pub fn encode_labels(frame: Frame, element: u32, labels: &[u8]) -> Option<Code> {
    let largest = labels.iter().copied().max().unwrap_or(0) as usize;
    let max_size = largest.checked_sub(1)?;
    let folds = folds(element, frame, max_size);
    let sizes = (0..=max_size).rev();
    let symbols: Vec<u8> = sizes
        .flat_map(|size| section(&runs(size, labels, &covered(frame, &folds, size, labels))))
        .collect();
    Some(Code {
        max_size,
        stream: pack(&symbols),
    })
}

/// Whether each place is covered by points of sizes above this one, grown as far as it. One that
/// leaves the frame so covers nothing: no image has it.
pub fn covered(frame: Frame, folds: &[Fold], size: usize, labels: &[u8]) -> Vec<bool> {
    let mut covered = vec![false; frame.pixels()];
    for ((x, y), &label) in frame.points().zip(labels) {
        let larger_by = (label as usize).saturating_sub(size + 1);
        let fold = folds.get(larger_by).filter(|_| larger_by > 0);
        if let Some(fold) = fold.filter(|fold| fold.fits(frame, x, y)) {
            for places in fold.places(frame, x, y) {
                covered[places].fill(true);
            }
        }
    }
    covered
}

/// For each point of a size, how many of the pixels that are not covered stand between it and
/// the point before it, or the start.
fn runs(size: usize, labels: &[u8], covered: &[bool]) -> Vec<usize> {
    let counted: Vec<usize> = (0..labels.len()).filter(|&z| !covered[z]).collect();
    let is_point = |&at: &usize| labels[counted[at]] as usize == size + 1;
    let points: Vec<usize> = (0..counted.len()).filter(is_point).collect();
    let starts = std::iter::once(0).chain(points.iter().map(|at| at + 1));
    points
        .iter()
        .zip(starts)
        .map(|(at, from)| at - from)
        .collect()
}

/// The symbol that parts runs. A digit d is the symbol d+1.
pub const COMMA: u8 = 0;

/// The symbols of a size: commas part the runs, and two end it.
pub fn section(runs: &[usize]) -> Vec<u8> {
    let numerals: Vec<Vec<u8>> = runs.iter().map(|&run| numeral(run)).collect();
    let mut symbols = numerals.join(&COMMA);
    symbols.extend([COMMA, COMMA]);
    symbols
}

/// The symbols of a run's base-3 digits, the highest first; of 0 the one digit 0.
fn numeral(run: usize) -> Vec<u8> {
    let digit = (run % 3) as u8 + 1;
    let mut symbols = if run < 3 { vec![] } else { numeral(run / 3) };
    symbols.push(digit);
    symbols
}

/// Symbols of two bits fill bytes from the top; the last byte is padded with 0.
pub fn pack(symbols: &[u8]) -> Vec<u8> {
    let at = |four: &[u8], i: usize| four.get(i).copied().unwrap_or(0);
    let byte = |four: &[u8]| (0..4).fold(0, |byte, i| byte << 2 | at(four, i));
    symbols.chunks(4).map(byte).collect()
}

#[cfg(test)]
mod tests {
    use super::*;
    use crate::cases;
    use crate::element::offsets;
    use crate::rng::Rng;

    /// The mask of each size, the largest first, as 02 says it: the points one size up
    /// together with their own mask, grown once.
    fn masks_in_turn(frame: Frame, element: u32, labels: &[u8], max_size: usize) -> Vec<Set> {
        let b = offsets(element);
        let mut masks = vec![frame.collect(|_, _| false)];
        for size in (1..=max_size).rev() {
            let mask = &masks[masks.len() - 1];
            let grows = |x, y| {
                let is_point = |i: usize| labels[i] as usize == size + 1;
                mask.has(x, y) || frame.index(x, y).is_some_and(is_point)
            };
            masks.push(frame.collect(|x, y| b.iter().any(|b| grows(x - b.0, y - b.1))));
        }
        masks
    }

    #[test]
    fn both_readings_of_the_mask_agree() {
        let (mut sizes, mut masked) = (0, 0);
        for seed in 0..3000 {
            let rng = &mut Rng::new(seed);
            let (w, h) = (rng.between(1, 24) as u32, rng.between(1, 16) as u32);
            let frame = Frame::new(w, h).expect("sides from 1 to 255");
            let element = cases::element(rng);
            let labels = decompose(&frame.unpack(&cases::image(rng, w, h)), element);
            let Some(max_size) = labels.iter().max().and_then(|&label| label.checked_sub(1)) else {
                continue;
            };
            let max_size = max_size as usize;
            let folds = folds(element, frame, max_size);
            let in_turn = masks_in_turn(frame, element, &labels, max_size);
            for (size, mask) in (0..=max_size).rev().zip(&in_turn) {
                let at_once = covered(frame, &folds, size, &labels);
                assert_eq!(at_once, mask.member, "seed {seed}, size {size}");
                sizes += 1;
                masked += (mask.area() > 0) as u32;
            }
        }
        assert!(
            sizes > 5000 && masked > 2000,
            "{sizes} sizes, {masked} masks"
        );
    }

    /// No point of a size is covered, so that each has its run.
    #[test]
    fn every_point_has_a_run() {
        for seed in 0..1000 {
            let rng = &mut Rng::new(seed);
            let (w, h, element) = (cases::side(rng), cases::side(rng), cases::element(rng));
            let frame = Frame::new(w, h).expect("sides from 1 to 255");
            let labels = decompose(&frame.unpack(&cases::image(rng, w, h)), element);
            let largest = labels.iter().copied().max().unwrap_or(0) as usize;
            let folds = folds(element, frame, largest.saturating_sub(1));
            for size in 0..largest {
                let of_size = labels.iter().filter(|&&label| label as usize == size + 1);
                let covered = covered(frame, &folds, size, &labels);
                assert_eq!(runs(size, &labels, &covered).len(), of_size.count());
            }
        }
    }

    #[test]
    fn a_run_counts_the_pixels_between() {
        let (labels, none) = ([0, 1, 1, 0, 0, 1, 0], [false; 7]);
        assert_eq!(runs(0, &labels, &none), [1, 0, 2]);
        assert_eq!(runs(1, &labels, &none), []);
        let covered = [true, false, false, false, true, false, false];
        assert_eq!(runs(0, &labels, &covered), [0, 0, 1]);
    }

    #[test]
    fn a_run_has_no_leading_zero_and_zero_is_one_digit() {
        assert_eq!(numeral(0), [1]);
        assert_eq!(numeral(2), [3]);
        assert_eq!(numeral(3), [2, 1]);
        assert_eq!(numeral(11), [2, 1, 3]);
        for run in 0..66_000 {
            let symbols = numeral(run);
            assert!(symbols.iter().all(|symbol| (1..=3).contains(symbol)));
            assert!(run == 0 || symbols[0] > 1, "{run}");
            let value = |value, &symbol: &u8| 3 * value + symbol as usize - 1;
            assert_eq!(symbols.iter().fold(0, value), run);
        }
    }

    #[test]
    fn commas_part_the_runs_and_two_end_a_size_empty_or_not() {
        assert_eq!(section(&[]), [0, 0]);
        assert_eq!(section(&[4]), [2, 2, 0, 0]);
        assert_eq!(section(&[0, 3, 0]), [1, 0, 2, 1, 0, 1, 0, 0]);
    }

    #[test]
    fn bits_fill_bytes_from_the_top() {
        assert_eq!(pack(&[]), []);
        assert_eq!(pack(&[3]), [0b11_00_00_00]);
        assert_eq!(pack(&[1, 2, 3, 0]), [0b01_10_11_00]);
        assert_eq!(pack(&[0, 0, 0, 0, 0]), [0, 0]);
        assert_eq!(pack(&[1, 2, 3, 0, 0, 2]), [0b01_10_11_00, 0b00_10_00_00]);
    }
}
