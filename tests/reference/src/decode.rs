//! The reader of codes ("coded ticket" in 02): symbols to runs, runs to points, points to labels;
//! these are held against the skeleton of the image that they rebuild.
//!
//! Row 9 has many reasons and one number. So a point that leaves the frame is refused where it is
//! met, and what the larger points cover, grown as far as a size, lies in the frame.

use crate::code::{covered, COMMA};
use crate::element::folds;
use crate::frame::{Frame, Set};
use crate::skeleton::{decompose, reconstruct};

/// What travels beside a stream.
#[derive(Clone, Copy, Debug, PartialEq, Eq, PartialOrd, Ord)]
pub enum Mark {
    /// The scan is blank.
    Blank,
    /// The largest size.
    Largest(u32),
}

/// The largest size of all.
const LAST_SIZE: u32 = 254;

/// The image that a code stands for, or the row that refuses it: 9 where it cannot be read, 10
/// where something follows it, 11 where it is of no image.
pub fn decode(frame: Frame, element: u32, mark: Mark, stream: &[u8]) -> Result<Set, u8> {
    let Mark::Largest(max_size) = mark else {
        let blank = frame.collect(|_, _| false);
        return stream.is_empty().then_some(blank).ok_or(10);
    };
    if max_size > LAST_SIZE {
        return Err(9);
    }
    let symbols = unpack(stream);
    let (sizes, rest) = sections(&symbols, max_size as usize + 1).ok_or(9)?;
    let labels = place(frame, element, &sizes).ok_or(9)?;
    if !is_padding(rest) {
        return Err(10);
    }
    let image = reconstruct(frame, element, 0, &labels);
    let is_skeleton = decompose(&image, element) == labels;
    is_skeleton.then_some(image).ok_or(11)
}

/// The symbols of bytes, from the top of each.
pub fn unpack(stream: &[u8]) -> Vec<u8> {
    let four = |byte: &u8| [6, 4, 2, 0].map(|shift| byte >> shift & 3);
    stream.iter().flat_map(four).collect()
}

/// The runs of so many sizes, and the symbols after the last. None where a size has no end or
/// what stands between its commas is no run.
pub fn sections(symbols: &[u8], count: usize) -> Option<(Vec<Vec<usize>>, &[u8])> {
    let (mut sizes, mut rest) = (vec![], symbols);
    for _ in 0..count {
        // Every run has a digit, so that the first two commas side by side end the size.
        let end = rest.windows(2).position(|two| two == [COMMA, COMMA])?;
        let numerals = rest[..end].split(|&symbol| symbol == COMMA);
        // Nothing at all is no run.
        let runs: Option<_> = numerals.filter(|_| end > 0).map(number).collect();
        sizes.push(runs?);
        rest = &rest[end + 2..];
    }
    Some((sizes, rest))
}

/// The run of a numeral; none where it has no digit or a leading zero. One that is too large for
/// the type is too large for any frame.
fn number(numeral: &[u8]) -> Option<usize> {
    const ZERO: u8 = 1;
    let value =
        |run: usize, digit: &u8| run.saturating_mul(3).saturating_add((digit - ZERO).into());
    match numeral {
        [] | [ZERO, _, ..] => None,
        digits => Some(digits.iter().fold(0, value)),
    }
}

/// The labels of all sizes, the largest first: each run passes over pixels that no larger point
/// covers, and a point follows it. None where the first size has no point, a run passes the
/// frame, or a point dilated to its size leaves it.
fn place(frame: Frame, element: u32, sizes: &[Vec<usize>]) -> Option<Vec<u8>> {
    sizes.first().filter(|runs| !runs.is_empty())?;
    let folds = folds(element, frame, sizes.len() - 1);
    let points: Vec<_> = frame.points().collect();
    let mut labels = vec![0; frame.pixels()];
    for (size, runs) in (0..sizes.len()).rev().zip(sizes) {
        let covered = covered(frame, &folds, size, &labels);
        let mut counted = (0..labels.len()).filter(|&z| !covered[z]);
        for &run in runs {
            let z = counted.nth(run)?;
            let (x, y) = points[z];
            folds.get(size).filter(|fold| fold.fits(frame, x, y))?;
            labels[z] = size as u8 + 1;
        }
    }
    Some(labels)
}

/// Whether symbols are what is left of a byte, and 0.
fn is_padding(symbols: &[u8]) -> bool {
    symbols.len() < 4 && symbols.iter().all(|&symbol| symbol == 0)
}

#[cfg(test)]
mod tests {
    use super::*;
    use crate::cases;
    use crate::code::{encode_labels, pack, section};
    use crate::rng::Rng;
    use crate::{LEFT, RIGHT, SQUARE};

    #[test]
    fn symbols_are_taken_from_the_top_of_bytes() {
        assert_eq!(unpack(&[]), []);
        assert_eq!(
            unpack(&[0b01_10_11_00, 0b10_00_00_01]),
            [1, 2, 3, 0, 2, 0, 0, 1]
        );
        let bytes: Vec<u8> = (0..=255).collect();
        assert_eq!(pack(&unpack(&bytes)), bytes);
    }

    #[test]
    fn a_numeral_has_a_digit_and_no_leading_zero() {
        assert_eq!(number(&[]), None);
        assert_eq!(number(&[1, 1]), None);
        assert_eq!(number(&[1, 3]), None);
        assert_eq!(number(&[1]), Some(0));
        assert_eq!(number(&[2, 1, 3]), Some(11));
        for run in 0..3000 {
            let symbols = section(&[run]);
            assert_eq!(number(&symbols[..symbols.len() - 2]), Some(run));
        }
        assert_eq!(number(&[2; 100_000]), Some(usize::MAX));
    }

    #[test]
    fn two_commas_end_a_size_and_the_rest_stays() {
        assert_eq!(sections(&[0, 0], 1), Some((vec![vec![]], &[][..])));
        assert_eq!(sections(&[1, 0, 0, 3], 1), Some((vec![vec![0]], &[3][..])));
        // Padding is not asked for.
        let three = [2, 1, 0, 1, 0, 0, 0, 0, 3, 0, 0, 0];
        let sizes = vec![vec![3, 0], vec![], vec![2]];
        assert_eq!(sections(&three, 3), Some((sizes.clone(), &[0][..])));
        assert_eq!(
            sections(&three, 2),
            Some((sizes[..2].to_vec(), &three[8..]))
        );
        assert_eq!(sections(&three, 4), None, "no size more");
    }

    #[test]
    fn what_is_no_run_is_no_size() {
        for symbols in [
            &[][..],
            &[0],
            &[1, 0],
            &[0, 1, 0, 0],
            &[1, 1, 0, 0],
            &[2, 0, 1, 2, 0, 0],
        ] {
            assert_eq!(sections(symbols, 1), None, "{symbols:?}");
        }
    }

    /// Sizes of runs are read as they are written, whatever the runs.
    #[test]
    fn sizes_are_read_as_they_are_written() {
        let rng = &mut Rng::new(1);
        for _ in 0..3000 {
            let count = rng.between(1, 6);
            let mut runs = || (0..rng.below(5)).map(|_| rng.below(40)).collect();
            let sizes: Vec<Vec<usize>> = (0..count).map(|_| runs()).collect();
            let symbols: Vec<u8> = sizes.iter().flat_map(|runs| section(runs)).collect();
            assert_eq!(sections(&symbols, count), Some((sizes.clone(), &[][..])));
            let bytes = unpack(&pack(&symbols));
            let (read, rest) = sections(&bytes, count).expect("so many sizes");
            assert_eq!(read, sizes);
            assert!(is_padding(rest));
        }
    }

    #[test]
    fn a_run_counts_the_pixels_that_are_not_covered() {
        let frame = Frame::new(5, 1).expect("sides from 1 to 255");
        let labels = |element, sizes: &[Vec<usize>]| place(frame, element, sizes);
        // Size 1 at 1 covers 1 and 2 (or 0 and 1): 0, 3 and 4 (or 2 to 4) are counted.
        let three = [vec![1], vec![0, 0, 0]];
        assert_eq!(labels(RIGHT, &three), Some(vec![1, 2, 0, 1, 1]));
        assert_eq!(labels(LEFT, &three), Some(vec![0, 2, 1, 1, 1]));
        assert_eq!(
            labels(RIGHT, &[vec![1], vec![2]]),
            Some(vec![0, 2, 0, 0, 1])
        );
        assert_eq!(
            labels(RIGHT, &[vec![1], vec![3]]),
            None,
            "it passes the frame"
        );
        assert_eq!(
            labels(RIGHT, &[vec![1], vec![2, 0]]),
            None,
            "the second does"
        );
        assert_eq!(labels(RIGHT, &[vec![usize::MAX]]), None);
        // 2B at 0 covers 0 to 2, B at 3 then 3 and 4, with B at 0 or not.
        let sizes = [vec![0], vec![1], vec![]];
        assert_eq!(labels(RIGHT, &sizes), Some(vec![3, 0, 0, 2, 0]));
    }

    #[test]
    fn the_first_size_has_a_point_and_no_point_leaves() {
        let frame = Frame::new(3, 3).expect("sides from 1 to 255");
        let labels = |sizes: &[Vec<usize>]| place(frame, SQUARE, sizes);
        assert_eq!(labels(&[vec![]]), None);
        assert_eq!(labels(&[vec![], vec![0]]), None);
        for run in 0..9 {
            assert_eq!(labels(&[vec![run], vec![]]).is_some(), run == 4, "{run}");
            assert!(labels(&[vec![run]]).is_some());
            // 2B is wider than the frame.
            assert_eq!(labels(&[vec![run], vec![], vec![]]), None);
        }
    }

    #[test]
    fn padding_is_less_than_a_byte_and_0() {
        assert!([&[][..], &[0], &[0, 0], &[0, 0, 0]]
            .into_iter()
            .all(is_padding));
        let others = [&[1][..], &[0, 3], &[2, 0, 0], &[0, 0, 0, 0], &[0; 8]];
        assert!(!others.into_iter().any(is_padding));
    }

    /// The code of any labels whose points fit and none of which a larger one covers leads back
    /// to them, though they be no skeleton.
    #[test]
    fn labels_are_placed_as_they_are_coded() {
        let (mut same, mut lost, mut refused) = (0, 0, 0);
        for seed in 0..4000 {
            let rng = &mut Rng::new(seed);
            let (w, h, element) = (cases::side(rng), cases::side(rng), cases::element(rng));
            let frame = Frame::new(w, h).expect("sides from 1 to 255");
            let labels = cases::labels(rng, w, h, element);
            let Some(code) = encode_labels(frame, element, &labels) else {
                continue;
            };
            let symbols = unpack(&code.stream);
            let (sizes, rest) = sections(&symbols, code.max_size + 1).expect("its sizes");
            assert!(is_padding(rest));
            match place(frame, element, &sizes) {
                Some(placed) => {
                    let kept = placed.iter().zip(&labels);
                    assert!(kept.clone().all(|(a, b)| a == b || *a == 0), "seed {seed}");
                    let all = placed == labels;
                    same += all as u32;
                    lost += !all as u32;
                }
                None => {
                    let leaves = crate::skeleton::leaves_frame(frame, element, &labels);
                    assert!(leaves, "seed {seed}");
                    refused += 1;
                }
            }
        }
        let met = [same, lost, refused];
        assert!(met.iter().all(|&times| times > 300), "{met:?}");
    }
}
