//! Points that 01 leaves open or that its sources state wrongly, each as a fact.

use crate::calls;
use crate::plain::{self, Points};
use reference::cases::{run, shortened_at_a_cut};
use reference::drawn::{draw, draw_labels, full, image, labels};
use reference::Answer::*;
use reference::{RIGHT, SQUARE};

/// Sizes below the cut are found in the image that a sieve leaves.
#[test]
fn sizes_below_the_cut_occur_after_a_sieve() {
    let blocks: Points = plain::frame(10, 7)
        .filter(|&(x, y)| x <= 4 && y <= 4 || x >= 5 && y >= 2)
        .collect();
    let image = plain::packed(10, 7, &blocks);
    let (_, labels) = calls::decompose(10, 7, SQUARE, &image);
    let (answer, sieved) = calls::reconstruct(10, 7, SQUARE, 2, &labels);
    assert_eq!((answer, &sieved), (Area(50), &image));
    let (_, again) = calls::decompose(10, 7, SQUARE, &sieved);
    assert!(again.iter().any(|label| (1..=2).contains(label)));
}

/// 000 says that no points can be removed with one-dimensional elements. {-2..1} by {0} on a
/// run of six removes one.
#[test]
fn one_dimensional_elements_can_be_minimised() {
    let element = 15360;
    let offsets = Points::from([(-2, 0), (-1, 0), (0, 0), (1, 0)]);
    assert_eq!(plain::element(element), offsets);
    let (_, found) = calls::decompose(6, 1, element, &full(6, 1));
    assert_eq!(draw_labels(6, &found), "002220");
    let (answer, minimal) = calls::minimise(6, 1, element, &found);
    assert_eq!(
        (answer, draw_labels(6, &minimal).as_str()),
        (Minimal(2), "002020")
    );
}

/// 003 says that the points of size n are the centres of all maximal disks. With a general
/// element they are not: here 1B at (2,4) lies in 2B at (4,4), and (2,4) still has size 1.
#[test]
fn sizes_are_not_the_centres_of_maximal_disks() {
    let (element, b) = (1085601, plain::element(1085601));
    let twofold = plain::moved(&plain::times(&b, 2), (4, 4));
    assert!(plain::moved(&b, (2, 4)).is_subset(&twofold));
    let (_, found) = calls::decompose(5, 9, element, &plain::packed(5, 9, &twofold));
    let sized = plain::points(5, 9, &found);
    assert_eq!(sized, [((2, 4), 1), ((4, 4), 2)]);
    assert_eq!(found, plain::labels(5, 9, &plain::skeleton(&twofold, &b)));
}

/// 004 draws SQUARE as three two-pixel pieces. Three give at most eight points; four do it.
#[test]
fn square_is_a_chain_of_four_pairs() {
    let pairs = [(1, 0), (-1, 0), (0, 1), (0, -1)].map(|b| Points::from([(0, 0), b]));
    let chain = pairs
        .iter()
        .fold([(0, 0)].into(), |sum, pair| plain::dilate(&sum, pair));
    assert_eq!(chain, plain::element(SQUARE));
    assert!(plain::element(SQUARE).len() > 2 * 2 * 2);
}

/// A cut above 255 keeps no point, and a wild map is bad at any cut: 5, not 7.
#[test]
fn wild_labels_with_a_cut_above_255() {
    for cut in [254, 255, 256, u32::MAX] {
        assert_eq!(calls::reconstruct(1, 1, SQUARE, cut, &[255]).0, Refused(5));
    }
    assert_eq!(calls::reconstruct(1, 1, SQUARE, 255, &[1]).0, Area(0));
    assert_eq!(calls::reconstruct(1, 1, SQUARE, 256, &[1]).0, Refused(7));
}

/// Of a sieve whose second call alone is refused, the image stays; labels and work hold what
/// the first call left.
#[test]
fn a_sieve_refused_at_its_second_call() {
    let (w, h, bytes) = image("1101");
    let (mut labels, mut work) = ([9; 4], [9; 4]);
    reference::decompose(w, h, RIGHT, &bytes, &mut labels, &mut work);
    let mut left = bytes.clone();
    let answer = reference::reconstruct(w, h, RIGHT, 256, &labels, &mut left, &mut work);
    assert_eq!((answer, left), (Refused(7), bytes));
    assert_eq!((labels, work), ([2, 0, 0, 1], [0, 0, 0, 9]));
}

/// A sieve may be accepted with other sides of the same P; then a list of sieves is no opening
/// of the first image.
#[test]
fn a_sieve_with_other_sides_and_the_same_plane() {
    let (w, h, bytes) = image("110/100");
    assert_ne!(calls::decompose(w, h, RIGHT, &bytes).0, Refused(3));
    assert_ne!(calls::decompose(4, h, RIGHT, &bytes).0, Refused(3));
    // 8 by 2 read as 16 by 1: the run over the end of the row is whole.
    let (w, h, bytes) = image("00000001/10000000");
    let (answer, found) = calls::decompose(16, 1, RIGHT, &bytes);
    let whole = Skeleton {
        points: 1,
        max_size: 1,
    };
    assert_eq!(answer, whole);
    assert_eq!(calls::reconstruct(16, 1, RIGHT, 1, &found).1, bytes);
    assert_eq!(calls::open(w, h, RIGHT, 1, &bytes).1, [0, 0]);
}

/// A pixel can be covered by many points; here a middle one by thousands.
#[test]
fn cover_counts_of_a_large_frame() {
    let (w, h) = (255, 255);
    let distance = |z: i32| z.min(254 - z);
    let label = |(x, y): (i32, i32)| distance(x).min(distance(y)) as u8 + 1;
    let labels: Vec<u8> = plain::frame(w, h).map(label).collect();
    let (answer, minimal) = calls::minimise(w, h, SQUARE, &labels);
    assert_eq!(answer, Minimal(1));
    assert_eq!(minimal[127 * 255 + 127], 128);
    let (answer, image) = calls::reconstruct(w, h, SQUARE, 0, &minimal);
    assert_eq!((answer, image), (Area(65025), full(w, h)));
}

/// Labels that come from no image are minimised by the same walk.
#[test]
fn free_labels_are_minimised_by_the_same_walk() {
    let (answer, minimal) = calls::minimise(5, 1, RIGHT, &labels("22220"));
    assert_eq!(
        (answer, draw_labels(5, &minimal).as_str()),
        (Minimal(3), "20220")
    );
    let (_, image) = calls::reconstruct(5, 1, RIGHT, 0, &minimal);
    assert_eq!(draw(5, &image), "11111");
}

/// Labels of an image at a cut are its opening; shortened ones need not be.
#[test]
fn shortened_labels_at_a_cut_are_not_the_opening() {
    for s in shortened_at_a_cut() {
        assert_eq!(run(&s.call), (s.answer, s.after), "{:?}", s.call);
    }
}
