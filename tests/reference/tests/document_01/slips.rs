//! The slips listed in 01: each is acted out on the formula, gives what the document says it
//! gives, and is not what the operations give.

use crate::calls;
use crate::plain::{self, Mask, Points, HOUSE};
use reference::drawn::{draw, draw_labels, full, image};
use reference::Answer::Area;
use reference::{LEFT, RIGHT, SQUARE};

fn reflected(b: &Points) -> Points {
    b.iter().map(|(dx, dy)| (-dx, -dy)).collect()
}

/// The labels by the formula, but with one element for eroding and another for dilating.
fn labels_with(drawn: &str, erode_by: &Points, dilate_by: &Points) -> String {
    let (w, h, bytes) = image(drawn);
    let mut eroded = plain::foreground(w, h, &bytes);
    let mut subsets = vec![];
    while !eroded.is_empty() {
        let next = plain::erode(&eroded, erode_by);
        subsets.push(&eroded - &plain::dilate(&next, dilate_by));
        eroded = next;
    }
    draw_labels(w, &plain::labels(w, h, &subsets))
}

fn decompose(drawn: &str, element: u32) -> String {
    let (w, h, bytes) = image(drawn);
    draw_labels(w, &calls::decompose(w, h, element, &bytes).1)
}

#[test]
fn slip_erosion_by_the_reflected_element() {
    let right = plain::element(RIGHT);
    assert_eq!(labels_with("1101", &right, &right), "2001");
    assert_eq!(labels_with("1101", &reflected(&right), &right), "1201");
    assert_eq!(decompose("1101", RIGHT), "2001");
}

#[test]
fn slip_both_reflected_trades_g_and_h() {
    let right = reflected(&plain::element(RIGHT));
    let left = reflected(&plain::element(LEFT));
    assert_eq!(labels_with("1101", &right, &right), "0201");
    assert_eq!(labels_with("1101", &left, &left), "2001");
    assert_eq!(decompose("1101", RIGHT), "2001");
    assert_eq!(decompose("1101", LEFT), "0201");
}

#[test]
fn slip_outside_taken_as_foreground() {
    let b = plain::element(SQUARE);
    let slip = |x: &Points| -> Points {
        let ink = |z: (i32, i32)| z != (0, 0) || x.contains(&z);
        let stays = |z: &(i32, i32)| plain::moved(&b, *z).into_iter().all(ink);
        plain::frame(1, 1).filter(stays).collect()
    };
    // The dot of D never shrinks.
    let dot = Points::from([(0, 0)]);
    assert_eq!(slip(&dot), dot);
    for n in 1..=255 {
        assert_eq!(calls::erode(1, 1, SQUARE, n, &[0x80]), (Area(0), vec![0]));
    }
    assert_eq!(decompose("1", SQUARE), "1");
}

#[test]
fn slip_two_masks_joined_in_one_step() {
    let (w, h, bytes) = image("00000/01110/01110/01110/00000");
    let (x, interior) = (plain::foreground(w, h, &bytes), plain::interior(w, h));
    let drawn = |x: &Points| draw(w, &plain::packed(w, h, x));
    let joined = plain::hit_or_miss(&interior, &x, HOUSE[0]);
    let joined = &(&x - &joined) - &plain::hit_or_miss(&interior, &x, HOUSE[1]);
    assert_eq!(drawn(&joined), "00000/01000/01110/01110/00000");
    let first = plain::thin_step(&interior, &x, HOUSE[0]);
    let second = plain::thin_step(&interior, &first, HOUSE[1]);
    assert_eq!(drawn(&second), "00000/01010/01110/01110/00000");
    // The operation takes the steps one by one: K keeps (3,1).
    let (_, thinned) = calls::thin(w, h, &bytes);
    assert_eq!(draw(w, &thinned), "00000/01010/01100/01000/00000");
}

#[test]
fn slip_hit_tested_against_pixels_removed_in_the_same_step() {
    let (w, h, bytes) = image("0000000/0111110/0111110/0111110/0000000");
    let (x, interior) = (plain::foreground(w, h, &bytes), plain::interior(w, h));
    let step = |x: &Points, mask: Mask| plain::thin_step(&interior, x, mask);
    let in_place = |x: &Points, mask: Mask| {
        let mut left = x.clone();
        for z in plain::frame(w, h).filter(|z| x.contains(z) && interior.contains(z)) {
            if plain::fits(&left, mask, z) {
                left.remove(&z);
            }
        }
        left
    };
    let drawn = |x: &Points| draw(w, &plain::packed(w, h, x));
    let first = "0000000/0100010/0111110/0111110/0000000";
    assert_eq!(drawn(&step(&x, HOUSE[0])), first);
    let slip = "0000000/0100010/0110110/0111110/0000000";
    assert_eq!(drawn(&in_place(&x, HOUSE[0])), slip);
    // The operation judges on the image before the step.
    let (_, hits) = calls::hit_or_miss(w, h, 464, 7, &bytes);
    assert_eq!(draw(w, &hits), "0000000/0011100/0000000/0000000/0000000");
    let thinned = plain::packed(w, h, &plain::thin(&x, step).0);
    assert_ne!(thinned, plain::packed(w, h, &plain::thin(&x, in_place).0));
    assert_eq!(calls::thin(w, h, &bytes).1, thinned);
}

#[test]
fn slip_opening_of_x_in_place_of_x_n() {
    // C: X is its own opening, so nothing of X(n) would be left at any size.
    let (x, b) = (plain::foreground(5, 5, &full(5, 5)), plain::element(SQUARE));
    for n in 0..3 {
        let eroded = plain::erode(&x, &plain::times(&b, n));
        assert!((&eroded - &plain::open(&x, &b)).is_empty());
    }
    let found = decompose("11111/11111/11111/11111/11111", SQUARE);
    assert_eq!(found, "00000/00000/00300/00000/00000");
}

/// Dilation never runs on into the next row, nor into padding bits: the top row, or the last
/// column, all foreground, comes back from its points alone.
#[test]
fn slip_wrap_from_one_row_to_the_next() {
    let down = 4096 | 1 << 17; // the origin and (0, 1)
    for w in 1..=33 {
        let row = "1".repeat(w) + "/" + &"0".repeat(w) + "/" + &"0".repeat(w);
        let end = "0".repeat(w - 1) + "1";
        let column = [end.as_str(); 3].join("/");
        for (drawn, element) in [(&row, RIGHT), (&row, LEFT), (&column, down)] {
            let (w, h, bytes) = image(drawn);
            let (_, labels) = calls::decompose(w, h, element, &bytes);
            let largest = *labels.iter().max().unwrap() as u32 - 1;
            for cut in 0..=largest {
                let rebuilt = calls::reconstruct(w, h, element, cut, &labels).1;
                assert_eq!(&draw(w, &rebuilt), drawn);
                assert_eq!(calls::open(w, h, element, cut, &bytes).1, bytes);
            }
        }
    }
}
