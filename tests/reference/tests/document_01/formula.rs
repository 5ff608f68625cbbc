//! Every operation against the formula read word for word, on small random images and
//! random, mostly lopsided elements. The first test is the check of the claim, made in the
//! library's head comment, that the sizes are distances compared.

use crate::calls;
use crate::plain::{self, Points};
use reference::cases;
use reference::rng::Rng;
use reference::Answer::*;

/// Small sides, an element, an image.
fn small(rng: &mut Rng) -> (u32, u32, u32, Vec<u8>) {
    let (w, h) = (rng.between(1, 12) as u32, rng.between(1, 8) as u32);
    let element = cases::element(rng);
    (w, h, element, cases::image(rng, w, h))
}

#[test]
fn formula_sizes_are_distances_compared() {
    let rng = &mut Rng::new(1);
    for _ in 0..6000 {
        let (w, h, element, image) = small(rng);
        let subsets = plain::skeleton(&plain::foreground(w, h, &image), &plain::element(element));
        // X(n) is empty once n reaches the larger side.
        assert!(subsets.len() as u32 <= w.max(h));
        let labels = plain::labels(w, h, &subsets);
        let points = subsets.iter().map(|subset| subset.len() as u32).sum();
        let answer = match subsets.len() as u32 {
            0 => Blank,
            sizes => Skeleton {
                points,
                max_size: sizes - 1,
            },
        };
        assert_eq!(
            calls::decompose(w, h, element, &image),
            (answer, labels),
            "{w} by {h}, element {element}, {image:?}"
        );
    }
}

#[test]
fn formula_erode_and_open() {
    let rng = &mut Rng::new(2);
    for _ in 0..1500 {
        let (w, h, element, image) = small(rng);
        let (x, b) = (plain::foreground(w, h, &image), plain::element(element));
        for n in (0..=w.max(h)).filter(|n| n % 3 != 2) {
            let times = plain::times(&b, n as usize);
            let eroded = plain::erode(&x, &times);
            let opened = plain::dilate(&eroded, &times);
            assert_eq!(
                calls::erode(w, h, element, n, &image),
                (Area(eroded.len() as u32), plain::packed(w, h, &eroded))
            );
            assert_eq!(
                calls::open(w, h, element, n, &image),
                (Area(opened.len() as u32), plain::packed(w, h, &opened))
            );
            if eroded.is_empty() {
                break;
            }
        }
        assert_eq!(calls::open(w, h, element, 0, &image).1, image);
        assert_eq!(calls::erode(w, h, element, 255, &image).0, Area(0));
        assert_eq!(calls::open(w, h, element, 255, &image).0, Area(0));
    }
}

#[test]
fn formula_reconstruct() {
    let rng = &mut Rng::new(3);
    let (mut accepted, mut hidden) = (0, 0);
    for _ in 0..3000 {
        let (w, h, element, _) = small(rng);
        let (b, labels) = (plain::element(element), cases::labels(rng, w, h, element));
        let cut = rng.between(0, 4) as u32;
        let frame = plain::frame(w, h).collect();
        // With sides up to 12 a size above 12 always leaves the frame.
        let leaves = |cut: u32| {
            let large = |&label: &u8| label > 13 && label as u32 > cut;
            labels.iter().any(large)
                || !plain::reconstruct(w, h, &b, cut, &labels).is_subset(&frame)
        };
        let (answer, image) = calls::reconstruct(w, h, element, cut, &labels);
        if leaves(0) {
            assert_eq!(answer, Refused(5));
            hidden += !leaves(cut) as u32;
        } else {
            let union = plain::reconstruct(w, h, &b, cut, &labels);
            assert_eq!(answer, Area(union.len() as u32));
            assert_eq!(image, plain::packed(w, h, &union));
            accepted += 1;
        }
    }
    assert!(accepted > 1000 && hidden > 100, "{accepted} {hidden}");
}

#[test]
fn formula_minimise() {
    let rng = &mut Rng::new(4);
    let mut accepted = 0;
    for _ in 0..1200 {
        let (w, h) = (rng.between(1, 7) as u32, rng.between(1, 6) as u32);
        let element = cases::element(rng);
        let labels = cases::labels(rng, w, h, element);
        let (answer, minimal) = calls::minimise(w, h, element, &labels);
        if answer != Refused(5) {
            let expected = plain::minimise(w, h, &plain::element(element), &labels);
            let points = plain::points(w, h, &expected).len() as u32;
            assert_eq!((answer, minimal), (Minimal(points), expected));
            accepted += 1;
        }
    }
    assert!(accepted > 600);
}

/// Hit-or-miss by the house set, and thinning, where these points of the frame are judged.
fn hits_and_thins(w: u32, h: u32, x: &Points, judged: &Points) {
    let image = plain::packed(w, h, x);
    for mask in plain::HOUSE {
        let (fg, bg) = plain::numbers(mask);
        let hit = plain::hit_or_miss(judged, x, mask);
        assert_eq!(
            calls::hit_or_miss(w, h, fg, bg, &image),
            (Area(hit.len() as u32), plain::packed(w, h, &hit))
        );
    }
    let (thinned, passes) = plain::thin(x, |x, mask| plain::thin_step(judged, x, mask));
    let area = thinned.len() as u32;
    let removed = x.len() as u32 - area;
    assert_eq!(
        calls::thin(w, h, &image),
        (
            Thinned {
                passes,
                removed,
                area
            },
            plain::packed(w, h, &thinned)
        )
    );
}

#[test]
fn formula_hit_or_miss_and_thin() {
    let rng = &mut Rng::new(5);
    for _ in 0..1500 {
        let (w, h) = (rng.between(1, 20) as u32, rng.between(1, 12) as u32);
        let x = plain::foreground(w, h, &cases::image(rng, w, h));
        hits_and_thins(w, h, &x, &plain::interior(w, h));
    }
}

/// What T-04 says of the block of J and K, for any image: within a blank margin it keeps the
/// answers of 01, where every point was judged, moved by (1,1).
#[test]
fn formula_within_a_blank_margin() {
    let rng = &mut Rng::new(10);
    for _ in 0..500 {
        let (w, h) = (rng.between(1, 20) as u32, rng.between(1, 12) as u32);
        let x = plain::foreground(w, h, &cases::image(rng, w, h));
        let every = plain::frame(w + 2, h + 2).collect();
        hits_and_thins(w + 2, h + 2, &plain::moved(&x, (1, 1)), &every);
    }
}

/// Masks other than the house set, each drawn at random.
#[test]
fn formula_hit_or_miss_by_any_mask() {
    let rng = &mut Rng::new(6);
    for _ in 0..2000 {
        let (w, h) = (rng.between(1, 10) as u32, rng.between(1, 10) as u32);
        let image = cases::image(rng, w, h);
        let (fg, bg) = cases::mask(rng);
        let x = plain::foreground(w, h, &image);
        let near = |&(zx, zy): &(i32, i32)| {
            (-1..=1).all(|dy| {
                (-1..=1).all(|dx| {
                    let bit = 1 << (3 * (dy + 1) + (dx + 1));
                    let here = x.contains(&(zx + dx, zy + dy));
                    (fg & bit == 0 || here) && (bg & bit == 0 || !here)
                })
            })
        };
        let hit: Points = plain::interior(w, h).into_iter().filter(near).collect();
        assert_eq!(
            calls::hit_or_miss(w, h, fg, bg, &image),
            (Area(hit.len() as u32), plain::packed(w, h, &hit))
        );
    }
}

/// "Masks 3 and 4 are 1 and 2 turned a quarter clockwise, and so on."
#[test]
fn house_set_is_two_masks_turned() {
    assert_eq!(plain::HOUSE.map(plain::numbers), reference::GOLAY_L);
    // A quarter clockwise, with y down, takes (dx, dy) to (-dy, dx).
    let turn = |number: u32| {
        (0..9)
            .filter(|bit| number >> bit & 1 == 1)
            .map(|bit| (bit % 3 - 1, bit / 3 - 1))
            .map(|(dx, dy)| 1 << (3 * (dx + 1) + (1 - dy)))
            .sum::<u32>()
    };
    for k in 0..8 {
        let (fg, bg) = reference::GOLAY_L[k];
        assert_eq!((turn(fg), turn(bg)), reference::GOLAY_L[(k + 2) % 8]);
    }
}

/// The five named elements are what their words say.
#[test]
fn elements_of_the_cases() {
    let block = |reach: i32| -> Points {
        (-reach..=reach)
            .flat_map(|dy| (-reach..=reach).map(move |dx| (dx, dy)))
            .collect()
    };
    assert_eq!(plain::element(reference::SQUARE), block(1));
    let mut plus = block(1);
    plus.retain(|(dx, dy)| dx * dy == 0);
    assert_eq!(plain::element(reference::PLUS), plus);
    let mut round = block(2);
    round.retain(|(dx, dy)| dx * dx + dy * dy < 8);
    assert_eq!(plain::element(reference::ROUND), round);
    assert_eq!(plain::element(reference::RIGHT), [(0, 0), (1, 0)].into());
    assert_eq!(plain::element(reference::LEFT), [(0, 0), (-1, 0)].into());
    let named = [
        reference::SQUARE,
        reference::PLUS,
        reference::ROUND,
        reference::RIGHT,
        reference::LEFT,
    ];
    assert_eq!(named, [473536, 145536, 15728622, 12288, 6144]);
}
