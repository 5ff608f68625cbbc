//! What 01 says of every image, labels and list of sieves, on seeded random ones.

use crate::calls;
use reference::drawn::full;
use reference::rng::Rng;
use reference::Answer::*;
use reference::{cases, LEFT, PLUS, RIGHT, ROUND, SQUARE};

/// Sides, an element, an image and its labels.
struct Decomposed {
    w: u32,
    h: u32,
    element: u32,
    image: Vec<u8>,
    labels: Vec<u8>,
}

impl Decomposed {
    fn of(w: u32, h: u32, element: u32, image: Vec<u8>) -> Decomposed {
        let (answer, labels) = calls::decompose(w, h, element, &image);
        assert!(matches!(answer, Blank | Skeleton { .. }));
        Decomposed {
            w,
            h,
            element,
            image,
            labels,
        }
    }

    fn random(rng: &mut Rng) -> Decomposed {
        let (w, h) = (cases::side(rng), cases::side(rng));
        let element = cases::element(rng);
        let image = cases::image(rng, w, h);
        Decomposed::of(w, h, element, image)
    }

    /// The largest size, 0 on a blank image.
    fn largest(&self) -> u32 {
        let label = *self.labels.iter().max().unwrap() as u32;
        label.saturating_sub(1)
    }

    fn reconstruct(&self, cut: u32) -> Vec<u8> {
        calls::reconstruct(self.w, self.h, self.element, cut, &self.labels).1
    }
}

fn area(image: &[u8]) -> u32 {
    image.iter().map(|byte| byte.count_ones()).sum()
}

#[test]
fn reconstruction_at_0_is_the_image() {
    let rng = &mut Rng::new(11);
    for _ in 0..2000 {
        let d = Decomposed::random(rng);
        let rebuilt = calls::reconstruct(d.w, d.h, d.element, 0, &d.labels);
        assert_eq!(rebuilt, (Area(area(&d.image)), d.image));
    }
}

#[test]
fn reconstruction_at_k_is_the_opening_by_k() {
    let rng = &mut Rng::new(12);
    for _ in 0..600 {
        let d = Decomposed::random(rng);
        let any = rng.between(0, d.largest() as usize) as u32;
        for cut in [1, 2, any, d.largest(), d.largest() + 1, 255] {
            let rebuilt = calls::reconstruct(d.w, d.h, d.element, cut, &d.labels);
            assert_eq!(rebuilt, calls::open(d.w, d.h, d.element, cut, &d.image));
        }
    }
}

#[test]
fn the_labels_are_found_again() {
    let rng = &mut Rng::new(13);
    for _ in 0..600 {
        let d = Decomposed::random(rng);
        let again = Decomposed::of(d.w, d.h, d.element, d.reconstruct(0));
        assert_eq!(again.labels, d.labels);
        // From a cut on, the labels of that size and up are the same at the same places.
        let cut = rng.between(0, d.largest() as usize + 1) as u32;
        let sieved = Decomposed::of(d.w, d.h, d.element, d.reconstruct(cut));
        for (before, after) in d.labels.iter().zip(&sieved.labels) {
            assert!(before == after || before.max(after) <= &(cut as u8));
        }
    }
}

/// A sieve: decomposition into labels, then reconstruction at a cut into the same image, each
/// call with its own work. It gives the area, or the refusal.
fn sieve(
    (w, h, element, cut): (u32, u32, u32, u32),
    image: &mut [u8],
    labels: &mut [u8],
    work: [&mut [u8]; 2],
) -> Result<u32, u8> {
    let [first, second] = work;
    if let Refused(row) = reference::decompose(w, h, element, image, labels, first) {
        return Err(row);
    }
    match reference::reconstruct(w, h, element, cut, labels, image, second) {
        Refused(row) => Err(row),
        Area(area) => Ok(area),
        other => panic!("{other:?}"),
    }
}

#[test]
fn a_list_of_sieves_is_one_opening_by_the_largest_cut() {
    let rng = &mut Rng::new(14);
    for _ in 0..1500 {
        let first = Decomposed::random(rng);
        let (w, h, element) = (first.w, first.h, first.element);
        let (bytes, pixels) = (first.image.len(), (w * h) as usize);
        let mut image = first.image.clone();
        let (mut largest_cut, mut last_area) = (0, None);
        for _ in 0..rng.below(5) {
            let cut = cases::cut_or_n(rng, &first.labels);
            let mut call = (w, h, element, cut);
            let mut labels = rng.bytes(pixels);
            let mut work = [rng.bytes(3 * bytes), rng.bytes(3 * bytes + 2)];
            // One in four has arguments that are surely refused.
            match rng.below(20) {
                0 => call.0 = 0,
                1 => call.1 = 256,
                2 => call.2 = 4096,
                3 => drop(labels.pop()),
                4 => work[rng.below(2)].truncate(3 * bytes - 1),
                _ => {}
            }
            let before = image.clone();
            let [first, second] = &mut work;
            match sieve(call, &mut image, &mut labels, [first, second]) {
                Ok(area) => {
                    largest_cut = largest_cut.max(cut);
                    last_area = Some(area);
                }
                Err(_) => assert_eq!(image, before, "refused: the image stays"),
            }
        }
        let (answer, opened) = calls::open(w, h, element, largest_cut, &first.image);
        assert_eq!(image, opened);
        if let Some(area) = last_area {
            assert_eq!(Area(area), answer);
        }
        let last = Decomposed::of(w, h, element, image);
        let above = |label: &u8| (*label as u32 > largest_cut).then_some(*label);
        assert!(first
            .labels
            .iter()
            .map(above)
            .eq(last.labels.iter().map(above)));
    }
}

/// "A bad map is bad at any cut": labels are refused at all cuts or at none, and by shortening too.
#[test]
fn a_bad_map_is_bad_at_any_cut() {
    let rng = &mut Rng::new(19);
    let (mut bad, mut sound) = (0, 0);
    for _ in 0..1500 {
        let (w, h) = (rng.between(1, 30) as u32, rng.between(1, 16) as u32);
        let element = cases::element(rng);
        let labels = cases::labels(rng, w, h, element);
        let is_bad = calls::minimise(w, h, element, &labels).0 == Refused(5);
        for cut in [0, 1, 2, 3, 5, 8, 16, 30, 254, 255, 256, u32::MAX] {
            let (answer, _) = calls::reconstruct(w, h, element, cut, &labels);
            assert_eq!(answer == Refused(5), is_bad, "cut {cut}");
        }
        bad += is_bad as u32;
        sound += !is_bad as u32;
    }
    assert!(bad > 200 && sound > 600, "{bad} {sound}");
}

/// The minimal labels reconstruct the same, and not with any one more point dropped.
#[test]
fn minimal_labels() {
    let rng = &mut Rng::new(15);
    let mut shorter = 0;
    for _ in 0..1500 {
        let (w, h) = (rng.between(1, 30) as u32, rng.between(1, 16) as u32);
        let element = cases::element(rng);
        let labels = cases::labels(rng, w, h, element);
        let (answer, mut minimal) = calls::minimise(w, h, element, &labels);
        let (before, image) = calls::reconstruct(w, h, element, 0, &labels);
        if answer == Refused(5) {
            assert_eq!(before, Refused(5));
            continue;
        }
        let points = minimal.iter().filter(|&&label| label > 0).count();
        assert_eq!(answer, Minimal(points as u32));
        let kept = |(after, before): (&u8, &u8)| after == before || *after == 0;
        assert!(minimal.iter().zip(&labels).all(kept));
        assert_eq!(calls::reconstruct(w, h, element, 0, &minimal).1, image);
        shorter += (minimal != labels) as u32;
        for place in 0..minimal.len() {
            let label = std::mem::take(&mut minimal[place]);
            let rebuilt = calls::reconstruct(w, h, element, 0, &minimal).1;
            assert_eq!(rebuilt == image, label == 0, "dropping one more point");
            minimal[place] = label;
        }
    }
    assert!(shorter > 200);
}

#[test]
fn minimal_labels_of_an_image_keep_all_of_size_0() {
    let rng = &mut Rng::new(16);
    for _ in 0..1000 {
        let d = Decomposed::random(rng);
        let (_, minimal) = calls::minimise(d.w, d.h, d.element, &d.labels);
        let size_0 = |labels: &[u8]| labels.iter().filter(|&&label| label == 1).count();
        assert_eq!(size_0(&minimal), size_0(&d.labels));
    }
}

#[test]
fn thinning_counts_add_up() {
    let rng = &mut Rng::new(17);
    for _ in 0..1500 {
        let (w, h) = (cases::side(rng), rng.between(1, 40) as u32);
        let before = cases::image(rng, w, h);
        let (answer, after) = calls::thin(w, h, &before);
        let Thinned {
            passes,
            removed,
            area: left,
        } = answer
        else {
            panic!("{answer:?}");
        };
        assert_eq!(left, area(&after));
        assert_eq!(removed + left, area(&before));
        assert!(before.iter().zip(&after).all(|(b, a)| a & !b == 0));
        // Every pass but the idle last one removes a point.
        assert!(1 <= passes && passes - 1 <= removed);
        assert_eq!(passes == 1, removed == 0);
        // Thinning again is one idle pass.
        let idle = Thinned {
            passes: 1,
            removed: 0,
            area: left,
        };
        assert_eq!(calls::thin(w, h, &after), (idle, after));
    }
}

/// Labels stay below 256 on the largest frames: full ones have the largest sizes.
#[test]
fn labels_of_the_largest_frames() {
    let largest = |w, h, element| Decomposed::of(w, h, element, full(w, h)).largest();
    let (down, corner) = (4096 | 1 << 17, 4096 | 1 << 18);
    assert_eq!(largest(255, 255, RIGHT), 254);
    assert_eq!(largest(255, 255, LEFT), 254);
    assert_eq!(largest(255, 255, down), 254);
    assert_eq!(largest(255, 255, corner), 254);
    assert_eq!(largest(1, 255, down), 254);
    assert_eq!(largest(255, 255, SQUARE), 127);
    assert_eq!(largest(255, 255, PLUS), 127);
    assert_eq!(largest(255, 255, ROUND), 63);
    assert_eq!(largest(255, 255, (1 << 25) - 1), 63);
    let rng = &mut Rng::new(18);
    for _ in 0..30 {
        let element = cases::element(rng);
        let d = Decomposed::of(255, 255, element, full(255, 255));
        assert!(d.largest() <= 254);
        assert_eq!(d.reconstruct(0), d.image);
    }
}
