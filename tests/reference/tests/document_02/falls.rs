//! T-06: a dilation says whether ink falls off the sheet, exactly where some does.

use crate::plain::{self, Points};
use reference::cases::{self, call_of, dilated, run, Call};
use reference::drawn::full;
use reference::rng::Rng;
use reference::Answer::{Area, Dilated, Minimal, Refused};
use reference::{LEFT, PLUS, RIGHT, ROUND, SQUARE};
use std::collections::BTreeMap;

const DILATE: usize = 9;

/// 5 by 5.
const BLOCK: u32 = (1 << 25) - 1;

/// P of 01.
fn plane(w: u32, h: u32) -> usize {
    (w.div_ceil(8) * h) as usize
}

/// The area, whether ink fell off, and the image written. What is lent holds anything.
fn dilate(w: u32, h: u32, element: u32, image: &[u8]) -> (u32, bool, Vec<u8>) {
    let (mut out, mut work) = (vec![0xA5; plane(w, h)], vec![0xA5; 3 * plane(w, h)]);
    match reference::dilate(w, h, element, image, &mut out, &mut work) {
        Dilated { area, fell } => (area, fell, out),
        other => panic!("{other:?}"),
    }
}

/// The same by sets of points of the whole plane: what is on the sheet is written, and ink fell off
/// where not all is.
fn by_sets(w: u32, h: u32, element: u32, image: &[u8]) -> (u32, bool, Vec<u8>) {
    let dilated = plain::dilate(&plain::foreground(w, h, image), &plain::element(element));
    let sheet: Points = plain::frame(w, h).collect();
    let left = &dilated & &sheet;
    let fell = !dilated.is_subset(&sheet);
    (left.len() as u32, fell, plain::packed(w, h, &left))
}

/// An element of the origin and these offsets.
fn element(offsets: impl IntoIterator<Item = (i32, i32)>) -> u32 {
    let bit = |(dx, dy): (i32, i32)| 1 << (5 * (dy + 2) + dx + 2);
    offsets
        .into_iter()
        .fold(1 << 12, |mask, offset| mask | bit(offset))
}

/// Every way to reach 0, 1 or 2 pixels to the left, right, top and bottom, but for none at all.
fn reaches() -> impl Iterator<Item = [i32; 4]> {
    (1..81).map(|n| [1, 3, 9, 27].map(|place| n / place % 3))
}

/// An image of one pixel.
fn pixel(w: u32, h: u32, at: (i32, i32)) -> Vec<u8> {
    plain::packed(w, h, &[at].into())
}

/// How far a pixel is from the left, right, top and bottom edge.
fn far(w: u32, h: u32, (x, y): (i32, i32)) -> [i32; 4] {
    [x, w as i32 - 1 - x, y, h as i32 - 1 - y]
}

/// Sheets with sides of these.
fn sheets(sides: std::ops::RangeInclusive<u32>) -> impl Iterator<Item = (u32, u32)> {
    sides
        .clone()
        .flat_map(move |w| sides.clone().map(move |h| (w, h)))
}

#[test]
fn by_hand() {
    let (mut fallen, mut whole) = (0, 0);
    for s in dilated() {
        fallen += matches!(s.answer, Dilated { fell: true, .. }) as u32;
        whole += matches!(s.answer, Dilated { fell: false, .. }) as u32;
        assert_eq!(run(&s.call), (s.answer, s.after), "{:?}", s.call);
    }
    assert!(fallen >= 15 && whole >= 15, "{fallen} {whole}");
}

#[test]
fn the_sets_of_the_plane() {
    let rng = &mut Rng::new(61);
    let (mut fallen, mut whole) = (0, 0);
    for _ in 0..8000 {
        let (w, h) = (rng.between(1, 20) as u32, rng.between(1, 12) as u32);
        let element = cases::element(rng);
        let image = cases::image(rng, w, h);
        let found = dilate(w, h, element, &image);
        assert_eq!(
            found,
            by_sets(w, h, element, &image),
            "{w} by {h}, element {element}, {image:?}"
        );
        let ink = found.0 > 0;
        fallen += (ink && found.1) as u32;
        whole += (ink && !found.1) as u32;
    }
    assert!(fallen >= 1000 && whole >= 300, "{fallen} {whole}");
}

/// A pixel at every place of every sheet of sides up to 7, and boxes, crosses and corners that
/// reach 0, 1 or 2 to each side: ink falls off where an edge is nearer than the element reaches.
#[test]
fn one_pixel_and_the_reach_to_each_side() {
    // At each edge, by reach and distance: the pixels that fall off over it alone, and those that
    // it lets stay.
    let (mut over, mut whole) = ([[[0; 3]; 3]; 4], 0);
    for reach in reaches() {
        let [l, r, t, b] = reach;
        let boxed = element((-t..=b).flat_map(|dy| (-l..=r).map(move |dx| (dx, dy))));
        let cross = element([(-l, 0), (r, 0), (0, -t), (0, b)]);
        let corners = [[(-l, -t), (r, b)], [(-l, b), (r, -t)]].map(element);
        for (w, h) in sheets(1..=7) {
            for at in plain::frame(w, h) {
                let (image, far) = (pixel(w, h, at), far(w, h, at));
                let edges: Vec<usize> = (0..4).filter(|&i| far[i] < reach[i]).collect();
                for element in [boxed, cross, corners[0], corners[1]] {
                    let (_, fell, _) = dilate(w, h, element, &image);
                    let title = format!("{at:?} of {w} by {h}, element {element}");
                    assert_eq!(fell, !edges.is_empty(), "{title}");
                }
                if let [edge] = edges[..] {
                    over[edge][reach[edge] as usize][far[edge] as usize] += 1;
                }
                whole += edges.is_empty() as u32;
            }
        }
    }
    for edge in over {
        // Reach 1 falls off from the edge itself, reach 2 from there and from one pixel off.
        let met = edge.map(|far| far.map(|times| times >= 100));
        let [no, at, near] = [[false; 3], [true, false, false], [true, true, false]];
        assert_eq!(met, [no, at, near], "{over:?}");
    }
    assert!(whole >= 10_000, "{whole}");
}

/// The origin and one offset, all 24: a pixel stays, and its other one is there or falls off.
#[test]
fn one_pixel_and_one_offset() {
    let (mut fallen, mut whole) = (0, 0);
    for offset in plain::element(BLOCK) {
        if offset == (0, 0) {
            continue;
        }
        let element = element([offset]);
        for (w, h) in sheets(1..=6) {
            for at in plain::frame(w, h) {
                let to = (at.0 + offset.0, at.1 + offset.1);
                let fell = !plain::frame(w, h).any(|z| z == to);
                let wanted = if fell {
                    (1, true, pixel(w, h, at))
                } else {
                    (2, false, plain::packed(w, h, &[at, to].into()))
                };
                let found = dilate(w, h, element, &pixel(w, h, at));
                assert_eq!(found, wanted, "{at:?} of {w} by {h}, {offset:?}");
                fallen += fell as u32;
                whole += !fell as u32;
            }
        }
    }
    assert!(fallen >= 3000 && whole >= 3000, "{fallen} {whole}");
}

/// The image in the middle of a sheet that has two pixels more on each side.
fn with_margin(w: u32, h: u32, image: &[u8]) -> (u32, u32, Vec<u8>) {
    let points = plain::foreground(w, h, image);
    let moved: Points = points.iter().map(|(x, y)| (x + 2, y + 2)).collect();
    (w + 4, h + 4, plain::packed(w + 4, h + 4, &moved))
}

/// No offset is longer than 2. On a sheet with a margin of 2 nothing falls off, and the margin then
/// has ink exactly where on the sheet without it some fell off.
#[test]
fn a_margin_of_two() {
    let rng = &mut Rng::new(62);
    let (mut fallen, mut whole) = (0, 0);
    for _ in 0..6000 {
        let (w, h) = (rng.between(1, 40) as u32, rng.between(1, 12) as u32);
        let element = cases::element(rng);
        let image = cases::image(rng, w, h);
        let (_, fell, out) = dilate(w, h, element, &image);
        let (wide, high, middle) = with_margin(w, h, &image);
        let (area, none, around) = dilate(wide, high, element, &middle);
        assert!(!none, "{w} by {h}, element {element}: a margin has room");
        let dilated = plain::foreground(wide, high, &around);
        assert_eq!(dilated.len() as u32, area);
        let on_the_sheet =
            |(x, y): &&(i32, i32)| (2..w as i32 + 2).contains(x) && (2..h as i32 + 2).contains(y);
        let (inner, margin): (Vec<_>, Vec<_>) = dilated.iter().partition(on_the_sheet);
        assert_eq!(fell, !margin.is_empty(), "{w} by {h}, element {element}");
        let back = inner.iter().map(|(x, y)| (x - 2, y - 2)).collect();
        assert_eq!(out, plain::packed(w, h, &back));
        fallen += fell as u32;
        whole += !fell as u32;
    }
    assert!(fallen >= 1000 && whole >= 1000, "{fallen} {whole}");
}

#[test]
fn nothing_falls_off_a_blank_sheet() {
    let rng = &mut Rng::new(63);
    for (w, h) in sheets(1..=12).chain([(255, 1), (1, 255), (255, 255)]) {
        let blank = vec![0; plane(w, h)];
        for element in [BLOCK, SQUARE, PLUS, ROUND, RIGHT, LEFT, cases::element(rng)] {
            let wanted = (0, false, blank.clone());
            assert_eq!(dilate(w, h, element, &blank), wanted, "{w} by {h}");
        }
    }
}

/// All ink on any sheet: the second point of the element leaves it from somewhere.
#[test]
fn some_falls_off_a_full_sheet() {
    let rng = &mut Rng::new(64);
    for (w, h) in sheets(1..=12).chain([(255, 1), (1, 255), (255, 255)]) {
        for element in [BLOCK, SQUARE, PLUS, ROUND, RIGHT, LEFT, cases::element(rng)] {
            let wanted = (w * h, true, full(w, h));
            assert_eq!(dilate(w, h, element, &full(w, h)), wanted, "{w} by {h}");
        }
    }
}

/// Every image on sheets that are narrower or lower than the element.
#[test]
fn sheets_smaller_than_the_element() {
    let rng = &mut Rng::new(65);
    let mut elements = vec![BLOCK, SQUARE, PLUS, ROUND, RIGHT, LEFT];
    elements.extend(plain::element(BLOCK).into_iter().map(|b| element([b])));
    elements.retain(|&element| element != 1 << 12);
    elements.extend((0..200).map(|_| cases::element(rng)));
    let images = |w: u32, h: u32| {
        let pixels: Vec<_> = plain::frame(w, h).collect();
        (0..1 << pixels.len()).map(move |image: u32| {
            let ink = (0..pixels.len()).filter(|i| image >> i & 1 == 1);
            plain::packed(w, h, &ink.map(|i| pixels[i]).collect())
        })
    };
    let mut met = BTreeMap::new();
    for (w, h) in [
        (1, 1),
        (1, 3),
        (3, 1),
        (2, 2),
        (1, 2),
        (2, 1),
        (2, 3),
        (4, 2),
    ] {
        for image in images(w, h) {
            let ink = image.iter().any(|&byte| byte > 0);
            for &element in &elements {
                let found = dilate(w, h, element, &image);
                assert_eq!(found, by_sets(w, h, element, &image), "{w} by {h}");
                *met.entry((w, h, ink, found.1)).or_insert(0) += 1;
            }
            // 5 by 5 leaves each of them from anywhere.
            assert_eq!(dilate(w, h, BLOCK, &image).1, ink);
        }
    }
    for (w, h) in [(1, 1), (1, 3), (3, 1), (2, 2)] {
        assert!(!met.contains_key(&(w, h, false, true)), "{w} by {h}");
        let falls = met.get(&(w, h, true, true)).is_some_and(|&n| n >= 30);
        // From the one point of 1 by 1 a second point always falls.
        let stays = met.get(&(w, h, true, false)).is_some_and(|&n| n >= 5);
        assert_eq!((falls, stays), (true, (w, h) != (1, 1)), "{met:?}");
    }
}

/// On 1 by 3 what goes to the side falls off from anywhere, and what goes down from the last row.
#[test]
fn one_column() {
    let drawn = |drawn: &str| reference::drawn::image(drawn).2;
    let down = element([(0, 1)]);
    for (image, right, below, to) in [
        ("1/0/0", true, false, "1/1/0"),
        ("0/1/0", true, false, "0/1/1"),
        ("0/0/1", true, true, "0/0/1"),
        ("1/0/1", true, true, "1/1/1"),
        ("0/0/0", false, false, "0/0/0"),
    ] {
        let ones = |text: &str| text.matches('1').count() as u32;
        let wanted = (ones(image), right, drawn(image));
        assert_eq!(dilate(1, 3, RIGHT, &drawn(image)), wanted);
        assert_eq!(dilate(1, 3, LEFT, &drawn(image)), wanted);
        assert_eq!(
            dilate(1, 3, down, &drawn(image)),
            (ones(to), below, drawn(to))
        );
    }
}

/// The last column beside padding: an element that reaches to no edge that is near loses nothing.
#[test]
fn the_last_column_beside_padding() {
    let up = element([(0, -1)]);
    for w in 2..=33u32 {
        let last = pixel(w, 3, (w as i32 - 1, 1));
        for element in [LEFT, up, element([(0, 1)]), element([(-1, -1), (-1, 1)])] {
            assert!(!dilate(w, 3, element, &last).1, "{w} by 3, {element}");
        }
        for element in [RIGHT, PLUS, SQUARE, element([(1, -1)])] {
            assert!(dilate(w, 3, element, &last).1, "{w} by 3, {element}");
        }
        let before = pixel(w, 3, (w as i32 - 2, 1));
        assert!(!dilate(w, 3, RIGHT, &before).1, "{w} by 3");
        assert!(dilate(w, 3, element([(2, 0)]), &before).1, "{w} by 3");
    }
}

/// Every lent byte, in generated calls of all kinds.
#[test]
fn every_byte_after_every_answer() {
    let mut met = BTreeMap::new();
    for seed in 0..6000 {
        let call = call_of(DILATE, seed);
        let (answer, after) = run(&call);
        let [(image, out, work), (image_after, out_after, work_after)] =
            [&call, &after].map(|call| match call {
                Call::Dilate {
                    image, out, work, ..
                } => (image, out, work),
                _ => panic!("another call"),
            });
        assert_eq!(image_after, image, "an image that is read stays");
        let cleared = match answer {
            Refused(_) => {
                assert_eq!(out_after, out, "seed {seed}");
                0
            }
            Dilated { area, .. } => {
                let ones = out_after.iter().map(|byte| byte.count_ones());
                assert_eq!(ones.sum::<u32>(), area, "seed {seed}");
                3 * image.len()
            }
            _ => panic!("{answer:?}"),
        };
        assert!(work_after[..cleared].iter().all(|&byte| byte == 0));
        assert_eq!(work_after[cleared..], work[cleared..], "seed {seed}");
        let kind = match answer {
            Refused(row) => (row, false),
            Dilated { fell, .. } => (0, fell),
            _ => unreachable!(),
        };
        *met.entry(kind).or_insert(0) += 1;
    }
    let kinds = [(0, false), (0, true), (1, false), (2, false), (3, false)];
    assert!(met.keys().eq(kinds.iter().chain(&[(4, false)])), "{met:?}");
    assert!(met.values().all(|&times| times >= 100), "{met:?}");
}

/// The rows of erosion but for the seventh: generated dilations, and erosions by 1B that are lent
/// the same.
#[test]
fn the_rows_of_erosion_by_one() {
    let row = |call: &Call| match run(call).0 {
        Refused(row) => row as usize,
        _ => 0,
    };
    let mut met = [0; 5];
    for seed in 6000..12_000 {
        let dilation = call_of(DILATE, seed);
        #[rustfmt::skip]
        let erosion = match dilation.clone() {
            Call::Dilate { w, h, element, image, out, work } =>
                Call::Erode { w, h, element, n: 1, image, out, work },
            _ => panic!("another call"),
        };
        assert_eq!(row(&dilation), row(&erosion), "seed {seed}");
        met[row(&dilation)] += 1;
    }
    assert!(met.iter().all(|&times| times >= 100), "{met:?}");
}

#[test]
fn row_3_lengths() {
    // W = 9, H = 2: P is 4, work is 12 or more.
    let refused = |image: usize, out: usize, work: usize| {
        let (image, mut out, mut work) = (vec![0; image], vec![0; out], vec![0; work]);
        reference::dilate(9, 2, SQUARE, &image, &mut out, &mut work) == Refused(3)
    };
    for a in 0..40 {
        assert_eq!(refused(a, 4, 12), a != 4);
        assert_eq!(refused(4, a, 12), a != 4);
        assert_eq!(refused(4, 4, a), a < 12);
    }
}

#[test]
fn row_4_padding_bits() {
    for w in 1..=24u32 {
        let stride = w.div_ceil(8) as usize;
        for bit in 0..16 * stride {
            let mut image = vec![0; 2 * stride];
            image[bit / 8] = 0x80 >> (bit % 8);
            let (mut out, mut work) = (vec![0xA5; 2 * stride], vec![0xA5; 6 * stride]);
            let answer = reference::dilate(w, 2, LEFT, &image, &mut out, &mut work);
            let padding = bit % (8 * stride) >= w as usize;
            assert_eq!(answer == Refused(4), padding, "bit {bit}, {w} by 2");
        }
    }
}

/// Sizes from the largest down: what is covered is dilated once from a size to the next, and the
/// points of that size from the cut on are joined. The image at the end, and whether ink fell off in
/// a step.
fn grown(w: u32, h: u32, element: u32, cut: u32, labels: &[u8]) -> (Vec<u8>, bool) {
    let largest = labels.iter().copied().max().unwrap_or(0);
    let (mut image, mut any) = (vec![0; plane(w, h)], false);
    for label in (1..=largest).rev() {
        let (_, fell, out) = dilate(w, h, element, &image);
        image = out;
        any |= fell;
        if label as u32 > cut {
            let here = |(_, &l): &((i32, i32), &u8)| l == label;
            let points = plain::frame(w, h).zip(labels).filter(here).map(|(z, _)| z);
            let points = plain::packed(w, h, &points.collect());
            image.iter_mut().zip(points).for_each(|(a, b)| *a |= b);
        }
    }
    (image, any)
}

/// A map is refused by row 5 exactly where a step of its growing falls off; where it is taken, no
/// step does at any cut, and the steps lead to what is rebuilt.
#[test]
fn a_map_is_bad_exactly_where_a_step_falls_off() {
    let rng = &mut Rng::new(66);
    let (mut bad, mut taken) = (0, 0);
    for _ in 0..3000 {
        let (w, h) = (rng.between(1, 16) as u32, rng.between(1, 12) as u32);
        let element = cases::element(rng);
        let labels = cases::labels(rng, w, h, element);
        let largest = labels.iter().copied().max().unwrap_or(0) as usize;
        let any = rng.between(0, largest) as u32;
        for cut in [0, any] {
            let (mut image, mut work) = (vec![0xA5; plane(w, h)], vec![0xA5; 3 * plane(w, h)]);
            let answer = reference::reconstruct(w, h, element, cut, &labels, &mut image, &mut work);
            let (steps, fell) = grown(w, h, element, cut, &labels);
            match answer {
                Refused(5) => assert!(cut > 0 || fell, "{w} by {h}, {labels:?}"),
                Area(_) => assert_eq!((steps, fell), (image, false), "{w} by {h}, {labels:?}"),
                other => panic!("{other:?}"),
            }
        }
        let (_, fell) = grown(w, h, element, 0, &labels);
        let (mut short, mut work) = (labels.clone(), vec![0xA5; 3 * plane(w, h)]);
        let mut counters = vec![0; labels.len()];
        let answer = reference::minimise(w, h, element, &mut short, &mut work, &mut counters);
        assert_eq!(answer == Refused(5), fell, "{w} by {h}, {labels:?}");
        if let Minimal(_) = answer {
            assert!(!grown(w, h, element, 0, &short).1, "{w} by {h}, {short:?}");
        }
        bad += fell as u32;
        taken += !fell as u32;
    }
    assert!(bad >= 300 && taken >= 1000, "{bad} {taken}");
}
