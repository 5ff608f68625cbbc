//! T-06: a dilation says whether ink falls off the sheet, exactly where some does: where ink is
//! nearer to an edge than the element reaches.

use library::Reply;
use reference::cases::{damaged, dilated, image_of, labels_of, run, ticket_of_labels, Call};
use reference::cases::{element_of, IMAGE_KINDS, LABELS_KINDS};
use reference::rng::Rng;
use reference::Answer::{self, Area, Dilated, Minimal, Refused};
use reference::{Mark, PLUS, ROUND, SQUARE};
use std::collections::BTreeMap;
use std::fmt::Display;

/// The number of dilation.
const DILATE: u8 = 10;

/// 5 by 5.
const BLOCK: u32 = (1 << 25) - 1;

/// An element, its offsets, and how far they reach to the left, right, top and bottom.
struct Element {
    number: u32,
    offsets: Vec<(i32, i32)>,
    reach: [i32; 4],
}

impl Element {
    fn new(number: u32) -> Element {
        let offset = |bit: i32| (bit % 5 - 2, bit / 5 - 2);
        let offsets: Vec<_> = (0..25)
            .filter(|i| number >> i & 1 == 1)
            .map(offset)
            .collect();
        let furthest = |far: fn(&(i32, i32)) -> i32| offsets.iter().map(far).max().unwrap_or(0);
        let reach = [
            furthest(|b| -b.0),
            furthest(|b| b.0),
            furthest(|b| -b.1),
            furthest(|b| b.1),
        ];
        Element {
            number,
            offsets,
            reach,
        }
    }

    /// The origin and these offsets.
    fn of(offsets: impl IntoIterator<Item = (i32, i32)>) -> Element {
        let bit = |(dx, dy): (i32, i32)| 1 << (5 * (dy + 2) + dx + 2);
        let offsets = offsets.into_iter();
        Element::new(offsets.fold(1 << 12, |number, offset| number | bit(offset)))
    }

    /// Four that reach so far: a box, a cross, and by two corners alone in both ways.
    fn reaching([l, r, t, b]: [i32; 4]) -> [Element; 4] {
        let boxed = (-t..=b).flat_map(|dy| (-l..=r).map(move |dx| (dx, dy)));
        [
            Element::of(boxed),
            Element::of([(-l, 0), (r, 0), (0, -t), (0, b)]),
            Element::of([(-l, -t), (r, b)]),
            Element::of([(-l, b), (r, -t)]),
        ]
    }
}

/// Every way to reach 0, 1 or 2 to the left, right, top and bottom, but for none at all.
fn reaches() -> impl Iterator<Item = [i32; 4]> {
    (1..81).map(|n| [1, 3, 9, 27].map(|place| n / place % 3))
}

/// The origin and one offset, in all 24 directions; RIGHT and LEFT are among them.
fn pairs() -> impl Iterator<Item = Element> {
    let others = (0..25).filter(|&bit| bit != 12);
    others.map(|bit| Element::new(1 << 12 | 1 << bit))
}

/// These and the other named ones, and 5 by 5.
fn named_and_pairs() -> Vec<Element> {
    let named = [SQUARE, PLUS, ROUND, BLOCK].map(Element::new);
    pairs().chain(named).collect()
}

/// A sheet and its ink.
#[derive(Clone)]
struct Sheet {
    w: i32,
    h: i32,
    image: Vec<u8>,
}

impl Sheet {
    fn blank(w: i32, h: i32) -> Sheet {
        let image = vec![0; ((w + 7) / 8 * h) as usize];
        Sheet { w, h, image }
    }

    /// The points that pass a test.
    fn of(w: i32, h: i32, ink: impl Fn(i32, i32) -> bool) -> Sheet {
        let mut sheet = Sheet::blank(w, h);
        for (x, y) in points(0..w, 0..h).filter(|&(x, y)| ink(x, y)) {
            sheet.put(x, y);
        }
        sheet
    }

    /// Byte and bit of a point.
    fn place(&self, x: i32, y: i32) -> (usize, u8) {
        ((y * ((self.w + 7) / 8) + x / 8) as usize, 0x80 >> (x % 8))
    }

    /// Adds a point, where it is on the sheet.
    fn put(&mut self, x: i32, y: i32) {
        if 0 <= x && x < self.w && 0 <= y && y < self.h {
            let (byte, bit) = self.place(x, y);
            self.image[byte] |= bit;
        }
    }

    fn has(&self, x: i32, y: i32) -> bool {
        let (byte, bit) = self.place(x, y);
        self.image[byte] & bit != 0
    }

    /// The same without the points that pass a test.
    fn less(&self, test: impl Fn(i32, i32) -> bool) -> Sheet {
        Sheet::of(self.w, self.h, |x, y| self.has(x, y) && !test(x, y))
    }

    /// The same with one point more.
    fn with(&self, x: i32, y: i32) -> Sheet {
        let mut sheet = self.clone();
        sheet.put(x, y);
        sheet
    }

    /// The same with a point moved by each offset, as far as that is on the sheet.
    fn with_moved(&self, x: i32, y: i32, element: &Element) -> Sheet {
        let mut sheet = self.clone();
        for (dx, dy) in &element.offsets {
            sheet.put(x + dx, y + dy);
        }
        sheet
    }

    /// How far a point is from the left, right, top and bottom edge.
    fn far(&self, x: i32, y: i32) -> [i32; 4] {
        [x, self.w - 1 - x, y, self.h - 1 - y]
    }

    /// The edges that an element at a point reaches over.
    fn over(&self, x: i32, y: i32, element: &Element) -> Vec<usize> {
        let far = self.far(x, y);
        (0..4)
            .filter(|&edge| far[edge] < element.reach[edge])
            .collect()
    }

    fn area(&self) -> u32 {
        self.image.iter().map(|byte| byte.count_ones()).sum()
    }

    /// Its dilation as a call. What is lent holds anything.
    fn call(&self, element: &Element) -> Call {
        Call::Dilate {
            w: self.w as u32,
            h: self.h as u32,
            element: element.number,
            image: self.image.clone(),
            out: vec![0xa5; self.image.len()],
            work: vec![0x5a; 3 * self.image.len() + 1],
        }
    }
}

fn points(
    xs: impl Iterator<Item = i32> + Clone,
    ys: impl Iterator<Item = i32>,
) -> impl Iterator<Item = (i32, i32)> {
    ys.flat_map(move |y| xs.clone().map(move |x| (x, y)))
}

/// What the proved function answers, and the call with every lent buffer as it is afterwards. The
/// last number is passed over, and counters stay.
fn made(call: &Call) -> (Answer, Call) {
    let (mut after, mut counters) = (call.clone(), [0xa5a5; 3]);
    let Call::Dilate {
        w,
        h,
        element,
        image,
        out,
        work,
    } = &mut after
    else {
        panic!("{}", call.name());
    };
    let numbers = [*w, *h, *element, u32::MAX];
    let reply = library::call(DILATE, numbers, image, out, work, &mut counters);
    assert_eq!(counters, [0xa5a5; 3], "counters");
    let answer = match (reply.refusal, reply.count, reply.second, reply.third) {
        (0, 2, fell @ 0..=1, 0) => Dilated {
            area: reply.first,
            fell: fell == 1,
        },
        (row @ 1.., 0, 0, 0) if reply.first == 0 => Refused(row),
        _ => panic!("{reply:?}"),
    };
    (answer, after)
}

/// A dilation answers this area and whether ink falls off, writes this image and clears 3P bytes of
/// work.
fn assert_dilated(
    sheet: &Sheet,
    element: &Element,
    wanted: &Sheet,
    fell: bool,
    title: impl Display,
) {
    let call = sheet.call(element);
    let mut after = call.clone();
    let p = after.parts();
    p.written.expect("an image").clone_from(&wanted.image);
    p.work.expect("work")[..3 * sheet.image.len()].fill(0);
    let area = wanted.area();
    let (answer, found) = made(&call);
    let Sheet { w, h, .. } = sheet;
    let title = || format!("{title}: {w} by {h}, element {}", element.number);
    assert_eq!(answer, Dilated { area, fell }, "{}", title());
    assert!(found == after, "other bytes: {}", title());
}

/// The second program says and leaves the same. Gives whether ink falls off, and what is written.
fn assert_agreed(sheet: &Sheet, element: &Element, title: &str) -> (bool, Sheet) {
    let (answer, mut after) = run(&sheet.call(element));
    let Dilated { fell, .. } = answer else {
        panic!("{title}: {answer:?}");
    };
    let image = after.parts().written.expect("an image").clone();
    let out = Sheet { image, ..*sheet };
    assert_dilated(sheet, element, &out, fell, title);
    (fell, out)
}

/// The widths of the sheets, and their heights but for 255.
fn widths() -> impl Iterator<Item = i32> {
    (1..=40).chain(248..=255)
}

const LOW: [i32; 6] = [1, 2, 3, 4, 5, 8];

/// All widths and heights.
fn sheets() -> impl Iterator<Item = (i32, i32)> {
    let heights = || LOW.into_iter().chain([255]);
    widths().flat_map(move |w| heights().map(move |h| (w, h)))
}

/// The places up to 3 from the ends of a side, and its middle.
fn near(side: i32) -> Vec<i32> {
    let far = |z: &i32| (*z).min(side - 1 - z);
    (0..side)
        .filter(|z| far(z) <= 3 || *z == side / 2)
        .collect()
}

/// A lone pixel, and each element at it: every place of sheets up to 40 by 8, and the places near
/// the edges and in the middle of the others.
#[test]
fn a_lone_pixel_at_every_place_near_an_edge() {
    let elements = named_and_pairs();
    // By edge, reach and distance, the pixels that fall off over that edge alone; those that stay.
    let (mut over, mut whole) = ([[[0; 3]; 3]; 4], 0);
    for (w, h) in sheets() {
        let blank = Sheet::blank(w, h);
        let every = w <= 40 && h <= 8;
        let xs = if every { (0..w).collect() } else { near(w) };
        for (x, y) in points(xs.into_iter(), near(h).into_iter()) {
            let (sheet, title) = (blank.with(x, y), format!("a pixel at ({x},{y})"));
            for element in &elements {
                let edges = sheet.over(x, y, element);
                let wanted = blank.with_moved(x, y, element);
                assert_dilated(&sheet, element, &wanted, !edges.is_empty(), &title);
                if let [edge] = edges[..] {
                    let [reach, far] = [element.reach, sheet.far(x, y)].map(|side| side[edge]);
                    over[edge][reach as usize][far as usize] += 1;
                }
                whole += edges.is_empty() as u32;
            }
        }
    }
    let met = over.map(|edge| edge.map(|reach| reach.map(|times| times >= 1000)));
    let [none, at, off] = [[false; 3], [true, false, false], [true, true, false]];
    assert_eq!(met, [[none, at, off]; 4], "{over:?}");
    assert!(whole >= 100_000, "{whole}");
}

/// The same along the whole of long edges, by one offset straight to a side.
#[test]
fn a_lone_pixel_at_every_place_along_long_edges() {
    let is_straight = |e: &Element| e.reach.iter().filter(|&&reach| reach > 0).count() == 1;
    let elements: Vec<Element> = pairs().filter(is_straight).collect();
    assert_eq!(elements.len(), 8);
    let wide = (248..=255).map(|w| (w, 5));
    let high = (1..=18).map(|w| (w, 255));
    let mut met = [0; 4];
    for (w, h) in wide.chain(high) {
        let blank = Sheet::blank(w, h);
        for (x, y) in points(0..w, 0..h) {
            let (sheet, far) = (blank.with(x, y), blank.far(x, y));
            let is_near = |e: &&Element| (0..4).any(|edge| e.reach[edge] > 0 && far[edge] < 3);
            for element in elements.iter().filter(is_near) {
                let edges = sheet.over(x, y, element);
                let wanted = blank.with_moved(x, y, element);
                let title = format_args!("a pixel at ({x},{y})");
                assert_dilated(&sheet, element, &wanted, !edges.is_empty(), title);
                edges.into_iter().for_each(|edge| met[edge] += 1);
            }
        }
    }
    assert!(met.iter().all(|&times| times >= 1000), "{met:?}");
}

/// Ink everywhere but where the element reaches over an edge, and the same with one pixel more, at
/// each place where it does; along long edges near their ends and in the middle.
fn one_pixel_more(w: i32, h: i32, element: &Element, met: &mut [u32; 5]) {
    let blank = Sheet::blank(w, h);
    let inner = |x, y| blank.over(x, y, element).is_empty();
    let ink = Sheet::of(w, h, inner);
    let (fell, out) = assert_agreed(&ink, element, "ink out of reach");
    assert!(!fell, "{w} by {h}, element {}", element.number);
    met[4] += (ink.area() > 0) as u32;
    let xs = if w <= 40 { (0..w).collect() } else { near(w) };
    let ys = if h <= 40 { (0..h).collect() } else { near(h) };
    for (x, y) in points(xs.into_iter(), ys.into_iter()).filter(|&(x, y)| !inner(x, y)) {
        let wanted = out.with_moved(x, y, element);
        let title = format_args!("one pixel more, at ({x},{y})");
        assert_dilated(&ink.with(x, y), element, &wanted, true, title);
        let edges = blank.over(x, y, element);
        edges.into_iter().for_each(|edge| met[edge] += 1);
    }
}

/// Every reach of 0 to 2 to each side, on all widths: a box, a cross and corners in turn.
#[test]
fn one_pixel_more_decides_at_every_reach() {
    let mut met = [0; 5];
    for (i, reach) in reaches().enumerate() {
        let elements = Element::reaching(reach);
        assert!(elements.iter().all(|element| element.reach == reach));
        for w in widths() {
            for (j, h) in LOW.into_iter().enumerate() {
                one_pixel_more(w, h, &elements[(i + w as usize + j) % 4], &mut met);
            }
        }
        for (j, w) in [7, 8, 9, 10].into_iter().enumerate() {
            one_pixel_more(w, 255, &elements[(i + j) % 4], &mut met);
        }
    }
    for (i, reach) in reaches().enumerate().step_by(7) {
        let elements = Element::reaching(reach);
        for (j, w) in [248, 249, 250, 255].into_iter().enumerate() {
            one_pixel_more(w, 255, &elements[(i + j) % 4], &mut met);
        }
    }
    assert!(met.iter().all(|&times| times >= 10_000), "{met:?}");
}

/// The same by the named elements, 5 by 5, and the two-pixel ones in all 24 directions.
#[test]
fn one_pixel_more_decides_by_named_elements_and_pairs() {
    let mut met = [0; 5];
    for element in named_and_pairs() {
        for (w, h) in sheets().filter(|&(_, h)| h < 255) {
            one_pixel_more(w, h, &element, &mut met);
        }
    }
    assert!(met.iter().all(|&times| times >= 1000), "{met:?}");
}

/// The first and last columns of every width, by elements that reach 1 or 2 to the left or right,
/// straight or slanting. The last two columns lie in one byte or in two.
#[test]
fn the_columns_at_the_ends_of_rows() {
    let sides = [-2, -1, 1, 2].into_iter();
    let elements: Vec<Element> = points(sides, [-1, 0, 2].into_iter())
        .map(|offset| Element::of([offset]))
        .collect();
    // By width % 8 and the distance from the right: the pixels that stayed, and those that fell off.
    let mut met: BTreeMap<(i32, i32), [u32; 2]> = BTreeMap::new();
    for w in 1..=255 {
        let blank = Sheet::blank(w, 6);
        // The rows have room above and below.
        for (x, y) in points(near(w).into_iter(), 1..4) {
            let [left, right, ..] = blank.far(x, y);
            let sheet = blank.with(x, y);
            for element in &elements {
                let fell = left < element.reach[0] || right < element.reach[1];
                let wanted = blank.with_moved(x, y, element);
                let title = format_args!("a pixel at ({x},{y})");
                assert_dilated(&sheet, element, &wanted, fell, title);
                if right < 2 && element.reach[1] > 0 {
                    met.entry((w % 8, right)).or_default()[fell as usize] += 1;
                }
            }
        }
    }
    // From the last column all fall off, from the one before it those of reach 2.
    assert_eq!(met.len(), 16, "{met:?}");
    for ((_, right), [stayed, fell]) in &met {
        assert!(*fell >= 200 && (*right == 0) == (*stayed == 0), "{met:?}");
    }
}

/// The last column beside padding, inked as far as there is room above and below. By an element that
/// does not reach to the right nothing falls off but over the left edge; by one that does, some.
#[test]
fn padding_is_not_taken_for_ink() {
    let mut met = [0; 2];
    for w in (1..=255).filter(|w| w % 8 != 0) {
        for (i, reach) in reaches().enumerate() {
            let ([l, r, t, b], h) = (reach, 8);
            let ink = |x, y| x == w - 1 && t <= y && y < h - b;
            let column = Sheet::of(w, h, ink);
            let element = &Element::reaching(reach)[(i + w as usize) % 4];
            let fell = r > 0 || w - 1 < l;
            let (found, _) = assert_agreed(&column, element, "the last column");
            assert_eq!(found, fell, "{w} by {h}, element {}", element.number);
            met[fell as usize] += 1;
        }
    }
    assert!(met.iter().all(|&times| times >= 5000), "{met:?}");
}

/// Nothing falls off a blank sheet, and from all ink the element's second point does.
#[test]
fn blank_and_all_ink() {
    let elements = named_and_pairs();
    for (w, h) in sheets() {
        let (blank, full) = (Sheet::blank(w, h), Sheet::of(w, h, |_, _| true));
        for element in &elements {
            assert_dilated(&blank, element, &blank, false, "blank");
            assert_dilated(&full, element, &full, true, "all ink");
        }
    }
}

/// An image whole, without the ink that the element moves over an edge, and with that of one edge
/// alone. By edge, the last for none, the images with ink are counted.
fn by_edges(sheet: &Sheet, element: &Element, met: &mut [u32; 5]) {
    assert_agreed(sheet, element, "whole");
    let inner = sheet.less(|x, y| !sheet.over(x, y, element).is_empty());
    for (edge, met) in met.iter_mut().enumerate() {
        let at_it = |x, y| sheet.over(x, y, element).iter().all(|&over| over == edge);
        let kept = sheet.less(|x, y| !at_it(x, y));
        let (fell, _) = assert_agreed(&kept, element, "one edge");
        assert_eq!(fell, kept.image != inner.image, "edge {edge}");
        *met += (kept.area() > 0 && fell == (edge < 4)) as u32;
    }
}

/// Images of every kind on all widths, and any elements, with the second program.
#[test]
fn images_of_every_kind() {
    let rng = &mut Rng::new(6);
    for kind in IMAGE_KINDS {
        let mut met = [0; 5];
        for (w, h) in sheets() {
            let image = image_of(rng, kind, w as u32, h as u32);
            let most = rng.pick(&[2, 3, 25]);
            let count = rng.between(2, most) as u32;
            let element = Element::new(element_of(rng, count, 0..25));
            by_edges(&Sheet { w, h, image }, &element, &mut met);
        }
        let least = if kind == IMAGE_KINDS[0] { 0 } else { 20 };
        assert!(met.iter().all(|&times| times >= least), "{kind:?}: {met:?}");
    }
}

/// The samples by the two-pixel elements and the named ones.
#[test]
fn samples() {
    let scans: [&[u8]; 5] = [
        include_bytes!("../../../samples/ticket-0417.scan"),
        include_bytes!("../../../samples/ticket-417.scan"),
        include_bytes!("../../../samples/sheet-0417.scan"),
        include_bytes!("../../../samples/sheet-417.scan"),
        include_bytes!("../../../samples/block.scan"),
    ];
    let mut met = [0; 5];
    for scan in scans {
        let (w, h, image) = (scan[0] as i32, scan[1] as i32, scan[6..].to_vec());
        let sheet = Sheet { w, h, image };
        for element in named_and_pairs() {
            by_edges(&sheet, &element, &mut met);
        }
    }
    assert!(met.iter().all(|&times| times >= 10), "{met:?}");
}

#[test]
fn dilations_by_hand() {
    let mut met = [0; 2];
    for s in dilated() {
        let (answer, after) = made(&s.call);
        if let Dilated { fell, .. } = answer {
            met[fell as usize] += 1;
        }
        assert_eq!((answer, after), (s.answer, s.after), "{:?}", s.call);
    }
    assert!(met.iter().all(|&times| times >= 15), "{met:?}");
}

/// Every kind of damaged argument, alone, in pairs and all at once: no lent byte changes.
#[test]
fn refusals() {
    let mut met = BTreeMap::new();
    for damaged in damaged().iter().filter(|d| d.call.name() == "dilate") {
        let wanted = (Refused(damaged.row()), damaged.call.clone());
        assert_eq!(made(&damaged.call), wanted, "{:?}", damaged.rows);
        *met.entry(damaged.row()).or_insert(0) += 1;
    }
    assert!(met.keys().eq(&[1, 2, 3, 4]), "{met:?}");
}

/// A map of a sheet.
struct Map {
    w: i32,
    h: i32,
    labels: Vec<u8>,
}

impl Map {
    /// From the largest size down, what is covered is dilated from a size to the next, and the
    /// points of that size, from the cut on, are added. What is covered at the end, and whether ink
    /// fell off in a step.
    fn grown(&self, element: &Element, cut: u32) -> (Sheet, bool) {
        let largest = self.labels.iter().copied().max().unwrap_or(0);
        let (mut covered, mut any) = (Sheet::blank(self.w, self.h), false);
        for label in (1..=largest).rev() {
            let (answer, mut after) = made(&covered.call(element));
            let Dilated { fell, .. } = answer else {
                panic!("{answer:?}");
            };
            any |= fell;
            covered.image = after.parts().written.expect("an image").clone();
            let places = points(0..self.w, 0..self.h).zip(&self.labels);
            for ((x, y), _) in places.filter(|(_, &l)| l == label && l as u32 > cut) {
                covered.put(x, y);
            }
        }
        (covered, any)
    }

    fn plane(&self) -> usize {
        Sheet::blank(self.w, self.h).image.len()
    }

    fn numbers(&self, element: &Element, b: u32) -> [u32; 4] {
        [self.w as u32, self.h as u32, element.number, b]
    }

    /// Rebuilding at a cut.
    fn rebuilt(&self, element: &Element, cut: u32) -> (Answer, Vec<u8>) {
        let (mut image, mut work) = (vec![0xa5; self.plane()], vec![0xa5; 3 * self.plane()]);
        let numbers = self.numbers(element, cut);
        let reply = library::call(3, numbers, &self.labels, &mut image, &mut work, &mut []);
        (one_value(reply, Area), image)
    }

    /// Shortening.
    fn shortened(&self, element: &Element) -> (Answer, Map) {
        let (mut labels, mut work) = (self.labels.clone(), vec![0xa5; 3 * self.plane()]);
        let mut counters = vec![0xa5; labels.len()];
        let numbers = self.numbers(element, 0);
        let reply = library::call(4, numbers, &[], &mut labels, &mut work, &mut counters);
        (one_value(reply, Minimal), Map { labels, ..*self })
    }

    /// Reading the code of the map.
    fn read(&self, element: &Element) -> (Answer, Vec<u8>) {
        let [w, h, number, _] = self.numbers(element, 0);
        let (mark, stream) = ticket_of_labels(w, h, number, &self.labels);
        let (op, largest) = match mark {
            Mark::Largest(largest) => (8, largest),
            Mark::Blank => (9, 0),
        };
        let (mut image, mut work) = (vec![0xa5; self.plane()], vec![0xa5; 5 * self.plane()]);
        let numbers = self.numbers(element, largest);
        let reply = library::call(op, numbers, &stream, &mut image, &mut work, &mut []);
        (one_value(reply, Area), image)
    }
}

/// An answer of one value, or a refusal.
fn one_value(reply: Reply, success: fn(u32) -> Answer) -> Answer {
    match (reply.refusal, reply.count) {
        (0, 1) => success(reply.first),
        (row @ 1.., 0) => Refused(row),
        _ => panic!("{reply:?}"),
    }
}

/// Rebuilding, shortening and reading grow maps step by step. Once a map is taken no step falls off,
/// and the steps lead to what is rebuilt or read; where one does, the map is refused by row 5.
#[test]
fn what_is_grown_from_accepted_maps_never_falls_off() {
    let rng = &mut Rng::new(7);
    let [mut bad, mut rebuilt, mut shortened, mut read] = [0; 4];
    for (w, h) in points(1..=24, [1, 2, 3, 5, 8, 13].into_iter()) {
        for kind in LABELS_KINDS {
            let count = rng.pick(&[2, 3, 9, 25]);
            let element = &Element::new(element_of(rng, count, 0..25));
            let labels = labels_of(rng, kind, w as u32, h as u32, element.number);
            let map = Map { w, h, labels };
            let title = format!("{w} by {h}, element {}, {:?}", element.number, map.labels);
            let (steps, fell) = map.grown(element, 0);
            let largest = map.labels.iter().copied().max().unwrap_or(0) as usize;
            for cut in [0, rng.between(0, largest) as u32] {
                let (answer, image) = map.rebuilt(element, cut);
                assert_eq!(answer == Refused(5), fell, "cut {cut}: {title}");
                if let Area(_) = answer {
                    let (steps, fell) = map.grown(element, cut);
                    assert!(!fell && steps.image == image, "cut {cut}: {title}");
                    rebuilt += 1;
                }
            }
            let (answer, short) = map.shortened(element);
            assert_eq!(answer == Refused(5), fell, "{title}");
            if let Minimal(_) = answer {
                let (grown, fell) = short.grown(element, 0);
                assert!(!fell && grown.image == steps.image, "{title}");
                shortened += 1;
            }
            if let (Area(_), image) = map.read(element) {
                assert!(!fell && steps.image == image, "{title}");
                read += 1;
            }
            bad += fell as u32;
        }
    }
    let met = [bad, rebuilt, shortened, read];
    assert!(met.iter().all(|&times| times >= 100), "{met:?}");
}
