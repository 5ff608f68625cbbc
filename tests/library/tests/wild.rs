//! T-05: a bad map is bad at any cut. A wild point, one that leaves the sheet when it is grown to
//! its size, is refused by row 5 in rebuilding and shortening, whether the cut keeps it or not.

use library::Reply;
use reference::cases::{image_of, run, settled, Call, IMAGE_KINDS};
use reference::rng::Rng;
use reference::Answer::{self, Area, Minimal, Refused};
use reference::{PLUS, RIGHT, ROUND, SQUARE};
use std::ops::RangeInclusive;

/// The largest side of a sheet, size of a point and cut.
const LAST_SIDE: u32 = 255;
const LAST_SIZE: u32 = LAST_SIDE - 1;
const LAST_CUT: u32 = LAST_SIDE;

/// 5 by 5.
const BLOCK: u32 = (1 << 25) - 1;
/// The origin and (0, -2): a point leaves at the top alone.
const UP: u32 = 1 << 12 | 1 << 2;
/// The origin, (-2, 0) and (0, 1): a point leaves at the left and at the bottom.
const HOOK: u32 = 1 << 12 | 1 << 10 | 1 << 17;

/// An element, how far it reaches to the left, right, top and bottom, and how many points its
/// n-fold has.
struct Element {
    number: u32,
    reach: [u32; 4],
    points: fn(u32) -> u32,
}

#[rustfmt::skip]
const ELEMENTS: [Element; 7] = [
    Element { number: SQUARE, reach: [1, 1, 1, 1], points: |n| (2 * n + 1).pow(2) },
    Element { number: PLUS, reach: [1, 1, 1, 1], points: |n| 2 * n * (n + 1) + 1 },
    Element { number: ROUND, reach: [2, 2, 2, 2], points: |n| 14 * n * n + 6 * n + 1 },
    Element { number: BLOCK, reach: [2, 2, 2, 2], points: |n| (4 * n + 1).pow(2) },
    Element { number: RIGHT, reach: [0, 1, 0, 0], points: |n| n + 1 },
    Element { number: UP, reach: [0, 0, 2, 0], points: |n| n + 1 },
    Element { number: HOOK, reach: [2, 0, 0, 1], points: |n| (n + 1) * (n + 2) / 2 },
];

impl Element {
    /// The largest size that fits on some sheet.
    fn last_size(&self) -> u32 {
        let [left, right, top, bottom] = self.reach;
        (LAST_SIDE - 1) / (left + right).max(top + bottom)
    }

    /// The area that a cut leaves of a lone point that fits.
    fn area(&self, size: u32, cut: u32) -> u32 {
        (cut <= size) as u32 * (self.points)(size)
    }

    /// The smallest size that leaves the sheet from a point so far from its edges.
    fn first_wild(&self, far: [u32; 4]) -> u32 {
        let sides = far.into_iter().zip(self.reach);
        let reached = sides.filter(|(_, reach)| *reach > 0);
        let fitting = reached.map(|(far, reach)| far / reach).min();
        fitting.expect("a second point") + 1
    }
}

/// Labels of a sheet.
#[derive(Clone)]
struct Map {
    w: u32,
    h: u32,
    element: u32,
    labels: Vec<u8>,
}

impl Map {
    fn blank(element: &Element, w: u32, h: u32) -> Map {
        Map {
            w,
            h,
            element: element.number,
            labels: vec![0; (w * h) as usize],
        }
    }

    /// The same map with a point at a place.
    fn with(&self, place: u32, size: u32) -> Map {
        let mut map = self.clone();
        map.labels[place as usize] = u8::try_from(size + 1).expect("a size up to the last");
        map
    }

    /// A point alone, so far from the left, right, top and bottom edge.
    fn lone(element: &Element, size: u32, far: [u32; 4]) -> Map {
        let [left, right, top, bottom] = far;
        let (w, h) = (left + 1 + right, top + 1 + bottom);
        Map::blank(element, w, h).with(top * w + left, size)
    }

    /// The map of a scan.
    fn of_scan(element: &Element, w: u32, h: u32, image: &[u8]) -> Map {
        let (mut map, mut work) = (Map::blank(element, w, h), vec![0; 3 * image.len()]);
        reference::decompose(w, h, map.element, image, &mut map.labels, &mut work);
        map
    }

    /// How far a place is from the left, right, top and bottom edge.
    fn far(&self, place: u32) -> [u32; 4] {
        let (x, y) = (place % self.w, place / self.w);
        [x, self.w - 1 - x, y, self.h - 1 - y]
    }

    fn sizes(&self) -> impl Iterator<Item = u32> + '_ {
        let labelled = self.labels.iter().filter(|&&label| label > 0);
        labelled.map(|&label| label as u32 - 1)
    }

    fn plane(&self) -> usize {
        (self.w.div_ceil(8) * self.h) as usize
    }

    /// Rebuilding at a cut. What is lent holds anything.
    fn rebuilding(&self, cut: u32) -> Call {
        Call::Reconstruct {
            w: self.w,
            h: self.h,
            element: self.element,
            cut,
            labels: self.labels.clone(),
            image: vec![0xa5; self.plane()],
            work: vec![0x5a; 3 * self.plane() + 1],
        }
    }

    /// Shortening.
    fn shortening(&self) -> Call {
        Call::Minimise {
            w: self.w,
            h: self.h,
            element: self.element,
            labels: self.labels.clone(),
            work: vec![0x5a; 3 * self.plane() + 1],
            counters: vec![0xa5a5; self.labels.len()],
        }
    }

    /// Rebuilding at these cuts, and shortening.
    fn calls<'a>(&'a self, cuts: &'a [u32]) -> impl Iterator<Item = Call> + 'a {
        let rebuilding = cuts.iter().map(|&cut| self.rebuilding(cut));
        rebuilding.chain([self.shortening()])
    }
}

/// What the proved functions answer, and the call with every lent buffer as it is afterwards.
fn made(call: &Call) -> (Answer, Call) {
    let mut after = call.clone();
    #[rustfmt::skip]
    let answer = match &mut after {
        Call::Reconstruct { w, h, element, cut, labels, image, work } =>
            answer(library::call(3, [*w, *h, *element, *cut], labels, image, work, &mut []), Area),
        Call::Minimise { w, h, element, labels, work, counters } =>
            answer(library::call(4, [*w, *h, *element, 0], &[], labels, work, counters), Minimal),
        other => panic!("{}", other.name()),
    };
    (answer, after)
}

/// The answer of a reply: a refusal has no value, a success one.
fn answer(reply: Reply, success: fn(u32) -> Answer) -> Answer {
    let values = [reply.first, reply.second, reply.third];
    match (reply.refusal, reply.count, values) {
        (0, 1, [value, 0, 0]) => success(value),
        (row @ 1.., 0, [0, 0, 0]) => Refused(row),
        _ => panic!("{reply:?}"),
    }
}

/// A call in words: some of its points as place and size.
fn told(call: &Call) -> String {
    let (name, mut call) = (call.name(), call.clone());
    let p = call.parts();
    let labels = p.labels.expect("a map").iter().enumerate();
    let points = labels.filter(|(_, label)| **label > 0);
    let points: Vec<(usize, u8)> = points.map(|(at, label)| (at, *label - 1)).collect();
    let some = &points[..points.len().min(8)];
    let numbers = (p.element, p.cut_or_n);
    format!("{name}, {} by {}, {numbers:?}, {some:?}", p.w, p.h)
}

/// Rebuilding at each of these cuts, and shortening, are refused by row 5, and change no lent byte.
fn assert_wild(map: &Map, cuts: &[u32]) {
    for call in map.calls(cuts) {
        let (answer, after) = made(&call);
        assert_eq!(answer, Refused(5), "{}", told(&call));
        assert!(after == call, "bytes change: {}", told(&call));
    }
}

/// Rebuilding is accepted at each of these cuts up to the last, and refused by row 7 above it.
fn assert_sound(map: &Map, cuts: &[u32], area: impl Fn(u32) -> u32) {
    for &cut in cuts {
        let call = map.rebuilding(cut);
        let wanted = if cut > LAST_CUT {
            Refused(7)
        } else {
            Area(area(cut))
        };
        assert_eq!(made(&call).0, wanted, "{}", told(&call));
    }
}

/// The second program says and leaves the same.
fn assert_agreed(map: &Map, cuts: &[u32]) {
    for call in map.calls(cuts) {
        assert!(made(&call) == run(&call), "{}", told(&call));
    }
}

/// Every cut that is accepted, the one above them, and the last number.
fn all_cuts() -> Vec<u32> {
    (0..=LAST_CUT + 1).chain([u32::MAX]).collect()
}

/// The cuts about a size, and those at the ends.
fn cuts_about(size: u32) -> Vec<u32> {
    let about = size.saturating_sub(1)..=size + 1;
    let ends = [0, LAST_SIZE, LAST_CUT, LAST_CUT + 1, u32::MAX];
    about.chain(ends).collect()
}

/// Every cut, or those about a size and at the ends.
fn cuts_if(all: bool, size: u32) -> Vec<u32> {
    if all {
        all_cuts()
    } else {
        cuts_about(size)
    }
}

/// From a place where a point just fits, those one pixel off the sheet at each edge alone: on a
/// sheet that is one pixel smaller there, and by a step towards the edge.
fn one_pixel_off(fits: [u32; 4]) -> impl Iterator<Item = [u32; 4]> {
    let reached = (0..4).filter(move |&edge| fits[edge] > 0);
    reached.flat_map(move |edge| {
        let (opposite, mut smaller) = (edge ^ 1, fits);
        smaller[edge] -= 1;
        let mut nearer = smaller;
        nearer[opposite] += 1;
        [smaller, nearer]
    })
}

/// A lone point of every size that fits on a sheet: where it just does, and one pixel off.
#[test]
fn one_pixel_decides_at_every_cut() {
    for element in &ELEMENTS {
        for size in 0..=element.last_size() {
            let fits = element.reach.map(|reach| size * reach);
            let fitting = Map::lone(element, size, fits);
            let cuts = cuts_if(size <= 16, size);
            assert_sound(&fitting, &cuts, |cut| element.area(size, cut));
            assert_eq!(made(&fitting.shortening()).0, Minimal(1), "size {size}");
            for far in one_pixel_off(fits) {
                let wild = Map::lone(element, size, far);
                assert_wild(&wild, &cuts_if(wild.labels.len() <= 1024, size));
            }
        }
    }
}

/// The same in the second program, for the smallest sizes and the largest.
#[test]
fn one_pixel_decides_in_the_second_program() {
    for element in &ELEMENTS {
        for size in (0..=8).chain([element.last_size()]) {
            let fits = element.reach.map(|reach| size * reach);
            for far in one_pixel_off(fits).chain([fits]) {
                let map = Map::lone(element, size, far);
                assert_agreed(&map, &[size, size + 1]);
            }
        }
    }
}

/// Every size but 0 on a sheet of one point, and in the middle of the largest sheet those that fit
/// on none.
#[test]
fn sizes_too_large_for_the_sheet_at_every_cut() {
    let middle = [LAST_SIDE / 2; 4];
    for element in &ELEMENTS {
        let dot = Map::lone(element, 0, [0; 4]);
        assert_sound(&dot, &all_cuts(), |cut| (cut == 0) as u32);
        for size in 1..=LAST_SIZE {
            assert_wild(&dot.with(0, size), &all_cuts());
            assert_agreed(&dot.with(0, size), &cuts_about(size));
        }
        for size in element.last_size() + 1..=LAST_SIZE {
            assert_wild(&Map::lone(element, size, middle), &cuts_about(size));
        }
        assert_agreed(&Map::lone(element, LAST_SIZE, middle), &[0, LAST_CUT]);
    }
}

/// At every place of every sheet of sides up to 12, the first size that leaves it and the last that
/// does not.
#[test]
fn every_place_of_small_sheets() {
    for element in &ELEMENTS {
        for (w, h) in (1..=12).flat_map(|w| (1..=12).map(move |h| (w, h))) {
            let blank = Map::blank(element, w, h);
            for place in 0..w * h {
                let size = element.first_wild(blank.far(place));
                let (cuts, last) = (cuts_about(size), size - 1);
                let (wild, fitting) = (blank.with(place, size), blank.with(place, last));
                assert_wild(&wild, &cuts);
                assert_sound(&fitting, &cuts, |cut| element.area(last, cut));
                assert_agreed(&wild, &[size + 1]);
                assert_agreed(&fitting, &[last]);
            }
        }
    }
}

/// A map is accepted at every cut, and the second program rebuilds the same from it.
fn assert_accepted(map: &Map) {
    let sizes = map.sizes().max().map_or(0, |largest| largest + 1);
    let kept: Vec<u32> = (0..sizes).collect();
    let area = |&cut: &u32| match run(&map.rebuilding(cut)).0 {
        Area(area) => area,
        other => panic!("{other:?}"),
    };
    let areas: Vec<u32> = kept.iter().map(area).collect();
    let area = |cut: u32| areas.get(cut as usize).copied().unwrap_or(0);
    assert_sound(map, &all_cuts(), area);
    assert_agreed(map, &kept);
}

/// A scan's own map, and the same with one label changed, to the first size that leaves the sheet
/// there.
#[test]
fn one_wild_point_among_sound_ones_at_every_cut() {
    let rng = &mut Rng::new(5);
    // Wild points below the cut, at it and above, with sound points both below it and from it on.
    let mut met = [0; 3];
    for element in &ELEMENTS {
        for kind in IMAGE_KINDS {
            for _ in 0..6 {
                let (w, h) = (rng.between(1, 24) as u32, rng.between(1, 24) as u32);
                let map = Map::of_scan(element, w, h, &image_of(rng, kind, w, h));
                assert_accepted(&map);
                for _ in 0..3 {
                    let place = rng.below(map.labels.len()) as u32;
                    let size = element.first_wild(map.far(place));
                    let wild = map.with(place, size);
                    assert_wild(&wild, &all_cuts());
                    assert_agreed(&wild, &cuts_about(size));
                    for cut in cuts_between(&map) {
                        met[(size.cmp(&cut) as i8 + 1) as usize] += 1;
                    }
                }
            }
        }
    }
    assert!(met.iter().all(|&times| times >= 100), "{met:?}");
}

/// The cuts that keep some points of a map and not others.
fn cuts_between(map: &Map) -> RangeInclusive<u32> {
    let (least, most) = (map.sizes().min(), map.sizes().max());
    least.map_or(1, |least| least + 1)..=most.unwrap_or(0)
}

/// A scan's own map with a point of size 1 that leaves the sheet: at cuts that keep it, at cuts
/// that keep points of the scan and not that one, and at cuts that keep none.
#[test]
fn scans_with_a_wild_point_of_size_1() {
    let scans: [&[u8]; 4] = [
        include_bytes!("../../../samples/ticket-0417.scan"),
        include_bytes!("../../../samples/ticket-417.scan"),
        include_bytes!("../../../samples/sheet-0417.scan"),
        include_bytes!("../../../samples/sheet-417.scan"),
    ];
    let mut hiding = 0;
    for scan in scans {
        let (w, h, image) = (scan[0] as u32, scan[1] as u32, &scan[6..]);
        for element in &ELEMENTS {
            let map = Map::of_scan(element, w, h, image);
            let largest = map.sizes().max().expect("ink");
            hiding += (2..=largest).count();
            let cuts: Vec<u32> = (0..=largest + 1).chain(cuts_about(LAST_SIZE)).collect();
            assert_agreed(&map, &[0, 1, 2, largest, largest + 1]);
            let wild = |place: &u32| element.first_wild(map.far(*place)) == 1;
            let first = (0..w * h).find(wild);
            let last = (0..w * h).rfind(wild);
            for place in [first, last] {
                let wild = map.with(place.expect("an edge"), 1);
                assert_wild(&wild, &cuts);
                assert_agreed(&wild, &[2]);
            }
        }
    }
    assert!(hiding >= 100, "{hiding}");
}

/// "Case L becomes refusal 5 at all three cuts", and so at all others.
#[test]
fn case_l() {
    let square = &ELEMENTS[0];
    let map = Map::blank(square, 1, 1).with(0, 1);
    assert_wild(&map, &[0, 1, 2, LAST_CUT + 1]);
    assert_wild(&map, &all_cuts());
    assert_agreed(&map, &all_cuts());
    let settled = settled().into_iter().filter(|s| s.case == 'L');
    let cuts = settled.map(|mut s| {
        assert_eq!(made(&s.call), (s.answer, s.after));
        *s.call.parts().cut_or_n.expect("a cut")
    });
    assert_eq!(cuts.collect::<Vec<_>>(), [0, 1, 2]);
}
