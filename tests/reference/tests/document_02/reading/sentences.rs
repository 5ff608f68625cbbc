//! The sentences of T-02, each alone: what each refuses, and that it refuses nothing else.

use super::{decode, encode, plane};
use crate::plain::{self, Points};
use reference::cases::{self, LabelsKind};
use reference::rng::Rng;
use reference::Answer::{self, Area, Refused};
use reference::Mark::{self, Blank, Largest};
use reference::{LEFT, PLUS, RIGHT, ROUND, SQUARE};

/// The row that refuses a ticket, 0 if none does.
fn row(w: u32, h: u32, element: u32, mark: Mark, stream: &[u8]) -> u8 {
    match decode(w, h, element, mark, stream).0 {
        Refused(row) => row,
        _ => 0,
    }
}

/// A sheet, an element and the runs of an image's sizes on it, the largest last.
struct Sheet {
    w: u32,
    h: u32,
    element: u32,
    runs: Vec<Vec<usize>>,
}

impl Sheet {
    /// Of an image that is not blank.
    fn draw(rng: &mut Rng) -> Sheet {
        loop {
            let (w, h) = (rng.between(1, 14) as u32, rng.between(1, 10) as u32);
            let element = cases::element(rng);
            let image = cases::image(rng, w, h);
            let b = plain::element(element);
            let subsets = plain::skeleton(&plain::foreground(w, h, &image), &b);
            let runs = plain::runs(w, h, &b, &subsets);
            if !runs.is_empty() {
                return Sheet {
                    w,
                    h,
                    element,
                    runs,
                };
            }
        }
    }

    fn largest(&self) -> u32 {
        self.runs.len() as u32 - 1
    }

    /// The text of each size, the largest first.
    fn sizes(&self) -> Vec<String> {
        let text = |runs: &Vec<usize>| plain::text(std::slice::from_ref(runs));
        self.runs.iter().rev().map(text).collect()
    }

    fn stream(&self) -> Vec<u8> {
        plain::bytes(&plain::text(&self.runs))
    }

    /// The row of another stream with another largest size.
    fn row(&self, largest: u32, stream: &[u8]) -> u8 {
        row(self.w, self.h, self.element, Largest(largest), stream)
    }

    /// The row of other sizes, as text.
    fn row_of(&self, largest: u32, sizes: &[String]) -> u8 {
        self.row(largest, &plain::bytes(&sizes.concat()))
    }
}

/// Drawn sheets, all of whose tickets are accepted as they are.
fn sheets(seed: u64, count: usize) -> Vec<Sheet> {
    let rng = &mut Rng::new(seed);
    let sheets: Vec<Sheet> = (0..count).map(|_| Sheet::draw(rng)).collect();
    assert!(sheets.iter().all(|s| s.row(s.largest(), &s.stream()) == 0));
    sheets
}

/// "Refusal 9: the stream ends early": every truncation, of an empty stream too.
#[test]
fn the_stream_ends_early() {
    let mut cut = 0;
    for s in sheets(1, 600) {
        let stream = s.stream();
        for len in 0..stream.len() {
            assert_eq!(s.row(s.largest(), &stream[..len]), 9, "{len} of {stream:?}");
            cut += 1;
        }
    }
    assert!(cut > 3000, "{cut}");
}

/// Two commas end a size: a stream of whole bytes that has one of them ends early.
#[test]
fn the_stream_ends_after_one_comma() {
    // 0, comma, 1, comma: four symbols.
    assert_eq!(row(4, 1, RIGHT, Largest(0), &plain::bytes("0,1,")), 9);
    assert_eq!(row(4, 1, RIGHT, Largest(0), &plain::bytes("0,1,,")), 0);
    // An empty last size with one comma: eight symbols and nine.
    assert_eq!(row(4, 1, RIGHT, Largest(3), &plain::bytes("0,,,,,,,")), 9);
    assert_eq!(row(4, 1, RIGHT, Largest(3), &plain::bytes("0,,,,,,,,")), 0);
}

/// "a run has a leading zero digit": before each run of each size.
#[test]
fn a_run_has_a_leading_zero_digit() {
    let mut tried = 0;
    for s in sheets(2, 400) {
        let sizes = s.sizes();
        for (i, size) in sizes.iter().enumerate() {
            let starts = (0..size.len())
                .filter(|&at| &size[at..=at] != "," && (at == 0 || &size[at - 1..at] == ","));
            for at in starts {
                for zeros in ["0", "00"] {
                    let mut other = sizes.clone();
                    other[i].insert_str(at, zeros);
                    assert_eq!(s.row_of(s.largest(), &other), 9, "{other:?}");
                    tried += 1;
                }
            }
        }
    }
    assert!(tried > 3000, "{tried}");
}

/// "or no digit": a comma before the runs of a size. Before an empty one it is another size.
#[test]
fn a_run_has_no_digit() {
    let mut tried = 0;
    for s in sheets(3, 600) {
        let sizes = s.sizes();
        for i in (0..sizes.len()).filter(|&i| !sizes[i].starts_with(',')) {
            let mut other = sizes.clone();
            other[i].insert(0, ',');
            assert_eq!(s.row_of(s.largest(), &other), 9, "{other:?}");
            tried += 1;
        }
    }
    assert!(tried > 600, "{tried}");
}

/// "a run passes the sheet": one point after runs about the pixels of a sheet and about the
/// powers of two, where a number of few bits would begin again.
#[test]
fn a_run_passes_the_sheet() {
    for (w, h) in [
        (1, 1),
        (1, 5),
        (5, 1),
        (4, 3),
        (9, 2),
        (255, 1),
        (16, 16),
        (255, 255),
    ] {
        let pixels = (w * h) as u128;
        let twos = (1..=126).flat_map(|k| [1 << k, 3 << k]);
        for run in twos
            .chain([pixels, 3 * pixels])
            .flat_map(|n| [n - 1, n, n + 1])
        {
            let stream = plain::bytes(&(base_3(run) + ",,"));
            let expected = if run < pixels { 0 } else { 9 };
            assert_eq!(row(w, h, SQUARE, Largest(0), &stream), expected, "{run}");
        }
        // Digits that no number takes.
        for digits in [200, 100_000] {
            for digit in ["1", "2", "10"] {
                let stream = plain::bytes(&(digit.repeat(digits) + ",,"));
                assert_eq!(row(w, h, SQUARE, Largest(0), &stream), 9, "{digits}");
            }
        }
    }
}

/// A number in base 3.
fn base_3(number: u128) -> String {
    let digit = char::from(b'0' + (number % 3) as u8);
    let mut digits = if number < 3 {
        String::new()
    } else {
        base_3(number / 3)
    };
    digits.push(digit);
    digits
}

/// A run counts the pixels that are not covered and come after the last point: as many are too
/// many, for each size and after each point.
#[test]
fn a_run_passes_the_pixels_that_are_left() {
    let (mut passed, mut kept) = (0, 0);
    for s in sheets(4, 400) {
        let b = plain::element(s.element);
        for n in 0..s.runs.len() {
            let left = pixels_left(&s, &b, n);
            let mut other = s.runs.clone();
            for more in 0..3 {
                other[n] = s.runs[n].iter().copied().chain([left + more]).collect();
                let stream = plain::bytes(&plain::text(&other));
                assert_eq!(s.row(s.largest(), &stream), 9, "{other:?}");
                passed += 1;
            }
            // One less is a point on the last pixel: another reason, or none.
            if left > 0 && n == 0 {
                other[n] = s.runs[n].iter().copied().chain([left - 1]).collect();
                let stream = plain::bytes(&plain::text(&other));
                assert_ne!(s.row(s.largest(), &stream), 9, "{other:?}");
                kept += 1;
            }
        }
    }
    assert!(passed > 1200 && kept > 100, "{passed} {kept}");
}

/// How many pixels a size has after its last point that the larger ones do not cover.
fn pixels_left(s: &Sheet, b: &Points, n: usize) -> usize {
    let stream = s.stream();
    let image = decode(s.w, s.h, s.element, Largest(s.largest()), &stream).1;
    let subsets = plain::skeleton(&plain::foreground(s.w, s.h, &image), b);
    let mask = &plain::masks(b, &subsets)[n];
    let counted = plain::frame(s.w, s.h).filter(|z| !mask.contains(z)).count();
    counted - s.runs[n].iter().map(|run| run + 1).sum::<usize>()
}

/// "the largest size is above 254": 254 is read, no larger one is, whatever the stream.
#[test]
fn the_largest_size_is_above_254() {
    // 255 by 1 all ink: size 254 at the start, and no smaller one.
    let stream = |sizes: usize| plain::bytes(&("0".to_string() + &",,".repeat(sizes)));
    assert_eq!(row(255, 1, RIGHT, Largest(254), &stream(255)), 0);
    for largest in [
        255,
        256,
        257,
        509,
        510,
        511,
        65_535,
        65_536,
        1 << 31,
        u32::MAX - 1,
        u32::MAX,
    ] {
        let low_byte = (largest as usize & 255) + 1;
        for sizes in [low_byte, 255, 256, largest.min(70_000) as usize + 1] {
            assert_eq!(
                row(255, 1, RIGHT, Largest(largest), &stream(sizes)),
                9,
                "{largest}"
            );
        }
        assert_eq!(row(255, 1, RIGHT, Largest(largest), &[]), 9, "{largest}");
    }
}

/// "the first size holds no point": a size more before the others, and sizes without a point.
#[test]
fn the_first_size_holds_no_point() {
    for s in sheets(5, 600) {
        let mut sizes = s.sizes();
        sizes.insert(0, ",,".to_string());
        assert_eq!(s.row_of(s.largest() + 1, &sizes), 9, "{sizes:?}");
    }
    for largest in 0..=254 {
        let stream = plain::bytes(&",,".repeat(largest as usize + 1));
        for (w, h, element) in [(1, 1, SQUARE), (255, 1, RIGHT), (40, 40, PLUS)] {
            assert_eq!(
                row(w, h, element, Largest(largest), &stream),
                9,
                "{largest}"
            );
        }
    }
}

/// "or a point leaves the sheet when grown": one point at each place in each size, alone in its
/// ticket.
#[test]
fn a_point_leaves_the_sheet_when_grown() {
    let (mut leaving, mut fitting) = (0, 0);
    let lopsided = 1 << 12 | 1 << 4 | 1 << 23;
    for element in [SQUARE, PLUS, ROUND, RIGHT, LEFT, lopsided] {
        let b = plain::element(element);
        for (w, h) in [(1, 1), (7, 1), (1, 7), (5, 5), (9, 6)] {
            for (run, z) in plain::frame(w, h).enumerate() {
                for n in 0..8 {
                    let mut runs = vec![vec![]; n + 1];
                    runs[n] = vec![run];
                    let stream = plain::bytes(&plain::text(&runs));
                    let leaves = plain::leaves_the_sheet(w, h, &b, n, z);
                    // A point alone is the skeleton of what it covers, or is not: 0 or 11.
                    let row = row(w, h, element, Largest(n as u32), &stream);
                    assert_eq!(row == 9, leaves, "{w} by {h}, {z:?}, size {n}");
                    leaving += leaves as u32;
                    fitting += !leaves as u32;
                }
            }
        }
    }
    assert!(leaving > 2000 && fitting > 500, "{leaving} {fitting}");
}

/// A smaller point that leaves the sheet, after larger ones that do not.
#[test]
fn a_smaller_point_leaves_the_sheet() {
    let mut tried = 0;
    for s in sheets(6, 1500) {
        let b = plain::element(s.element);
        for n in 1..s.runs.len().saturating_sub(1) {
            let mut subsets = vec![Points::new(); s.runs.len()];
            let last = (s.w as i32 - 1, s.h as i32 - 1);
            let corners = [(0, 0), last, (0, last.1), (last.0, 0)];
            let leaves = |&z: &(i32, i32)| plain::leaves_the_sheet(s.w, s.h, &b, n, z);
            let image = decode(s.w, s.h, s.element, Largest(s.largest()), &s.stream()).1;
            let whole = plain::skeleton(&plain::foreground(s.w, s.h, &image), &b);
            subsets[s.runs.len() - 1] = whole[s.runs.len() - 1].clone();
            let mask = plain::masks(&b, &subsets)[n].clone();
            let Some(z) = corners.into_iter().find(|z| leaves(z) && !mask.contains(z)) else {
                continue;
            };
            subsets[n].insert(z);
            let runs = plain::runs(s.w, s.h, &b, &subsets);
            assert_eq!(s.row(s.largest(), &plain::bytes(&plain::text(&runs))), 9);
            tried += 1;
        }
    }
    assert!(tried > 100, "{tried}");
}

/// "A scan marked blank takes an empty stream; any byte with it is refusal 10."
#[test]
fn a_scan_marked_blank_takes_an_empty_stream() {
    for (w, h) in [(1, 1), (3, 2), (8, 8), (9, 1), (255, 255)] {
        for element in [SQUARE, RIGHT] {
            let blank = (Area(0), vec![0; plane(w, h)]);
            assert_eq!(decode(w, h, element, Blank, &[]), blank);
            for byte in 0..=255 {
                assert_eq!(row(w, h, element, Blank, &[byte]), 10);
            }
            for len in [2, 3, 100, 65_536] {
                assert_eq!(row(w, h, element, Blank, &vec![0; len]), 10);
            }
            let full = reference::drawn::full(w, h);
            assert_eq!(
                row(w, h, element, Blank, &encode(w, h, element, &full).1),
                10
            );
        }
    }
}

/// "The reader's work buffer has at least 5P bytes, else refusal 3."
#[test]
fn the_work_buffer_has_at_least_5p_bytes() {
    // W = 9, H = 2: P is 4. One point at the start.
    let answer = |image: usize, work: usize| -> Answer {
        let (mut image, mut work) = (vec![0xA5; image], vec![0xA5; work]);
        reference::decode(9, 2, SQUARE, Largest(0), &[0x40], &mut image, &mut work)
    };
    for a in 0..60 {
        assert_eq!(answer(4, a), if a < 20 { Refused(3) } else { Area(1) });
        assert_eq!(answer(a, 20), if a == 4 { Area(1) } else { Refused(3) });
    }
}

/// "Refusal 10: padding isn't 0": every value that padding can have.
#[test]
fn padding_isnt_0() {
    let mut lengths = [0; 4];
    for s in sheets(7, 400) {
        let symbols: usize = s.sizes().iter().map(String::len).sum();
        let padding = symbols.next_multiple_of(4) - symbols;
        for value in 1..1 << (2 * padding) {
            let mut stream = s.stream();
            *stream.last_mut().expect("a byte") |= value as u8;
            assert_eq!(s.row(s.largest(), &stream), 10, "{stream:?}");
        }
        lengths[padding] += 1;
    }
    assert!(lengths.iter().all(|&times| times > 20), "{lengths:?}");
}

/// "or bytes follow": any one byte, and many. A byte 0 is one.
#[test]
fn bytes_follow() {
    for s in sheets(8, 60) {
        for byte in 0..=255 {
            let stream = [&s.stream()[..], &[byte]].concat();
            assert_eq!(s.row(s.largest(), &stream), 10, "{stream:?}");
        }
        let twice = [s.stream(), s.stream()].concat();
        assert_eq!(s.row(s.largest(), &twice), 10);
        for more in [2, 3, 4, 300, 65_000] {
            let stream = [s.stream(), vec![0; more]].concat();
            assert_eq!(s.row(s.largest(), &stream), 10, "{more}");
        }
    }
}

/// A megabyte of one byte is refused like any other stream, on the smallest and the largest sheet.
#[test]
fn a_megabyte() {
    for (w, h) in [(1, 1), (255, 255)] {
        for byte in [0x00, 0x40, 0x44, 0x55, 0x90, 0xAA, 0xFF] {
            let stream = vec![byte; 1 << 20];
            for largest in [0, 254, 255, u32::MAX] {
                let row = row(w, h, RIGHT, Largest(largest), &stream);
                // Points of size 0 in the first byte, and the rest follows.
                let follows = largest == 0 && (byte == 0x40 || byte == 0x90 && w > 1);
                assert_eq!(row, if follows { 10 } else { 9 }, "{byte:02x} {largest}");
            }
            assert_eq!(row(w, h, RIGHT, Blank, &stream), 10);
        }
    }
}

/// One stream with two largest sizes: where both are accepted, as commas may be padding, they are
/// two scans.
#[test]
fn the_largest_size_is_part_of_the_ticket() {
    let (mut nine, mut ten, mut accepted) = (0, 0, 0);
    for s in sheets(9, 2000) {
        let read = |largest| decode(s.w, s.h, s.element, Largest(largest), &s.stream());
        let own = read(s.largest());
        for largest in (0..s.largest() + 4).filter(|&largest| largest != s.largest()) {
            let other = read(largest);
            assert_ne!(own, other, "{largest} in place of {}", s.largest());
            nine += (other.0 == Refused(9)) as u32;
            ten += (other.0 == Refused(10)) as u32;
            accepted += matches!(other.0, Area(_)) as u32;
        }
        assert_eq!(row(s.w, s.h, s.element, Blank, &s.stream()), 10);
    }
    let met = [nine, ten, accepted];
    assert!(nine > 500 && ten > 200 && accepted > 20, "{met:?}");
}

/// "Refusal 11: the map isn't the skeleton of the scan it rebuilds": maps that fit the sheet, made
/// into a scan and taken apart by the operations of 01.
#[test]
fn the_map_isnt_the_skeleton_of_the_scan_it_rebuilds() {
    let rng = &mut Rng::new(10);
    let (mut skeletons, mut others) = (0, 0);
    for kind in [LabelsKind::Skeleton, LabelsKind::Minimal, LabelsKind::Free] {
        for _ in 0..700 {
            let (w, h) = (rng.between(1, 14) as u32, rng.between(1, 10) as u32);
            let element = cases::element(rng);
            let (b, labels) = (
                plain::element(element),
                cases::labels_of(rng, kind, w, h, element),
            );
            let largest = labels.iter().copied().max().unwrap_or(0) as usize;
            if largest == 0 {
                continue;
            }
            let labels = uncovered(w, h, &b, &labels);
            let (points, image) = rebuilt(w, h, element, &labels);
            let runs = plain::runs(w, h, &b, &subsets(w, h, &labels, largest));
            let stream = plain::bytes(&plain::text(&runs));
            let read = decode(w, h, element, Largest(largest as u32 - 1), &stream);
            if taken_apart(w, h, element, &image) == labels {
                assert_eq!(read, (Area(points), image), "{w} by {h}, {labels:?}");
                skeletons += 1;
            } else {
                assert_eq!(read.0, Refused(11), "{w} by {h}, {labels:?}");
                others += 1;
            }
        }
    }
    assert!(skeletons > 700 && others > 200, "{skeletons} {others}");
}

/// The points of each size.
fn subsets(w: u32, h: u32, labels: &[u8], largest: usize) -> Vec<Points> {
    let of_size = |n: usize| {
        let labelled = plain::frame(w, h).zip(labels);
        let points = labelled.filter(|(_, &label)| label as usize == n + 1);
        points.map(|(z, _)| z).collect()
    };
    (0..largest).map(of_size).collect()
}

/// Labels without the points that a larger one covers, grown as far as their size.
fn uncovered(w: u32, h: u32, b: &Points, labels: &[u8]) -> Vec<u8> {
    let largest = labels.iter().copied().max().unwrap_or(0) as usize;
    let masks = plain::masks(b, &subsets(w, h, labels, largest));
    let kept = |(z, &label): ((i32, i32), &u8)| match label {
        0 => 0,
        label if masks[label as usize - 1].contains(&z) => 0,
        label => label,
    };
    plain::frame(w, h).zip(labels).map(kept).collect()
}

fn rebuilt(w: u32, h: u32, element: u32, labels: &[u8]) -> (u32, Vec<u8>) {
    let (mut image, mut work) = (vec![0; plane(w, h)], vec![0; 3 * plane(w, h)]);
    match reference::reconstruct(w, h, element, 0, labels, &mut image, &mut work) {
        Area(points) => (points, image),
        other => panic!("{other:?}"),
    }
}

fn taken_apart(w: u32, h: u32, element: u32, image: &[u8]) -> Vec<u8> {
    let (mut labels, mut work) = (vec![0; (w * h) as usize], vec![0; 3 * image.len()]);
    reference::decompose(w, h, element, image, &mut labels, &mut work);
    labels
}

/// What reads as an opening need not be one: every scan whose points all have size 0, and the
/// same with one pair of them that an element joins.
#[test]
fn every_pixel_as_a_point_of_size_0() {
    // 1010 is the skeleton of itself by RIGHT, 1011 is not.
    assert_eq!(row(4, 1, RIGHT, Largest(0), &plain::bytes("0,1,,")), 0);
    assert_eq!(row(4, 1, RIGHT, Largest(0), &plain::bytes("0,1,0,,")), 11);
    for (w, h) in [(3, 3), (5, 4), (9, 9)] {
        let runs = vec![vec![0; (w * h) as usize]];
        let stream = plain::bytes(&plain::text(&runs));
        assert_eq!(row(w, h, SQUARE, Largest(0), &stream), 11);
    }
}
