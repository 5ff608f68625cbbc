//! The code against the rule read word for word, on small random images and random, mostly
//! lopsided elements; and back from the code to the points.

use crate::plain::{self, Points};
use reference::cases;
use reference::drawn::image;
use reference::rng::Rng;
use reference::Answer::{self, Blank, Coded};
use reference::{RIGHT, SQUARE};

/// The answer, and the first bytes of an output that is long enough.
fn encode(w: u32, h: u32, element: u32, image: &[u8]) -> (Answer, Vec<u8>) {
    let (mut out, mut work) = (vec![0xA5; 1000], vec![0xA5; 3 * image.len()]);
    let answer = reference::encode(w, h, element, image, &mut out, &mut work);
    let bytes = match answer {
        Coded { bytes, .. } => bytes as usize,
        _ => 0,
    };
    assert!(out[bytes..].iter().all(|&byte| byte == 0xA5));
    out.truncate(bytes);
    (answer, out)
}

/// Small sides, an element, an image.
fn small(rng: &mut Rng) -> (u32, u32, u32, Vec<u8>) {
    let (w, h) = (rng.between(1, 14) as u32, rng.between(1, 10) as u32);
    let element = cases::element(rng);
    (w, h, element, cases::image(rng, w, h))
}

#[test]
fn the_rule_word_for_word() {
    let rng = &mut Rng::new(1);
    let (mut blank, mut empty_between, mut zero, mut long, mut skipped) = (0, 0, 0, 0, 0);
    for _ in 0..5000 {
        let (w, h, element, image) = small(rng);
        let b = plain::element(element);
        let subsets = plain::skeleton(&plain::foreground(w, h, &image), &b);
        let runs = plain::runs(w, h, &b, &subsets);
        let expected = match subsets.len() {
            0 => (Blank, vec![]),
            sizes => {
                let stream = plain::bytes(&plain::text(&runs));
                let (bytes, max_size) = (stream.len() as u32, sizes as u32 - 1);
                (Coded { bytes, max_size }, stream)
            }
        };
        assert_eq!(
            encode(w, h, element, &image),
            expected,
            "{w} by {h}, element {element}, {image:?}"
        );
        let has_points: Vec<bool> = runs.iter().map(|runs| !runs.is_empty()).collect();
        // The largest size has points; below it a size may have none and a smaller one some.
        let first = has_points.iter().position(|&has| has);
        blank += subsets.is_empty() as u32;
        empty_between += first.is_some_and(|first| has_points[first..].contains(&false)) as u32;
        zero += runs.iter().any(|runs| runs.contains(&0)) as u32;
        long += runs.iter().flatten().any(|&run| run >= 27) as u32;
        skipped += plain::masks(&b, &subsets)
            .iter()
            .any(|mask| !mask.is_empty()) as u32;
    }
    let met = [blank, empty_between, zero, long, skipped];
    assert!(met.iter().all(|&times| times >= 100), "{met:?}");
}

/// From the stream and the largest size alone, size by size: the points found before say which
/// pixels are skipped.
fn decode(w: u32, h: u32, b: &Points, max_size: u32, stream: &[u8]) -> Vec<Points> {
    let symbols = |byte: &u8| [byte >> 6, byte >> 4 & 3, byte >> 2 & 3, byte & 3];
    let symbols = stream.iter().flat_map(symbols);
    let text: String = symbols
        .map(|symbol| [',', '0', '1', '2'][symbol as usize])
        .collect();
    let mut rest = text.as_str();
    let mut subsets = vec![Points::new(); max_size as usize + 1];
    for n in (0..subsets.len()).rev() {
        let mask = plain::masks(b, &subsets)[n].clone();
        let mut counted = plain::frame(w, h).filter(|z| !mask.contains(z));
        // Every run has a digit, so that the first two commas side by side end the size.
        let (size, after) = rest.split_once(",,").expect("two commas end a size");
        for run in size.split(',').filter(|_| !size.is_empty()) {
            let run = usize::from_str_radix(run, 3).expect("digits");
            subsets[n].insert(counted.nth(run).expect("a pixel of the sheet"));
        }
        rest = after;
    }
    assert!(rest.len() < 4 && rest.chars().all(|symbol| symbol == ','));
    subsets
}

#[test]
fn the_code_leads_back_to_the_points() {
    let rng = &mut Rng::new(2);
    let mut decoded = 0;
    for _ in 0..4000 {
        let (w, h, element, image) = small(rng);
        let (answer, stream) = encode(w, h, element, &image);
        let Coded { max_size, .. } = answer else {
            continue;
        };
        let b = plain::element(element);
        let subsets = decode(w, h, &b, max_size, &stream);
        let expected = plain::skeleton(&plain::foreground(w, h, &image), &b);
        assert_eq!(subsets, expected, "{w} by {h}, element {element}");
        decoded += 1;
    }
    assert!(decoded > 2000);
}

/// "its run lengths 11, 6, 7, 0, 2, 8 decide, and its 32 code bits agree with them": with two
/// commas and padding they are five bytes.
#[test]
fn the_runs_of_the_sample() {
    let runs = vec![vec![11, 6, 7, 0, 2, 8]];
    assert_eq!(plain::text(&runs), "102,20,21,0,2,22,,");
    let stream = plain::bytes(&plain::text(&runs));
    assert_eq!(stream, [0x9C, 0xD3, 0x84, 0xCF, 0x00]);
    let (w, h, image) = image("0000000000010000001000000011001000000001");
    let b = plain::element(SQUARE);
    let subsets = plain::skeleton(&plain::foreground(w, h, &image), &b);
    assert_eq!(plain::runs(w, h, &b, &subsets), runs);
}

/// "Scan G of document 01 gives bytes 42 00, largest size 1."
#[test]
fn scan_g() {
    let (w, h, image) = image("1101");
    let answer = Coded {
        bytes: 2,
        max_size: 1,
    };
    assert_eq!(encode(w, h, RIGHT, &image), (answer, vec![0x42, 0x00]));
}

/// The commas of empty sizes at the end are part of the stream, though their bits are 0 as
/// padding is: each size below the largest has at least its two commas.
#[test]
fn empty_sizes_at_the_end_count() {
    for side in 1..=60 {
        let image = reference::drawn::full(side, 1);
        let (answer, stream) = encode(side, 1, RIGHT, &image);
        // The largest size has one point, at the start: 0, comma, comma.
        let symbols = 3 + 2 * (side as usize - 1);
        let bytes = symbols.div_ceil(4);
        let coded = Coded {
            bytes: bytes as u32,
            max_size: side - 1,
        };
        let mut expected = vec![0; bytes];
        expected[0] = 0x40;
        assert_eq!((answer, stream), (coded, expected), "{side} by 1");
    }
}
