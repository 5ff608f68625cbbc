//! Codes: every length of output about the stream's, widths about whole words of pixels, runs
//! about the powers of three, points side by side, and what streams of drawn calls hold.

use programs::replay::Replay;
use reference::cases::{element, image, image_of, output_of, side, Call, OutputKind};
use reference::cases::{IMAGE_KINDS, OUTPUT_KINDS};
use reference::rng::Rng;
use reference::Answer::{Blank, Coded, Refused};
use reference::{LEFT, PLUS, RIGHT, ROUND, SQUARE};
use std::collections::BTreeMap;

/// The origin and (0, 1): on one row every point has size 0.
const DOWN: u32 = 1 << 12 | 1 << 17;
const LONGEST: usize = 65_536;

/// A call into an output of so many bytes; output and work hold anything.
fn call(rng: &mut Rng, (w, h): (u32, u32), element: u32, image: &[u8], lent: usize) -> Call {
    let spare = rng.below(3);
    Call::Encode {
        w,
        h,
        element,
        image: image.to_vec(),
        out: rng.bytes(lent),
        work: rng.bytes(3 * image.len() + spare),
    }
}

/// The bytes of a stream, by the second program; none of a blank image.
fn stream_bytes((w, h): (u32, u32), element: u32, image: &[u8]) -> usize {
    let (mut out, mut work) = (vec![0; LONGEST], vec![0; 3 * image.len()]);
    match reference::encode(w, h, element, image, &mut out, &mut work) {
        Coded { bytes, .. } => bytes as usize,
        Blank => 0,
        other => panic!("{other:?}"),
    }
}

/// A sheet with ink at these places, in row order.
fn ink_at((w, h): (u32, u32), places: &[u32]) -> Vec<u8> {
    let stride = w.div_ceil(8);
    let mut image = vec![0; (stride * h) as usize];
    for place in places {
        let (x, y) = (place % w, place / w);
        image[(y * stride + x / 8) as usize] |= 0x80 >> (x % 8);
    }
    image
}

/// Every length of output from none to some bytes more than the stream has: 8 for each that is
/// too short.
#[test]
fn every_length_of_output() {
    let (mut replay, mut refused, mut coded) = (Replay::start(), 0, 0);
    for seed in 0..120 {
        let rng = &mut Rng::new(seed);
        let sides = (rng.between(1, 30) as u32, rng.between(1, 20) as u32);
        let element = element(rng);
        let image = image(rng, sides.0, sides.1);
        let bytes = stream_bytes(sides, element, &image);
        let calls: Vec<_> = (0..bytes + 6)
            .map(|lent| call(rng, sides, element, &image, lent))
            .map(|call| (format!("lengths, seed {seed}"), call))
            .collect();
        for (lent, answer) in replay.all_agree(&calls).into_iter().enumerate() {
            assert_eq!(answer == Refused(8), lent < bytes);
            refused += (answer == Refused(8)) as u32;
            coded += matches!(answer, Coded { .. }) as u32;
        }
    }
    assert!(refused >= 1000 && coded >= 400, "{refused} {coded}");
    replay.end();
}

/// Widths about 64, 128 and 192, with every kind of image and of output and few rows or many.
#[test]
fn widths_about_whole_words() {
    let mut replay = Replay::start();
    let (mut met, mut calls): (BTreeMap<u32, u32>, _) = (BTreeMap::new(), vec![]);
    let widths = (55..=73).chain(119..=137).chain(183..=201);
    for w in widths.clone() {
        for (i, kind) in IMAGE_KINDS.into_iter().enumerate() {
            for h in [1, 2, 3, 15, 16, 17, 33] {
                let seed = 10_000 * w as u64 + 100 * i as u64 + h as u64;
                let rng = &mut Rng::new(seed);
                let any = element(rng);
                let element = rng.pick(&[SQUARE, PLUS, ROUND, RIGHT, LEFT, DOWN, any]);
                let image = image_of(rng, kind, w, h);
                let bytes = stream_bytes((w, h), element, &image);
                let output = rng.pick(&[OutputKind::Exact, OutputKind::Longer, OutputKind::Short]);
                let lent = output_of(rng, output, bytes).len();
                let call = call(rng, (w, h), element, &image, lent);
                calls.push((format!("words, seed {seed}"), call));
            }
        }
    }
    for ((_, call), answer) in calls.iter().zip(replay.all_agree(&calls)) {
        if let (Call::Encode { w, .. }, Coded { .. }) = (call, answer) {
            *met.entry(*w).or_default() += 1;
        }
    }
    for w in widths {
        let times = met.get(&w).copied().unwrap_or(0);
        assert!(times >= 10, "width {w}: {times} times");
    }
    replay.end();
}

/// Runs of 3^k - 1, 3^k and 3^k + 1 pixels, before the first point and between two: every number
/// of digits. The last is the longest run of all.
#[test]
fn runs_about_powers_of_three() {
    let (rng, mut replay) = (&mut Rng::new(5), Replay::start());
    let sides = (255, 255);
    let powers = (0..=10).map(|k| 3u32.pow(k));
    let about = powers.flat_map(|power| [power - 1, power, power + 1]);
    let runs: Vec<u32> = about.chain([255 * 255 - 1]).collect();
    let mut digits = BTreeMap::new();
    for run in runs {
        for element in [SQUARE, RIGHT, DOWN] {
            let one = ink_at(sides, &[run]);
            let (answer, after) = replay.agrees("one run", &call(rng, sides, element, &one, 9));
            let Coded { max_size: 0, .. } = answer else {
                panic!("{answer:?}");
            };
            let sizes = sizes(&after, 0);
            assert_eq!(sizes, [[run as usize]]);
            *digits.entry(numeral_digits(run)).or_insert(0) += 1;
            let between = [7, 7 + run + 1];
            if run > 1 && between[1] < 255 * 255 {
                let two = ink_at(sides, &between);
                // One below the other is one point of size 1 by the last element.
                replay.agrees("two runs", &call(rng, sides, element, &two, 15));
            }
        }
    }
    assert!((1..=11).all(|d| digits.contains_key(&d)), "{digits:?}");
    replay.end();
}

/// How many base-3 digits a number has.
fn numeral_digits(mut n: u32) -> u32 {
    let mut digits = 1;
    while n >= 3 {
        n /= 3;
        digits += 1;
    }
    digits
}

/// One to 255 points side by side from every place of a byte on: runs of 0, and streams that
/// end at every place of a byte.
#[test]
fn points_side_by_side() {
    let mut replay = Replay::start();
    let (mut calls, mut wanted) = (vec![], vec![]);
    let rng = &mut Rng::new(6);
    for first in (0..9).chain([63, 64, 65]) {
        for count in 1..=255 - first {
            let image = ink_at((255, 1), &(first..first + count).collect::<Vec<_>>());
            // The run before, the zeros, a comma for each and one more.
            let symbols = numeral_digits(first) + 2 * count;
            let bytes = symbols.div_ceil(4);
            let lent = bytes as usize + rng.below(2);
            let call = call(rng, (255, 1), DOWN, &image, lent);
            calls.push((format!("{count} points from {first}"), call));
            wanted.push(Coded { bytes, max_size: 0 });
        }
    }
    assert!(replay.all_agree(&calls) == wanted);
    replay.end();
}

/// The runs of each size, the largest first, of the stream that a call has left.
fn sizes(after: &Call, max_size: u32) -> Vec<Vec<usize>> {
    let Call::Encode { out, .. } = after else {
        panic!("another call");
    };
    let symbols = |byte: &u8| [byte >> 6, byte >> 4 & 3, byte >> 2 & 3, byte & 3];
    let symbols = out.iter().flat_map(symbols);
    let text: String = symbols.map(|s| [',', '0', '1', '2'][s as usize]).collect();
    // Every run has a digit, so that the first two commas side by side end a size.
    let mut rest = text.as_str();
    let sizes = (0..=max_size).map(|_| {
        let (size, after) = rest.split_once(",,").expect("two commas end a size");
        rest = after;
        let runs = size.split(',').filter(|_| !size.is_empty());
        runs.map(|run| usize::from_str_radix(run, 3).expect("digits"))
            .collect()
    });
    sizes.collect()
}

/// Codes of every kind of image into outputs of every kind, and what their streams hold.
#[test]
fn what_streams_hold() {
    let mut replay = Replay::start();
    let mut met: BTreeMap<&str, u32> = BTreeMap::new();
    for seed in 0..6000 {
        let rng = &mut Rng::new(seed);
        let (w, h, kind) = (side(rng), side(rng), rng.pick(&IMAGE_KINDS));
        let element = element(rng);
        let image = image_of(rng, kind, w, h);
        let bytes = stream_bytes((w, h), element, &image);
        let output = rng.pick(&OUTPUT_KINDS);
        let lent = output_of(rng, output, bytes).len();
        let call = call(rng, (w, h), element, &image, lent);
        let (answer, after) = replay.agrees(&format!("streams, seed {seed}"), &call);
        let mut count = |what: &'static str, holds: bool| {
            *met.entry(what).or_default() += holds as u32;
        };
        count("refused", answer == Refused(8));
        count("blank", answer == Blank);
        let Coded { bytes, max_size } = answer else {
            continue;
        };
        let sizes = sizes(&after, max_size);
        let empty = |runs: &Vec<usize>| runs.is_empty();
        assert!(!empty(&sizes[0]), "the largest size has points");
        let last = sizes.iter().rposition(|runs| !runs.is_empty()).unwrap_or(0);
        let runs = || sizes.iter().flatten();
        count(
            "a size without points between others",
            sizes[..last].iter().any(empty),
        );
        count("empty sizes at the end", last + 1 < sizes.len());
        count("size 0 alone", max_size == 0);
        count("ten sizes or more", max_size >= 9);
        count("sizes above 30", max_size > 30);
        count("a run of 0", runs().any(|&run| run == 0));
        count("a run of 5 digits or more", runs().any(|&run| run >= 81));
        count("a point at the start", sizes[0][0] == 0);
        count("many points", runs().count() >= 1000);
        count(
            "a stream longer than the image",
            bytes as usize > image.len(),
        );
        count("bytes past the stream", lent > bytes as usize);
        count("no byte past the stream", lent == bytes as usize);
    }
    for (what, times) in &met {
        assert!(*times >= 20, "{what}: {times} times");
    }
    assert_eq!(met.len(), 14);
    replay.end();
}
