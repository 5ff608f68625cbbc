//! Every operation against the independent second program: its answer and every lent byte.

use super::frame::{Frame, Offsets};
use super::*;
use crate::inputs::{images, scans, thinned, Scan, ELEMENTS, SIDE};
use reference::cases::{self, Call};
use reference::rng::Rng;
use reference::{Answer, Mark};

/// What the baseline answers, and the call with every lent buffer as it is afterwards.
fn run(call: &Call) -> (Answer, Call) {
    let mut after = call.clone();
    #[rustfmt::skip]
    let answer = match &mut after {
        Call::Erode { w, h, element, n, image, out, work } =>
            erode(*w, *h, *element, *n, image, out, work).map(Answer::Area),
        Call::Open { w, h, element, n, image, out, work } =>
            open(*w, *h, *element, *n, image, out, work).map(Answer::Area),
        Call::Decompose { w, h, element, image, labels, work } =>
            decompose(*w, *h, *element, image, labels, work).map(|skeleton| match skeleton {
                Skeleton { points, max_size: Some(max_size) } => Answer::Skeleton { points, max_size },
                Skeleton { .. } => Answer::Blank,
            }),
        Call::Reconstruct { w, h, element, cut, labels, image, work } =>
            reconstruct(*w, *h, *element, *cut, labels, image, work).map(Answer::Area),
        Call::Minimise { w, h, element, labels, work, counters } =>
            minimise(*w, *h, *element, labels, work, counters).map(Answer::Minimal),
        Call::HitOrMiss { .. } | Call::Dilate { .. } => return cases::run(call),
        Call::Thin { w, h, image, work } =>
            thin(*w, *h, image, work).map(|Thinned { passes, removed, area }| {
                Answer::Thinned { passes, removed, area }
            }),
        Call::Encode { w, h, element, image, out, work } =>
            encode(*w, *h, *element, image, out, work).map(|coded| match coded {
                Coded { bytes, max_size: Some(max_size) } => Answer::Coded { bytes, max_size },
                Coded { .. } => Answer::Blank,
            }),
        Call::Decode { w, h, element, mark, stream, image, work } => {
            let largest = match *mark {
                Mark::Blank => None,
                Mark::Largest(size) => Some(size),
            };
            decode(*w, *h, *element, largest, stream, image, work).map(Answer::Area)
        }
    };
    (answer.unwrap_or_else(Answer::Refused), after)
}

#[test]
fn seeded_calls() {
    for seed in 0..20_000 {
        let call = cases::call(seed);
        assert!(run(&call) == cases::run(&call), "seed {seed}: {call:?}");
    }
}

/// Codes into outputs of every kind, and the settled ones.
#[test]
fn seeded_codes() {
    const ENCODE: usize = 7;
    let (mut coded, mut blank, mut eight) = (0, 0, 0);
    for seed in 0..20_000 {
        let call = cases::call_of(ENCODE, seed);
        let (answer, after) = run(&call);
        match answer {
            Answer::Coded { .. } => coded += 1,
            Answer::Blank => blank += 1,
            Answer::Refused(8) => eight += 1,
            _ => {}
        }
        assert!((answer, after) == cases::run(&call), "seed {seed}");
    }
    let met = [coded, blank, eight];
    assert!(met.iter().all(|&times| times >= 1000), "{met:?}");
    for s in cases::coded() {
        assert_eq!(run(&s.call), (s.answer, s.after), "case {}", s.case);
    }
}

/// Streams of every kind, and the settled readings.
#[test]
fn seeded_readings() {
    const DECODE: usize = 8;
    let (mut read, mut met) = (0, [0; 3]);
    for seed in 0..20_000 {
        let call = cases::call_of(DECODE, seed);
        let (answer, after) = run(&call);
        match answer {
            Answer::Area(_) => read += 1,
            Answer::Refused(row @ 9..=11) => met[row as usize - 9] += 1,
            _ => {}
        }
        assert!(
            (answer, after) == cases::run(&call),
            "seed {seed}: {call:?}"
        );
    }
    assert!(
        read >= 1000 && met.iter().all(|&times| times >= 300),
        "{read} {met:?}"
    );
    for s in cases::readings() {
        assert_eq!(run(&s.call), (s.answer, s.after), "case {}", s.case);
    }
}

/// The inputs of the timings, each operation on each of them.
#[test]
fn timed_inputs() {
    let (w, h) = (SIDE, SIDE);
    for (name, image) in images() {
        let work = vec![0xa5; 3 * image.len()];
        let out = vec![0xa5; image.len()];
        let mut calls = vec![];
        for (_, element) in ELEMENTS {
            let mut labels = vec![0; (w * h) as usize];
            reference::decompose(w, h, element, &image, &mut labels, &mut work.clone());
            let counters = vec![0xa5; labels.len()];
            let (image, work, out) = (image.clone(), work.clone(), out.clone());
            #[rustfmt::skip]
            calls.extend([
                Call::Erode { w, h, element, n: 8, image: image.clone(), out: out.clone(), work: work.clone() },
                Call::Open { w, h, element, n: 8, image: image.clone(), out: out.clone(), work: work.clone() },
                Call::Decompose { w, h, element, image, labels: labels.clone(), work: work.clone() },
                Call::Reconstruct { w, h, element, cut: 1, labels: labels.clone(), image: out, work: work.clone() },
                Call::Minimise { w, h, element, labels, work, counters },
            ]);
        }
        for call in calls {
            assert!(run(&call) == cases::run(&call), "{name}");
        }
    }
    for (name, image) in thinned() {
        let work = vec![0xa5; 3 * image.len()];
        let call = Call::Thin { w, h, image, work };
        assert!(run(&call) == cases::run(&call), "{name}");
    }
    for Scan { name, w, h, image } in scans() {
        for (_, element) in ELEMENTS {
            let (image, work) = (image.clone(), vec![0xa5; 3 * image.len()]);
            let out = vec![0xa5; (w * h) as usize];
            #[rustfmt::skip]
            let call = Call::Encode { w, h, element, image, out, work };
            assert!(run(&call) == cases::run(&call), "{name}");
        }
    }
}

/// A dilation that is clipped at the frame's edges, pixel by pixel from the definition. In
/// the operations nothing that is dilated ever reaches beyond an edge.
#[test]
fn dilation_is_clipped() {
    for seed in 0..2_000 {
        let rng = &mut Rng::new(seed);
        let (w, h, element) = (cases::side(rng), cases::side(rng), cases::element(rng));
        let image = cases::image(rng, w, h);
        let frame = Frame::new(w, h).expect("sound sides");
        let has = |x: isize, y: isize| {
            let inside = 0 <= x && x < w as isize;
            let row = frame.row(y).filter(|_| inside).map(|row| &image[row]);
            row.is_some_and(|row| row[x as usize / 8] << (x % 8) & 0x80 != 0)
        };
        let mut dilated = vec![0; image.len()];
        for (y, row) in dilated.chunks_exact_mut(frame.stride).enumerate() {
            for x in 0..frame.width {
                let reached = (0..25).filter(|bit| element >> bit & 1 == 1).any(|bit| {
                    let (dx, dy) = (bit % 5 - 2, bit / 5 - 2);
                    has(x as isize - dx, y as isize - dy)
                });
                row[x / 8] |= (reached as u8) << (7 - x % 8);
            }
        }
        let mut out = rng.bytes(image.len());
        let offsets = Offsets::element(element).expect("a sound element");
        dilate_plane(frame, &offsets, &image, &mut out);
        assert!(out == dilated, "seed {seed}: {w} by {h}, element {element}");
    }
}
