//! Every width and every height of 1 to 40 and 248 to 255 in every operation, the largest
//! sheet, and elements of every number of points.

use programs::replay::Replay;
use reference::cases::{element_of, run, side, sound_call, sound_call_by, Call, OPERATIONS};
use reference::drawn::full;
use reference::rng::Rng;
use reference::Answer::{self, Refused};
use reference::Mark;
use reference::{LEFT, PLUS, RIGHT, ROUND, SQUARE};

/// Draws calls until one is accepted.
fn until_accepted(calls: &mut Vec<(String, Call)>, mut draw: impl FnMut() -> Call, name: &str) {
    for drawn in 0..100 {
        let call = draw();
        let refused = matches!(run(&call).0, Refused(_));
        calls.push((format!("{name}, draw {drawn}"), call));
        if !refused {
            return;
        }
    }
    panic!("{name}: none is accepted");
}

#[test]
fn every_width_and_height() {
    let mut calls = vec![];
    for side_of in (1..=40).chain(248..=255) {
        for operation in 0..OPERATIONS.len() {
            let seed = 1000 * side_of as u64 + operation as u64;
            let rng = &mut Rng::new(seed);
            let (other, another) = (side(rng), side(rng));
            for (w, h) in [(side_of, other), (another, side_of), (side_of, side_of)] {
                let draw = || sound_call(rng, operation, w, h);
                until_accepted(&mut calls, draw, &format!("sides, seed {seed}"));
            }
        }
    }
    let mut replay = Replay::start();
    assert!(replay.all_agree(&calls).len() >= 3 * 48 * OPERATIONS.len());
    replay.end();
}

/// The operations that have an element.
const WITH_ELEMENT: [usize; 8] = [0, 1, 2, 3, 4, 7, 8, 9];

/// 2 to 25 points: anywhere, all after the origin or all before it; most with holes.
#[test]
fn elements_of_every_number_of_points() {
    let (mut calls, mut lopsided, mut holes) = (vec![], 0, 0);
    for points in 2..=25 {
        for (side_of, bits) in [0..25, 12..25, 0..13].into_iter().enumerate() {
            if points as usize > bits.len() {
                continue;
            }
            for operation in WITH_ELEMENT {
                let seed = 100 * points as u64 + 10 * side_of as u64 + operation as u64;
                let rng = &mut Rng::new(seed);
                let element = element_of(rng, points, bits.clone());
                lopsided += (side_of > 0) as u32;
                holes += has_hole(element) as u32;
                let draw = || {
                    let (w, h) = (side(rng), side(rng));
                    sound_call_by(rng, operation, w, h, element)
                };
                until_accepted(&mut calls, draw, &format!("elements, seed {seed}"));
            }
        }
    }
    assert!(lopsided >= 100 && holes >= 100, "{lopsided} {holes}");
    let mut replay = Replay::start();
    assert!(replay.all_agree(&calls).len() >= 200);
    replay.end();
}

/// Whether a row of an element has a gap.
fn has_hole(element: u32) -> bool {
    let rows = (0..5).map(|y| element >> (5 * y) & 31);
    let runs = |row: u32| (row & !(row << 1)).count_ones();
    rows.into_iter().any(|row| runs(row) > 1)
}

/// 255 by 255, all ink: the largest sizes; and a map whose points cover one another most.
#[test]
fn the_largest_sheet() {
    let (w, h) = (255, 255);
    let (down, corner) = (4096 | 1 << 17, 4096 | 1 << 18);
    let mut replay = Replay::start();
    let image = full(w, h);
    let work = || vec![0xA5; 3 * image.len() + 1];
    let lent = |len: usize| vec![0xA5; len];
    for element in [
        SQUARE,
        PLUS,
        ROUND,
        RIGHT,
        LEFT,
        down,
        corner,
        (1 << 25) - 1,
    ] {
        let decompose = Call::Decompose {
            w,
            h,
            element,
            image: image.clone(),
            labels: lent(255 * 255),
            work: work(),
        };
        let (answer, after) = replay.agrees("the largest sheet", &decompose);
        assert!(matches!(answer, Answer::Skeleton { max_size, .. } if max_size >= 63));
        let Call::Decompose { labels, .. } = after else {
            panic!("another call");
        };
        let largest = *labels.iter().max().expect("labels") as u32 - 1;
        let encode = |len: usize| Call::Encode {
            w,
            h,
            element,
            image: image.clone(),
            out: lent(len),
            work: work(),
        };
        let (answer, after) = replay.agrees("the largest sheet", &encode(65_536));
        let (Answer::Coded { bytes, max_size }, Call::Encode { out, .. }) = (&answer, after) else {
            panic!("{answer:?}");
        };
        let (bytes, max_size) = (*bytes, *max_size);
        assert_eq!(max_size, largest);
        let exact = bytes as usize;
        assert_eq!(replay.agrees("exactly enough", &encode(exact)).0, answer);
        let (answer, _) = replay.agrees("one byte short", &encode(exact - 1));
        assert_eq!(answer, Refused(8));
        let decode = |len: usize| Call::Decode {
            w,
            h,
            element,
            mark: Mark::Largest(max_size),
            stream: out[..len].to_vec(),
            image: lent(image.len()),
            work: lent(5 * image.len() + 1),
        };
        let (answer, after) = replay.agrees("read back", &decode(exact));
        assert_eq!(answer, Answer::Area(255 * 255));
        assert!(matches!(after, Call::Decode { image: read, .. } if read == image));
        let (answer, _) = replay.agrees("without its last byte", &decode(exact - 1));
        assert_eq!(answer, Refused(9));
        let (answer, _) = replay.agrees("with a byte more", &decode(exact + 1));
        assert_eq!(answer, Refused(10));
        for cut in [0, largest, largest + 1] {
            let reconstruct = Call::Reconstruct {
                w,
                h,
                element,
                cut,
                labels: labels.clone(),
                image: lent(image.len()),
                work: work(),
            };
            let (answer, _) = replay.agrees("the largest sheet", &reconstruct);
            match cut {
                0 => assert_eq!(answer, Answer::Area(255 * 255)),
                _ => assert_eq!(answer == Answer::Area(0), cut > largest),
            }
        }
        let minimise = Call::Minimise {
            w,
            h,
            element,
            labels,
            work: work(),
            counters: vec![0xA5A5; 255 * 255],
        };
        replay.agrees("the largest sheet", &minimise);
        let dilate = Call::Dilate {
            w,
            h,
            element,
            image: image.clone(),
            out: lent(image.len()),
            work: work(),
        };
        let (answer, _) = replay.agrees("the largest sheet", &dilate);
        let (area, fell) = (255 * 255, true);
        assert_eq!(answer, Answer::Dilated { area, fell });
    }
    // Each point as large as its place lets it be.
    let distance = |z: u32| z.min(254 - z);
    let label = |place: u32| distance(place % 255).min(distance(place / 255)) as u8 + 1;
    let minimise = Call::Minimise {
        w,
        h,
        element: SQUARE,
        labels: (0..255 * 255).map(label).collect(),
        work: work(),
        counters: vec![0xA5A5; 255 * 255],
    };
    let (answer, _) = replay.agrees("points that cover one another", &minimise);
    assert_eq!(answer, Answer::Minimal(1));
    replay.end();
}
