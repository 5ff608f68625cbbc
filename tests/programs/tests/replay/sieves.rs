//! Lists of sieves on a running image, refused ones mixed in, against one opening of the
//! first image by the largest cut: the claim of 01 about the whole list, call by call.

use programs::replay::Replay;
use reference::cases::{cut_or_n, element, image, side, Call};
use reference::rng::Rng;
use reference::Answer::{Area, Refused};

/// A sieve's arguments. Labels and work hold anything.
struct Sieve {
    w: u32,
    h: u32,
    element: u32,
    cut: u32,
    labels: Vec<u8>,
    work: [Vec<u8>; 2],
}

/// How a sieve went: the area it answered, or the call that was refused.
enum Went {
    Area(u32),
    RefusedFirst,
    RefusedSecond,
}

/// Decomposition into labels, then reconstruction at the cut into the image's own bytes.
fn sieve(replay: &mut Replay, name: &str, sieve: Sieve, running: &mut Vec<u8>) -> Went {
    let [first, second] = sieve.work;
    let (w, h, element, cut) = (sieve.w, sieve.h, sieve.element, sieve.cut);
    let decompose = Call::Decompose {
        w,
        h,
        element,
        image: running.clone(),
        labels: sieve.labels,
        work: first,
    };
    let (answer, after) = replay.agrees(name, &decompose);
    let (Call::Decompose { labels, .. }, false) = (after, matches!(answer, Refused(_))) else {
        return Went::RefusedFirst;
    };
    let reconstruct = Call::Reconstruct {
        w,
        h,
        element,
        cut,
        labels,
        image: running.clone(),
        work: second,
    };
    let (answer, after) = replay.agrees(name, &reconstruct);
    let Call::Reconstruct { image, .. } = after else {
        panic!("{name}: another call");
    };
    match answer {
        Area(area) => {
            *running = image;
            Went::Area(area)
        }
        _ => {
            assert_eq!(&image, running, "{name}: refused, and the image stays");
            Went::RefusedSecond
        }
    }
}

#[test]
fn a_list_of_sieves_is_one_opening_by_the_largest_cut() {
    let mut replay = Replay::start();
    // Empty lists, refusals at the first and at the second call, lists of two or more that
    // are not refused, lists that leave some and take some.
    let [mut empty, mut first, mut second, mut longer, mut some] = [0; 5];
    for seed in 0..3000 {
        let rng = &mut Rng::new(seed);
        let (w, h, element) = (side(rng), side(rng), element(rng));
        let (image, name) = (image(rng, w, h), format!("sieves, seed {seed}"));
        let labels = decomposed(&mut replay, &name, (w, h, element), &image);
        let mut running = image.clone();
        let (mut areas, mut largest, sieves) = (vec![], 0, rng.below(6));
        for _ in 0..sieves {
            let call = draw(rng, (w, h, element), &labels, image.len());
            let cut = call.cut;
            match sieve(&mut replay, &name, call, &mut running) {
                Went::Area(area) => {
                    largest = largest.max(cut);
                    areas.push(area);
                }
                Went::RefusedFirst => first += 1,
                Went::RefusedSecond => second += 1,
            }
        }
        let open = Call::Open {
            w,
            h,
            element,
            n: largest,
            image: image.clone(),
            out: vec![0xA5; image.len()],
            work: vec![0xA5; 3 * image.len()],
        };
        let (answer, after) = replay.agrees(&name, &open);
        let Call::Open { out: opened, .. } = after else {
            panic!("{name}: another call");
        };
        assert_eq!(
            running, opened,
            "{name}: all bytes are those of the opening"
        );
        if let Some(&area) = areas.last() {
            assert_eq!(
                Area(area),
                answer,
                "{name}: the last area is that of the opening"
            );
        }
        let last = decomposed(&mut replay, &name, (w, h, element), &running);
        let above = |label: &u8| (*label as u32 > largest).then_some(*label);
        let same = labels.iter().map(above).eq(last.iter().map(above));
        assert!(same, "{name}: the labels above the cut are the same");
        empty += (sieves == 0) as u32;
        longer += (areas.len() >= 2) as u32;
        some += (running != image && running.iter().any(|&byte| byte > 0)) as u32;
    }
    let counts = [empty, first, second, longer, some];
    assert!(counts.iter().all(|&count| count >= 50), "{counts:?}");
    replay.end();
}

/// A sieve of the image's sides and element; one in three has arguments that are refused.
fn draw(rng: &mut Rng, sides: (u32, u32, u32), labels: &[u8], bytes: usize) -> Sieve {
    let (w, h, element) = sides;
    let mut sieve = Sieve {
        w,
        h,
        element,
        cut: cut_or_n(rng, labels),
        labels: rng.bytes(labels.len()),
        work: [rng.bytes(3 * bytes), rng.bytes(3 * bytes + 2)],
    };
    match rng.below(21) {
        0 => sieve.w = rng.pick(&[0, 256, u32::MAX]),
        1 => sieve.h = rng.pick(&[0, 256, u32::MAX]),
        2 => sieve.element = rng.pick(&[0, 4096, 1 << 25 | 4096, 6144 & !4096]),
        3 => drop(sieve.labels.pop()),
        4 => sieve.labels.push(0),
        5 => sieve.work[0].truncate(3 * bytes - 1),
        6 => sieve.work[1].truncate(3 * bytes - 1),
        _ => {}
    }
    sieve
}

/// The labels of an image.
fn decomposed(replay: &mut Replay, name: &str, sides: (u32, u32, u32), image: &[u8]) -> Vec<u8> {
    let (w, h, element) = sides;
    let decompose = Call::Decompose {
        w,
        h,
        element,
        image: image.to_vec(),
        labels: vec![0xA5; (w * h) as usize],
        work: vec![0xA5; 3 * image.len()],
    };
    match replay.agrees(name, &decompose) {
        (answer, Call::Decompose { labels, .. }) if !matches!(answer, Refused(_)) => labels,
        (answer, _) => panic!("{name}: {answer:?}"),
    }
}
