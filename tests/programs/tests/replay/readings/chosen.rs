//! Tickets of every kind, widths about whole words of pixels, every length of image and work; and
//! codes that are written, then read.

use super::{agree, points_of_size_0, row, Rows, Sheet, DOWN, LONGEST, NAMED};
use programs::replay::Replay;
use reference::cases::{element, image_of, labels_of, side, ticket_of, ticket_of_labels};
use reference::cases::{Call, LabelsKind, IMAGE_KINDS, TICKET_KINDS};
use reference::drawn::full;
use reference::rng::Rng;
use reference::Answer::{self, Area};
use reference::Mark::{Blank, Largest};
use reference::{LEFT, PLUS, RIGHT, ROUND, SQUARE};
use std::collections::{BTreeMap, BTreeSet};

/// Tickets of every kind, with the named elements and others, on sheets of all sides.
#[test]
fn every_kind_of_ticket() {
    let mut replay = Replay::start();
    let mut met: BTreeMap<_, Rows> = BTreeMap::new();
    for kind in TICKET_KINDS {
        let mut calls = vec![];
        for seed in 5000..5600 {
            let rng = &mut Rng::new(seed);
            let (w, h, any) = (side(rng), side(rng), element(rng));
            let element = *NAMED.get(seed as usize % 6).unwrap_or(&any);
            let (mark, stream) = ticket_of(rng, kind, w, h, element);
            let call = Sheet::new(w, h, element).call(rng, mark, stream);
            calls.push((format!("{kind:?}, seed {seed}"), call));
        }
        agree(&mut replay, &calls, met.entry(kind).or_default());
    }
    let total = |row: usize| met.values().map(|rows| rows[row]).sum::<u64>();
    let all = [0, 9, 10, 11].map(total);
    assert!(all.iter().all(|&times| times >= 100), "{met:?}");
    // A ticket of an image is accepted, one with more after it is not.
    let [own, flipped, truncated, extended, padded, marked, labels, runs, any] =
        TICKET_KINDS.map(|kind| met[&kind]);
    assert_eq!((own[0], extended[0]), (600, 0));
    assert!(flipped[9] >= 50 && flipped[11] >= 20, "{flipped:?}");
    assert!(
        truncated[9] >= 100 && padded[10] >= 50,
        "{truncated:?} {padded:?}"
    );
    assert!(marked[9] >= 100 && marked[10] >= 20, "{marked:?}");
    assert!(labels[9] >= 50 && labels[11] >= 50, "{labels:?}");
    assert!(
        runs[9] >= 50 && any[9] >= 50 && any[10] >= 50,
        "{runs:?} {any:?}"
    );
    replay.end();
}

/// What `replay` writes it reads back: the image and its points, byte for byte.
#[test]
fn what_is_written_is_read_back() {
    let mut replay = Replay::start();
    for kind in IMAGE_KINDS {
        let (mut blank, mut sizes) = (0, 0);
        for seed in 6000..6150 {
            let rng = &mut Rng::new(seed);
            let (w, h, any) = (side(rng), side(rng), element(rng));
            let element = *NAMED.get(seed as usize % 6).unwrap_or(&any);
            let image = image_of(rng, kind, w, h);
            let name = format!("{kind:?}, seed {seed}");
            let encode = Call::Encode {
                w,
                h,
                element,
                image: image.clone(),
                out: rng.bytes(LONGEST),
                work: rng.bytes(3 * image.len()),
            };
            let (mark, stream) = match replay.agrees(&name, &encode) {
                (Answer::Coded { bytes, max_size }, Call::Encode { out, .. }) => {
                    (Largest(max_size), out[..bytes as usize].to_vec())
                }
                (Answer::Blank, _) => (Blank, vec![]),
                (answer, _) => panic!("{name}: {answer:?}"),
            };
            let decode = Sheet::new(w, h, element).call(rng, mark, stream);
            let (answer, after) = replay.agrees(&name, &decode);
            let Call::Decode { image: read, .. } = after else {
                panic!("{name}: another call");
            };
            let points = image.iter().map(|byte| byte.count_ones()).sum();
            assert_eq!(answer, Area(points), "{name}");
            assert!(read == image, "{name}");
            blank += (mark == Blank) as u32;
            sizes += (mark > Largest(0)) as u32;
        }
        let is_blank = kind == IMAGE_KINDS[0];
        assert_eq!(blank == 150, is_blank, "{kind:?}");
        assert_eq!(sizes >= 20, !is_blank, "{kind:?}: {sizes}");
    }
    replay.end();
}

/// Widths about 64, 128 and 192, with every kind of image and few rows or many: its own ticket,
/// one with a bit flipped, and that of labels from no image.
#[test]
fn widths_about_whole_words() {
    let (mut replay, mut rows) = (Replay::start(), Rows::default());
    let mut met: BTreeMap<u32, u32> = BTreeMap::new();
    let widths = (55..=73).chain(119..=137).chain(183..=201);
    for w in widths.clone() {
        let mut calls = vec![];
        for (i, kind) in IMAGE_KINDS.into_iter().enumerate() {
            for h in [1, 2, 3, 16, 33] {
                let seed = 10_000 * w as u64 + 100 * i as u64 + h as u64;
                let rng = &mut Rng::new(seed);
                let any = element(rng);
                let element = rng.pick(&[SQUARE, PLUS, ROUND, RIGHT, LEFT, DOWN, any]);
                let sheet = Sheet::new(w, h, element);
                let (mark, stream) = sheet.own(&image_of(rng, kind, w, h));
                let mut flipped = stream.clone();
                let at = rng.below(stream.len().max(1));
                if let Some(byte) = flipped.get_mut(at) {
                    *byte ^= 1 << rng.below(8);
                }
                let labels = labels_of(rng, LabelsKind::Free, w, h, sheet.element);
                let free = ticket_of_labels(w, h, sheet.element, &labels);
                for (mark, stream) in [(mark, stream), (mark, flipped), free] {
                    let call = sheet.call(rng, mark, stream);
                    calls.push((format!("words, seed {seed}"), call));
                }
            }
        }
        let answers = agree(&mut replay, &calls, &mut rows);
        let inked = |answer: &&Answer| matches!(answer, Area(points) if *points > 0);
        met.insert(w, answers.iter().filter(inked).count() as u32);
    }
    assert!(widths.into_iter().all(|w| met[&w] >= 35), "{met:?}");
    assert!(rows[9] >= 500 && rows[11] >= 500, "{rows:?}");
    replay.end();
}

/// Every length of work about 5P and 3P and every length of the image, with a ticket for each of
/// 0, 9, 10 and 11.
#[test]
fn every_length_of_image_and_work() {
    let mut replay = Replay::start();
    let mut met = BTreeSet::new();
    // 9 by 3: P is 6.
    let sheet = Sheet::new(9, 3, SQUARE);
    let (_, whole) = sheet.own(&full(9, 3));
    let all: Vec<usize> = (0..27).collect();
    let tickets = [
        (0, Largest(1), whole.clone()),
        (0, Blank, vec![]),
        (9, Largest(1), whole[..whole.len() - 1].to_vec()),
        (10, Largest(1), [&whole[..], &[0]].concat()),
        (11, Largest(0), points_of_size_0(&all)),
    ];
    for (wanted, mark, stream) in tickets {
        let works = (0..36).map(|work| (6, work));
        let images = (0..20).map(|image| (image, 30));
        let lengths: Vec<(usize, usize)> = works.chain(images).collect();
        let call = |&(image, work): &(usize, usize)| Call::Decode {
            w: 9,
            h: 3,
            element: SQUARE,
            mark,
            stream: stream.clone(),
            image: vec![0xA5; image],
            work: vec![0x5A; work],
        };
        let named = |lengths| (format!("image and work of {lengths:?}"), call(lengths));
        let calls: Vec<_> = lengths.iter().map(named).collect();
        for ((image, work), answer) in lengths.iter().zip(replay.all_agree(&calls)) {
            let sound = *image == 6 && *work >= 30;
            assert_eq!(row(&answer), if sound { wanted } else { 3 });
            met.insert(row(&answer));
        }
    }
    assert_eq!(met, [0, 3, 9, 10, 11].into());
    replay.end();
}
