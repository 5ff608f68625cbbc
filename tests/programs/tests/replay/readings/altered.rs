//! Tickets of seeded images, altered: every byte flipped, every truncation, bytes after them,
//! padding, other marks.

use super::{agree, row, Rows, Sheet, LONGEST};
use programs::replay::Replay;
use reference::cases::image;
use reference::rng::Rng;
use reference::Mark::{self, Blank, Largest};
use std::collections::BTreeMap;

/// A seed's small sheet, and the ticket of an image on it that is not blank.
fn seeded(seed: u64) -> (Sheet, Mark, Vec<u8>, Rng) {
    let mut rng = Rng::new(seed);
    loop {
        let sheet = Sheet::small(&mut rng, 24, 16);
        let (mark, stream) = sheet.own(&image(&mut rng, sheet.w, sheet.h));
        if mark != Blank {
            return (sheet, mark, stream, rng);
        }
    }
}

/// One bit or all bits of each byte.
#[test]
fn every_byte_flipped() {
    let (mut replay, mut rows) = (Replay::start(), Rows::default());
    for seed in 0..400 {
        let (sheet, mark, stream, mut rng) = seeded(seed);
        let flips = (0..8).map(|bit| 1 << bit).chain([0xFF]);
        let mut calls = vec![];
        for flip in flips {
            for at in 0..stream.len() {
                let mut other = stream.clone();
                other[at] ^= flip;
                let name = format!("flipped, seed {seed}, byte {at} by {flip:02x}");
                calls.push((name, sheet.call(&mut rng, mark, other)));
            }
        }
        agree(&mut replay, &calls, &mut rows);
    }
    let met = [rows[0], rows[9], rows[10], rows[11]];
    assert!(met.iter().all(|&times| times >= 500), "{met:?}");
    replay.end();
}

/// Every truncation of a stream is 9, to nothing too; the whole is accepted.
#[test]
fn every_truncation() {
    let (mut replay, mut rows) = (Replay::start(), Rows::default());
    for seed in 1000..1400 {
        let (sheet, mark, stream, mut rng) = seeded(seed);
        let cut = |len: usize| {
            let call = sheet.call(&mut rng, mark, stream[..len].to_vec());
            (format!("truncated, seed {seed}, to {len}"), call)
        };
        let calls: Vec<_> = (0..=stream.len()).map(cut).collect();
        for (len, answer) in agree(&mut replay, &calls, &mut rows).iter().enumerate() {
            assert_eq!(row(answer), if len < stream.len() { 9 } else { 0 });
        }
    }
    assert!(rows[0] == 400 && rows[9] >= 4000, "{rows:?}");
    replay.end();
}

/// Anything after a stream is 10: each byte, a few, many, the stream again.
#[test]
fn bytes_after_a_stream() {
    let (mut replay, mut rows) = (Replay::start(), Rows::default());
    for seed in 2000..2060 {
        let (sheet, mark, stream, mut rng) = seeded(seed);
        let one = (0..=255).map(|byte| vec![byte]);
        let zeros = [2, 3, 4, 5, 64, 1000, LONGEST - stream.len()].map(|len| vec![0; len]);
        let others = [stream.clone(), vec![0xFF; 40], rng.bytes(300)];
        let call = |more: Vec<u8>| {
            let name = format!("extended, seed {seed}, by {} bytes", more.len());
            let longer = [&stream[..], &more].concat();
            (name, sheet.call(&mut rng, mark, longer))
        };
        let calls: Vec<_> = one.chain(zeros).chain(others).map(call).collect();
        agree(&mut replay, &calls, &mut rows);
    }
    assert_eq!(rows[10], 60 * (256 + 7 + 3), "{rows:?}");
    replay.end();
}

/// Every value of the padding but 0 is 10.
#[test]
fn padding() {
    let (mut replay, mut rows, mut lengths) = (Replay::start(), Rows::default(), BTreeMap::new());
    for seed in 3000..3300 {
        let (sheet, mark, stream, mut rng) = seeded(seed);
        let last = stream[stream.len() - 1];
        let calls: Vec<_> = (1..64)
            .map(|more| {
                let mut other = stream.clone();
                other[stream.len() - 1] = last ^ more;
                let name = format!("padding, seed {seed}, by {more:02x}");
                (name, sheet.call(&mut rng, mark, other))
            })
            .collect();
        let answers = agree(&mut replay, &calls, &mut rows);
        let refused = answers.iter().take_while(|answer| row(answer) == 10);
        *lengths.entry(refused.count()).or_insert(0) += 1;
    }
    // The values of 0 to 3 symbols but 0; one more is another code.
    assert!(lengths.keys().eq(&[0, 3, 15, 63]), "{lengths:?}");
    assert!(lengths.values().all(|&times| times >= 20), "{lengths:?}");
    replay.end();
}

/// Every largest size up to some above 254, and blank, beside the streams of images.
#[test]
fn every_mark() {
    let (mut replay, mut rows) = (Replay::start(), Rows::default());
    for seed in 4000..4100 {
        let (sheet, own, stream, mut rng) = seeded(seed);
        let far = [511, 512, 65_535, 65_536, 1 << 24, 1 << 31, u32::MAX];
        let marks: Vec<Mark> = (0..=260).chain(far).map(Largest).chain([Blank]).collect();
        let call = |mark: &Mark| {
            let name = format!("{mark:?} in place of {own:?}, seed {seed}");
            (name, sheet.call(&mut rng, *mark, stream.clone()))
        };
        let calls: Vec<_> = marks.iter().map(call).collect();
        let answers = agree(&mut replay, &calls, &mut rows);
        for (mark, answer) in marks.iter().zip(answers) {
            assert!(*mark != own || row(&answer) == 0, "seed {seed}");
            assert!(*mark <= Largest(254) || row(&answer) == 9, "seed {seed}");
            assert!(*mark != Blank || row(&answer) == 10, "seed {seed}");
        }
    }
    let met = [rows[0], rows[9], rows[10]];
    assert!(met.iter().all(|&times| times >= 100), "{rows:?}");
    replay.end();
}
