//! Runs of every length, about the pixels of a sheet and about those that are left, and of none.

use super::{agree, numeral, pack, points_of_size_0, Rows, Sheet, DOWN, NAMED};
use programs::replay::Replay;
use reference::rng::Rng;
use reference::Answer::{Area, Refused};
use reference::Mark::Largest;
use reference::{RIGHT, SQUARE};

/// One run of every number of digits, about the powers of three and of two and about the pixels
/// of a sheet: one pixel less than it has is accepted, as many are 9.
#[test]
fn one_run_of_every_length() {
    let (rng, mut replay, mut rows) = (&mut Rng::new(7), Replay::start(), Rows::default());
    for (w, h) in [
        (1, 1),
        (7, 1),
        (8, 3),
        (9, 9),
        (81, 3),
        (64, 64),
        (255, 255),
    ] {
        let sheet = Sheet::new(w, h, rng.pick(&[SQUARE, RIGHT, DOWN]));
        let pixels = sheet.pixels() as u128;
        let threes = (0..=80).map(|k| 3u128.pow(k));
        let twos = (1..=126).map(|k| 1 << k);
        let about = threes.chain(twos).chain([pixels]);
        let runs: Vec<u128> = about.flat_map(|n| [n - 1, n, n + 1]).collect();
        let call = |run: &u128| {
            let stream = pack(&[numeral(*run), vec![0, 0]].concat());
            let name = format!("a run of {run}");
            (name, sheet.call(rng, Largest(0), stream))
        };
        let calls: Vec<_> = runs.iter().map(call).collect();
        for (run, answer) in runs.iter().zip(agree(&mut replay, &calls, &mut rows)) {
            let wanted = if *run < pixels { Area(1) } else { Refused(9) };
            assert_eq!(answer, wanted, "{run} on {w} by {h}");
        }
    }
    assert!(rows[0] >= 200 && rows[9] >= 3000, "{rows:?}");
    replay.end();
}

/// After some points, a run about the pixels that are left: as many as there are is 9.
#[test]
fn runs_about_the_pixels_that_are_left() {
    let (mut replay, mut rows) = (Replay::start(), Rows::default());
    for seed in 7000..7200 {
        let rng = &mut Rng::new(seed);
        let mut sheet = Sheet::small(rng, 40, 12);
        sheet.element = rng.pick(&NAMED);
        // Every other pixel of every other row: no two of them are one larger point.
        let every_other = |place: &usize| {
            let (x, y) = (place % sheet.w as usize, place / sheet.w as usize);
            x % 2 == 0 && y % 2 == 0
        };
        let mut places: Vec<usize> = (0..sheet.pixels()).filter(every_other).collect();
        places.truncate(rng.between(1, places.len()));
        let (last, pixels) = (places[places.len() - 1], sheet.pixels());
        let about = pixels.saturating_sub(3)..pixels + 3;
        let about: Vec<usize> = about.filter(|&place| place > last).collect();
        let call = |place: &usize| {
            let stream = points_of_size_0(&[&places[..], &[*place]].concat());
            let name = format!("left, seed {seed}, a point at {place}");
            (name, sheet.call(rng, Largest(0), stream))
        };
        let calls: Vec<_> = about.iter().map(call).collect();
        for (place, answer) in about.iter().zip(agree(&mut replay, &calls, &mut rows)) {
            assert_eq!(answer == Refused(9), *place >= pixels, "seed {seed}");
        }
    }
    assert!(rows[0] + rows[11] >= 400 && rows[9] == 600, "{rows:?}");
    replay.end();
}

/// One to 255 points side by side from every place of a byte on: streams that end at every place
/// of a byte, with and without a byte after them.
#[test]
fn points_side_by_side() {
    let (rng, mut replay, mut rows) = (&mut Rng::new(8), Replay::start(), Rows::default());
    let sheet = Sheet::new(255, 1, DOWN);
    let (mut calls, mut wanted) = (vec![], vec![]);
    for first in (0..9).chain([63, 64, 65]) {
        for count in 1..=255 - first {
            let places: Vec<usize> = (first..first + count).collect();
            let stream = points_of_size_0(&places);
            let longer = [&stream[..], &[0]].concat();
            let name = format!("{count} points from {first}");
            calls.push((name.clone(), sheet.call(rng, Largest(0), stream)));
            calls.push((name, sheet.call(rng, Largest(0), longer)));
            wanted.extend([Area(count as u32), Refused(10)]);
        }
    }
    assert!(agree(&mut replay, &calls, &mut rows) == wanted);
    assert!(rows[0] > 2500 && rows[10] > 2500, "{rows:?}");
    replay.end();
}
