//! Streams that are made to be long.

use super::{agree, pack, points_of_size_0, symbols, Rows, Sheet, DOWN, LONGEST};
use programs::replay::Replay;
use reference::drawn::full;
use reference::rng::Rng;
use reference::Answer::{self, Area, Refused};
use reference::Mark::{self, Blank, Largest};
use reference::{LEFT, PLUS, RIGHT, ROUND, SQUARE};

/// Long streams on the smallest and the largest sheet.
#[test]
fn hostile_streams() {
    let (rng, mut replay, mut rows) = (&mut Rng::new(9), Replay::start(), Rows::default());
    let long = |first: &[u8], byte: u8| {
        let mut stream = first.to_vec();
        stream.resize(LONGEST, byte);
        stream
    };
    // Digits, and two commas at the very end.
    let mut one_run = long(&[], 0xAA);
    one_run[LONGEST - 1] = 0xA0;
    let streams = [
        ("zeros", long(&[], 0x00)),
        ("a point and sizes without end", long(&[0x40], 0x00)),
        ("a point in every byte", long(&[], 0x40)),
        ("points without end", long(&[], 0x44)),
        ("zero digits without end", long(&[], 0x55)),
        ("one digits without end", long(&[], 0xAA)),
        ("two digits without end", long(&[], 0xFF)),
        ("runs of 3 without end", long(&[], 0x90)),
        ("a long run, then zeros", long(&[0xAA; 16_384], 0x00)),
        ("the longest run", one_run),
        ("a comma and digits without end", long(&[0x2A], 0xAA)),
        ("any bytes", rng.bytes(LONGEST)),
    ];
    let largest = [0, 1, 127, 253, 254, 255, 256, 65_535, 65_536, u32::MAX];
    let marks = largest.map(Largest).into_iter().chain([Blank]);
    for (w, h) in [(1, 1), (255, 1), (1, 255), (8, 8), (255, 255)] {
        for element in [SQUARE, RIGHT, DOWN] {
            let sheet = Sheet::new(w, h, element);
            let mut calls = vec![];
            for (name, stream) in &streams {
                for mark in marks.clone() {
                    let name = format!("{name}, {mark:?}, {sheet:?}");
                    calls.push((name, sheet.call(rng, mark, stream.clone())));
                }
            }
            agree(&mut replay, &calls, &mut rows);
        }
    }
    // Of 12 streams on 15 sheets those with a blank mark are 10, and so are others; those with
    // one of five sizes above 254 are 9. Nothing so long is accepted.
    let (blank, above) = (12 * 15, 12 * 15 * 5);
    assert!(rows[10] > blank && rows[9] > above, "{rows:?}");
    assert_eq!(rows[9] + rows[10], 12 * 15 * 11, "{rows:?}");
    replay.end();
}

/// A megabyte after a ticket, and a megabyte alone.
#[test]
fn a_megabyte() {
    const MEGABYTE: usize = 1 << 20;
    let (rng, mut replay, mut rows) = (&mut Rng::new(11), Replay::start(), Rows::default());
    for (w, h) in [(1, 1), (255, 255)] {
        let sheet = Sheet::new(w, h, SQUARE);
        for first in [&[][..], &[0x40], &[0x40, 0x00]] {
            for byte in [0x00, 0x44, 0x55, 0xAA, 0xFF] {
                let mut stream = first.to_vec();
                stream.resize(MEGABYTE, byte);
                let marks = [Largest(0), Largest(1), Largest(254), Blank];
                let call = |mark| {
                    let name = format!("{first:?}, then {byte:#x}, {mark:?}, {w} by {h}");
                    (name, sheet.call(rng, mark, stream.clone()))
                };
                agree(&mut replay, &marks.map(call), &mut rows);
            }
        }
    }
    assert_eq!(rows[9] + rows[10], 2 * 3 * 5 * 4, "{rows:?}");
    assert!(rows[9] > 40 && rows[10] > 40, "{rows:?}");
    replay.end();
}

/// Long streams that are accepted or well formed: as many points as a sheet has, as many sizes as
/// there are, many points in every size that fit, and many that do not.
#[test]
fn the_longest_tickets() {
    let (rng, mut replay, mut rows) = (&mut Rng::new(10), Replay::start(), Rows::default());
    let sheet = |element| Sheet::new(255, 255, element);
    let all: Vec<usize> = (0..255 * 255).collect();
    let other =
        |part: usize| -> Vec<usize> { all.iter().copied().filter(|z| z % 2 == part).collect() };
    let mut check = |name: &str, sheet: Sheet, mark: Mark, stream: Vec<u8>, wanted: Answer| {
        let call = sheet.call(rng, mark, stream);
        let answers = agree(&mut replay, &[(name.to_string(), call)], &mut rows);
        assert_eq!(answers, [wanted], "{name}");
    };
    // Every other pixel: no two side by side or one below the other.
    for element in [SQUARE, PLUS, RIGHT, LEFT, DOWN] {
        for part in [0, 1] {
            let (places, name) = (other(part), "every other pixel");
            let stream = points_of_size_0(&places);
            let points = Area(places.len() as u32);
            check(name, sheet(element), Largest(0), stream.clone(), points);
            let longer = [stream.clone(), vec![0]].concat();
            check(name, sheet(element), Largest(0), longer, Refused(10));
            let shorter = stream[..stream.len() - 1].to_vec();
            check(name, sheet(element), Largest(0), shorter, Refused(9));
        }
    }
    for element in [SQUARE, RIGHT] {
        let (stream, name) = (points_of_size_0(&all), "every pixel");
        check(
            name,
            sheet(element),
            Largest(0),
            stream.clone(),
            Refused(11),
        );
        let one_more: Vec<usize> = (0..255 * 255 + 1).collect();
        let (stream, name) = (points_of_size_0(&one_more), "a point more than pixels");
        check(name, sheet(element), Largest(0), stream, Refused(9));
        // Every pixel as the largest size: those at the end leave.
        let stream = pack(&[symbols(&all), vec![0; 2 * 254]].concat());
        let name = "every pixel of size 254";
        check(name, sheet(element), Largest(254), stream, Refused(9));
    }
    // 255 by 255 all ink: size 254 in the first column by RIGHT, 127 in the middle by SQUARE.
    for element in [SQUARE, PLUS, ROUND, RIGHT, LEFT, DOWN] {
        let (mark, stream) = sheet(element).own(&full(255, 255));
        let name = "the largest sheet all ink";
        check(name, sheet(element), mark, stream, Area(255 * 255));
    }
    let (mark, stream) = sheet(RIGHT).own(&full(255, 255));
    assert_eq!(mark, Largest(254));
    for largest in [253, 255] {
        let name = "a size more or less";
        check(
            name,
            sheet(RIGHT),
            Largest(largest),
            stream.clone(),
            Refused(9 + (largest < 254) as u8),
        );
    }
    // Every point of one size that fits.
    for size in [1, 5, 9] {
        let fits = |place: &usize| {
            let inside = size..255 - size;
            inside.contains(&(place % 255)) && inside.contains(&(place / 255))
        };
        let places: Vec<usize> = all.iter().copied().filter(fits).collect();
        let stream = pack(&[symbols(&places), vec![0; 2 * size]].concat());
        let name = "every point of a size that fits";
        check(
            name,
            sheet(SQUARE),
            Largest(size as u32),
            stream,
            Refused(11),
        );
    }
    let met = [rows[0], rows[9], rows[10], rows[11]];
    assert!(met.iter().all(|&times| times >= 3), "{rows:?}");
    replay.end();
}
