//! Every short stream on every small sheet.

use super::{row, Rows, Sheet, NAMED};
use programs::replay::blocks_agree;
use reference::cases::Call;
use reference::Mark::{self, Blank, Largest};

/// All streams of up to two bytes: none, then the bytes, then pairs of them.
const STREAMS: u64 = 1 + 256 + 65_536;

fn short_stream(number: u64) -> Vec<u8> {
    match number {
        0 => vec![],
        1..=256 => vec![(number - 1) as u8],
        _ => ((number - 257) as u16).to_be_bytes().to_vec(),
    }
}

/// Every stream of up to two bytes with largest sizes 0 to 4 and blank, on every sheet up to 3 by
/// 3 with the five named elements. As many are accepted as scans have such a ticket.
#[test]
fn every_short_stream() {
    let sides = (1..=3).flat_map(|w| (1..=3).map(move |h| (w, h)));
    let sheets: Vec<Sheet> = sides
        .flat_map(|(w, h)| NAMED.map(|element| Sheet::new(w, h, element)))
        .collect();
    let marks: Vec<Mark> = (0..=4).map(Largest).chain([Blank]).collect();
    let call = |seed: u64| {
        let (number, rest) = (seed % STREAMS, (seed / STREAMS) as usize);
        let (mark, sheet) = (marks[rest % marks.len()], sheets[rest / marks.len()]);
        let plane = (sheet.w.div_ceil(8) * sheet.h) as usize;
        Call::Decode {
            w: sheet.w,
            h: sheet.h,
            element: sheet.element,
            mark,
            stream: short_stream(number),
            image: vec![0xA5; plane],
            work: vec![0x5A; 5 * plane + 1],
        }
    };
    let count = (sheets.len() * marks.len()) as u64 * STREAMS;
    let mut rows = Rows::default();
    blocks_agree(4000, 0, count, call, |_, answer| rows[row(answer)] += 1);
    assert_eq!(rows.iter().sum::<u64>(), count);
    let own: usize = sheets.iter().map(|sheet| short_tickets(*sheet)).sum();
    assert_eq!(rows[0], own as u64, "{rows:?}");
    assert!(own > 1000 && rows[9] > 10_000_000, "{rows:?}");
    assert!(rows[10] > 3_000_000 && rows[11] > 200, "{rows:?}");
}

/// How many scans of a small sheet have a ticket of up to two bytes and sizes up to 4.
fn short_tickets(sheet: Sheet) -> usize {
    let scan = |ink: u32| {
        let rows = (0..sheet.h).map(|y| ink >> (sheet.w * y) & ((1 << sheet.w) - 1));
        rows.map(|row| (row as u8) << (8 - sheet.w)).collect()
    };
    let scans = (0..1 << sheet.pixels()).map(scan);
    scans
        .map(|image: Vec<u8>| sheet.own(&image))
        .filter(|(mark, stream)| *mark <= Largest(4) && stream.len() <= 2)
        .count()
}
