//! All short streams and all scans of small sheets: two accepted streams are equal, largest size
//! included, exactly when their scans are.

use super::{decode, encode};
use reference::Answer::{Area, Refused};
use reference::Mark::{self, Blank, Largest};
use reference::{LEFT, PLUS, RIGHT, ROUND, SQUARE};
use std::collections::BTreeMap;

const NAMED: [u32; 5] = [SQUARE, PLUS, ROUND, RIGHT, LEFT];

/// The tickets of a sheet's scans by an element, with the scans.
type Tickets = BTreeMap<(Mark, Vec<u8>), Vec<u8>>;

/// All streams of up to two bytes.
fn streams() -> Vec<Vec<u8>> {
    let one = (0..=255).map(|byte| vec![byte]);
    let two = (0..=65_535u16).map(|bytes| bytes.to_be_bytes().to_vec());
    std::iter::once(vec![]).chain(one).chain(two).collect()
}

/// All scans of a sheet.
fn scans(w: u32, h: u32) -> impl Iterator<Item = Vec<u8>> {
    let stride = w.div_ceil(8);
    let byte_of = move |place: u32| (place / w * stride + place % w / 8) as usize;
    (0..1u32 << (w * h)).map(move |ink| {
        let mut image = vec![0; (stride * h) as usize];
        for place in (0..w * h).filter(|place| ink >> place & 1 == 1) {
            image[byte_of(place)] |= 0x80 >> (place % w % 8);
        }
        image
    })
}

/// What is written for every scan of a sheet. Two scans never have one ticket, and each is read
/// back.
fn written(w: u32, h: u32, element: u32) -> Tickets {
    let mut tickets = Tickets::new();
    for scan in scans(w, h) {
        let (mark, stream) = encode(w, h, element, &scan);
        let points: u32 = scan.iter().map(|byte| byte.count_ones()).sum();
        let read = decode(w, h, element, mark, &stream);
        assert_eq!(read, (Area(points), scan.clone()), "{w} by {h}");
        let other = tickets.insert((mark, stream), scan);
        assert_eq!(other, None, "{w} by {h}, element {element}");
    }
    tickets
}

/// The tickets that are accepted, of these streams with largest sizes 0 to 4 and blank; and how
/// often each row refused one.
fn accepted(w: u32, h: u32, element: u32, streams: &[Vec<u8>], rows: &mut [u32; 12]) -> Tickets {
    let marks = (0..=4).map(Largest).chain([Blank]);
    let tickets = marks.flat_map(|mark| streams.iter().map(move |stream| (mark, stream)));
    let read = tickets.filter_map(|(mark, stream)| match decode(w, h, element, mark, stream) {
        (Refused(row), _) => {
            rows[row as usize] += 1;
            None
        }
        (_, image) => Some(((mark, stream.clone()), image)),
    });
    read.collect()
}

/// The accepted tickets of a sheet are exactly those that are written, with their scans.
fn assert_own_alone(sheets: &[(u32, u32)]) {
    let (streams, mut rows, mut met) = (streams(), [0; 12], 0);
    for &(w, h) in sheets {
        for element in NAMED {
            let mut own = written(w, h, element);
            own.retain(|(mark, stream), _| *mark <= Largest(4) && stream.len() <= 2);
            let accepted = accepted(w, h, element, &streams, &mut rows);
            assert!(accepted == own, "{w} by {h}, element {element}");
            met += own.len();
        }
    }
    // On every sheet at least the blank one and that with its first pixel.
    assert!(met > 2 * 5 * sheets.len(), "{met}");
    assert!(
        rows[9] > 1_000_000 && rows[10] > 100_000 && rows[11] > 0,
        "{rows:?}"
    );
}

#[test]
fn every_short_stream_on_sheets_up_to_3_by_2() {
    assert_own_alone(&[(1, 1), (1, 2), (2, 1), (2, 2), (3, 1), (3, 2)]);
}

#[test]
fn every_short_stream_on_sheets_up_to_3_by_3() {
    assert_own_alone(&[(1, 3), (2, 3), (3, 3)]);
}

#[test]
fn every_short_stream_on_sheets_of_nine_in_a_row() {
    assert_own_alone(&[(1, 9), (9, 1)]);
}

/// Every scan of larger sheets has a ticket of its own, and is read back from it.
#[test]
fn every_scan_of_small_sheets() {
    for (w, h) in [(4, 3), (3, 4), (12, 1), (1, 12), (9, 1)] {
        for element in NAMED {
            let tickets = written(w, h, element);
            assert_eq!(tickets.len(), 1 << (w * h));
        }
    }
}
