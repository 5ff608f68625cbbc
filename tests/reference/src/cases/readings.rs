//! Codes that are read: those of scans of 01 and of the sample of 000 back, and at least one for
//! each reason of 02's rows 9, 10 and 11. G's is 02's; the others are written out by hand from its
//! rule.

use super::{Call, Settled};
use crate::drawn::image;
use crate::Answer::{self, *};
use crate::Mark::{self, Blank, Largest};
use crate::{LEFT, PLUS, RIGHT, ROUND, SQUARE};

const FIVE: &str = "11111/11111/11111";
const G: &str = "1101";

/// All calls of the cases, in their order; the sample is case S. A refused one goes by the scan
/// whose code was changed.
pub fn readings() -> Vec<Settled> {
    let cases = [back(), nine(), ten(), eleven(), two_rows()];
    cases.into_iter().flatten().collect()
}

/// Codes as they are written.
#[rustfmt::skip]
fn back() -> Vec<Settled> {
    let squares = "11111/11111/11111/11111/11111";
    let sample = "0000000000010000001000000011001000000001";
    // 0, comma, comma, and two commas for each of 254 sizes: 511 symbols.
    let f: Vec<u8> = std::iter::once(0x40).chain([0; 127]).collect();
    let mut cases = vec![
        read('A', "111/111/111", SQUARE, Largest(1), &[0xA0, 0x00]),
        read('B', FIVE, SQUARE, Largest(1), &[0xD1, 0x10, 0x00]),
        read('C', squares, SQUARE, Largest(2), &[0xA4, 0x00, 0x00]),
        read('D', "1", SQUARE, Largest(0), &[0x40]),
        read('F', &"1".repeat(255), RIGHT, Largest(254), &f),
        read('G', G, RIGHT, Largest(1), &[0x42, 0x00]),
        read('H', G, LEFT, Largest(1), &[0x82, 0x00]),
        read('I', "1110/1111/1110", SQUARE, Largest(1), &[0xB0, 0x80]),
        read('S', sample, SQUARE, Largest(0), &[0x9C, 0xD3, 0x84, 0xCF, 0x00]),
        // 10, comma, comma: a byte without padding.
        read('-', "0001", RIGHT, Largest(0), &[0x90]),
    ];
    for element in [SQUARE, PLUS, ROUND, RIGHT, LEFT] {
        cases.push(read('E', "000/000", element, Blank, &[]));
    }
    cases
}

/// A code of G's sheet and element that is refused.
fn g(row: u8, largest: u32, stream: &[u8]) -> Settled {
    refused('G', G, RIGHT, Largest(largest), stream, row)
}

/// Codes that cannot be read. G's is 0, comma, comma; 1, comma, comma: 42 00.
#[rustfmt::skip]
fn nine() -> Vec<Settled> {
    vec![
        // The stream ends early: at once; before the commas of size 0; after the first of them;
        // before the last size.
        g(9, 1, &[]),
        g(9, 1, &[0x42]),
        g(9, 0, &[0x48]),
        g(9, 3, &[0x40, 0x00]),
        // A leading zero digit: 00; 01, in the first size or the last.
        g(9, 1, &[0x50, 0x80]),
        g(9, 1, &[0x60, 0x80]),
        g(9, 1, &[0x41, 0x80]),
        // No digit: a comma before the runs of the first size or the last.
        g(9, 1, &[0x10, 0x80]),
        g(9, 1, &[0x40, 0x80]),
        // A run passes the sheet: 11; 11111111, and so on.
        g(9, 1, &[0xA0, 0x80]),
        g(9, 1, &[0xAA, 0xAA, 0x08, 0x00]),
        // Of size 0 two pixels are not covered: 2; 1, comma, 0.
        g(9, 1, &[0x43, 0x00]),
        g(9, 1, &[0x42, 0x10]),
        // The largest size is above 254.
        g(9, 255, &[0x42, 0x00]),
        g(9, 256, &[0x42, 0x00]),
        g(9, 257, &[0x42, 0x00]),
        g(9, 65_536, &[0x42, 0x00]),
        g(9, u32::MAX, &[0x42, 0x00]),
        g(9, 255, &[]),
        // The first size holds no point: comma, comma, and G's code; a blank scan.
        g(9, 2, &[0x04, 0x20]),
        g(9, 0, &[0x00]),
        refused('E', "000/000", SQUARE, Largest(0), &[0x00], 9),
        // A point leaves the sheet: 10 in place of 0; 2B at 2; B at 3 after 2B at 0.
        g(9, 1, &[0x90, 0x80]),
        g(9, 2, &[0xC0, 0x00]),
        g(9, 2, &[0x42, 0x00]),
        refused('A', "111/111/111", SQUARE, Largest(1), &[0x40, 0x00], 9),
        refused('D', "1", SQUARE, Largest(1), &[0x40, 0x00], 9),
        refused('H', G, LEFT, Largest(1), &[0x42, 0x00], 9),
    ]
}

/// Codes that something follows, beside a mark that is blank or not.
fn ten() -> Vec<Settled> {
    let mut cases = vec![
        g(10, 1, &[0x42, 0x00, 0x00]),
        g(10, 1, &[0x42, 0x00, 0x01]),
        g(10, 1, &[0x42, 0x00, 0x42, 0x00]),
        refused('D', "1", SQUARE, Largest(0), &[0x40, 0x00], 10),
        // Without padding.
        refused('-', "0001", RIGHT, Largest(0), &[0x90, 0x00], 10),
        refused('-', "0001", RIGHT, Largest(0), &[0x90, 0x01], 10),
    ];
    // Four bits of padding.
    for bit in 0..4 {
        cases.push(g(10, 1, &[0x42, 1 << bit]));
    }
    for stream in [&[0x00][..], &[0x01], &[0x40], &[0x42, 0x00], &[0x00; 9]] {
        cases.push(refused('E', "000/000", SQUARE, Blank, stream, 10));
    }
    cases
}

/// Codes of labels that are no skeleton.
#[rustfmt::skip]
fn eleven() -> Vec<Settled> {
    vec![
        // All of G as points of size 0: 0, comma, 0, comma, 1, comma, comma.
        g(11, 0, &[0x44, 0x80]),
        // B shortened: 20, comma, 1, comma, comma; comma, comma.
        refused('B', FIVE, SQUARE, Largest(1), &[0xD2, 0x00], 11),
        // B's middle point, and the columns at its sides point by point: 21; 0, comma, 0, ..
        refused('B', FIVE, SQUARE, Largest(1), &[0xE0, 0x44, 0x44, 0x44, 0x00], 11),
        // 2200: two points of size 1 are one of size 2.
        g(11, 1, &[0x44, 0x00]),
    ]
}

/// Codes that two rows refuse, or all: the lowest is answered.
#[rustfmt::skip]
fn two_rows() -> Vec<Settled> {
    vec![
        // A point that leaves, and padding, a byte more, or both.
        g(9, 1, &[0x90, 0x81]),
        g(9, 1, &[0x90, 0x80, 0x00]),
        g(9, 1, &[0x90, 0x81, 0x01]),
        // A first size without a point, and a byte more.
        g(9, 2, &[0x04, 0x20, 0x00]),
        // A largest size above 254, where anything follows.
        g(9, 255, &[0x42, 0x00, 0x00]),
        // Points of size 0 side by side, and one of size 1 that leaves.
        g(9, 1, &[0x90, 0x44, 0x40]),
        // No skeleton, and padding or a byte more.
        g(10, 0, &[0x44, 0x81]),
        g(10, 0, &[0x44, 0x80, 0x00]),
        refused('B', FIVE, SQUARE, Largest(1), &[0xD2, 0x00, 0x00], 10),
        // All three.
        g(9, 1, &[0x90, 0x44, 0x40, 0x01]),
    ]
}

/// A call on the sheet of a drawn image; image and work hold anything.
fn call(drawn: &str, element: u32, mark: Mark, stream: &[u8]) -> Call {
    let (w, h, bytes) = image(drawn);
    Call::Decode {
        w,
        h,
        element,
        mark,
        stream: stream.to_vec(),
        image: vec![0xA5; bytes.len()],
        work: vec![0xA5; 5 * bytes.len() + 1],
    }
}

/// A call whose work is cleared, all but its last byte.
fn case(case: char, call: Call, answer: Answer) -> Settled {
    let mut after = call.clone();
    let work = after.parts().work.expect("work");
    let cleared = work.len() - 1;
    work[..cleared].fill(0);
    Settled {
        case,
        call,
        answer,
        after,
    }
}

/// The drawn image is written, and its points are answered.
fn read(name: char, drawn: &str, element: u32, mark: Mark, stream: &[u8]) -> Settled {
    let points = drawn.bytes().filter(|&pixel| pixel == b'1').count();
    let call = call(drawn, element, mark, stream);
    let mut settled = case(name, call, Area(points as u32));
    *settled.after.parts().written.expect("an image") = image(drawn).2;
    settled
}

fn refused(name: char, drawn: &str, element: u32, mark: Mark, stream: &[u8], row: u8) -> Settled {
    case(name, call(drawn, element, mark, stream), Refused(row))
}
