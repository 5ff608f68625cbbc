//! The codes of scans of 01, and the sample of 000 whose runs 02 gives. That of G is 02's; the
//! others are written out by hand from its rule.

use super::settled::work;
use super::{Call, Settled};
use crate::drawn::image;
use crate::Answer::{self, *};
use crate::{LEFT, PLUS, RIGHT, ROUND, SQUARE};

/// All calls of the cases, in their order; the sample is case S.
#[rustfmt::skip]
pub fn coded() -> Vec<Settled> {
    let (three, five) = ("111/111/111", "11111/11111/11111");
    let squares = "11111/11111/11111/11111/11111";
    let mut cases = vec![
        // 11 (four pixels before the point), comma, comma; comma, comma.
        encode('A', three, SQUARE, 4, &[0xA0, 0x00], 1),
        // 20, comma, 0, comma, 0, comma, comma; comma, comma.
        encode('B', five, SQUARE, 5, &[0xD1, 0x10, 0x00], 1),
        // 110, comma, comma; comma, comma; comma, comma.
        encode('C', squares, SQUARE, 3, &[0xA4, 0x00, 0x00], 2),
        // 0, comma, comma.
        encode('D', "1", SQUARE, 2, &[0x40], 0),
        refused_8('D', "1", SQUARE, 0),
    ];
    for element in [SQUARE, PLUS, ROUND, RIGHT, LEFT] {
        cases.extend([0, 1, 9].map(|lent| encode_blank('E', "000/000", element, lent)));
    }
    cases.extend([
        // 0, comma, comma; 1, comma, comma.
        encode('G', "1101", RIGHT, 2, &[0x42, 0x00], 1),
        encode('G', "1101", RIGHT, 7, &[0x42, 0x00], 1),
        refused_8('G', "1101", RIGHT, 1),
        refused_8('G', "1101", RIGHT, 0),
        // 1, comma, comma; 1, comma, comma.
        encode('H', "1101", LEFT, 3, &[0x82, 0x00], 1),
        refused_8('H', "1101", LEFT, 1),
        // 12, comma, comma; 1, comma, comma.
        encode('I', "1110/1111/1110", SQUARE, 2, &[0xB0, 0x80], 1),
        refused_8('I', "1110/1111/1110", SQUARE, 1),
        encode('S', SAMPLE, SQUARE, 5, &[0x9C, 0xD3, 0x84, 0xCF, 0x00], 0),
        encode('S', SAMPLE, SQUARE, 6, &[0x9C, 0xD3, 0x84, 0xCF, 0x00], 0),
        refused_8('S', SAMPLE, SQUARE, 4),
    ]);
    cases
}

/// Runs of 11, 6, 7, 0, 2 and 8 pixels, each before a point: bytes 00 10 20 32 01.
const SAMPLE: &str = "0000000000010000001000000011001000000001";

/// A call that is lent so many bytes.
fn call(drawn: &str, element: u32, lent: usize) -> Call {
    let (w, h, image) = image(drawn);
    Call::Encode {
        w,
        h,
        element,
        image,
        out: vec![0xA5; lent],
        work: work(w, h),
    }
}

/// A call whose work is cleared, and which writes these bytes.
fn case(case: char, call: Call, answer: Answer, bytes: &[u8]) -> Settled {
    let mut after = call.clone();
    let p = after.parts();
    let cleared = 3 * p.read.map_or(0, |image| image.len());
    p.work.into_iter().for_each(|work| work[..cleared].fill(0));
    let out = p.stream.expect("an output");
    out[..bytes.len()].copy_from_slice(bytes);
    Settled {
        case,
        call,
        answer,
        after,
    }
}

fn encode(
    name: char,
    drawn: &str,
    element: u32,
    lent: usize,
    stream: &[u8],
    max_size: u32,
) -> Settled {
    let bytes = stream.len() as u32;
    let answer = Coded { bytes, max_size };
    case(name, call(drawn, element, lent), answer, stream)
}

/// No stream, whatever is lent.
fn encode_blank(name: char, drawn: &str, element: u32, lent: usize) -> Settled {
    case(name, call(drawn, element, lent), Blank, &[])
}

/// Too few bytes are lent.
fn refused_8(name: char, drawn: &str, element: u32, lent: usize) -> Settled {
    case(name, call(drawn, element, lent), Refused(8), &[])
}
