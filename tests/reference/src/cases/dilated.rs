//! Dilations by hand (T-06): scans of 01, pixels at each edge and off it, and what is written where
//! ink falls off.

use super::settled::{case, work};
use super::{Call, Settled};
use crate::drawn::image;
use crate::Answer::Dilated;
use crate::{LEFT, PLUS, RIGHT, ROUND, SQUARE};

/// The origin and (2, -2).
const CORNER: u32 = 1 << 12 | 1 << 4;
/// The origin and (2, 0); the origin and (0, 2).
const FAR: u32 = 1 << 12 | 1 << 14;
const DEEP: u32 = 1 << 12 | 1 << 22;
/// The origin, (-2, 0) and (0, 1).
const HOOK: u32 = 1 << 12 | 1 << 10 | 1 << 17;
/// 5 by 5.
const BLOCK: u32 = (1 << 25) - 1;

/// All of them; those of 01's scans by their letter.
#[rustfmt::skip]
pub fn dilated() -> Vec<Settled> {
    let (three, full) = ("111/111/111", "11111/11111/11111/11111/11111");
    let dot = "00000/00000/00100/00000/00000";
    let mut cases = vec![
        fallen('A', three, SQUARE, three),
        fallen('D', "1", SQUARE, "1"),
        // The last point goes to the right, the first to the left.
        fallen('G', "1101", RIGHT, "1111"),
        fallen('H', "1101", LEFT, "1111"),
        whole('-', "1100", RIGHT, "1110"),
        whole('-', "0101", LEFT, "1111"),
        // On the middle of a sheet that just holds the element, and on one that does not.
        whole('-', dot, SQUARE, "00000/01110/01110/01110/00000"),
        whole('-', dot, PLUS, "00000/00100/01110/00100/00000"),
        whole('-', dot, ROUND, "01110/11111/11111/11111/01110"),
        whole('-', dot, BLOCK, full),
        fallen('-', "0000/0010/0000", ROUND, "1111/1111/1111"),
        fallen('-', "0000/0100/0000/0000", ROUND, "1111/1111/1111/1110"),
        // At each edge.
        whole('-', "000/010/000", PLUS, "010/111/010"),
        fallen('-', "000/100/000", PLUS, "100/110/100"),
        fallen('-', "000/001/000", PLUS, "001/011/001"),
        fallen('-', "010/000/000", PLUS, "111/010/000"),
        fallen('-', "000/000/010", PLUS, "000/010/111"),
        // By a corner alone: to the right, to the top, to both.
        whole('-', "000/000/100", CORNER, "001/000/100"),
        fallen('-', "000/000/010", CORNER, "000/000/010"),
        fallen('-', "000/100/000", CORNER, "000/100/000"),
        fallen('-', "010/000/000", CORNER, "010/000/000"),
        whole('-', "001/000", HOOK, "101/001"),
        fallen('-', "010/000", HOOK, "010/010"),
        fallen('-', "001/001", HOOK, "101/101"),
        // By two pixels, from a pixel off the edge.
        whole('-', "1/0/0", DEEP, "1/0/1"),
        fallen('-', "0/1/0", DEEP, "0/1/0"),
        fallen('-', "1", DEEP, "1"),
        whole('-', "0000100", FAR, "0000101"),
        fallen('-', "0000010", FAR, "0000010"),
        fallen('-', "0000001", FAR, "0000001"),
        whole('-', "000000100", FAR, "000000101"),
        fallen('-', "000000010", FAR, "000000010"),
        // The last column at the end of a byte, and at the start of one.
        whole('-', "00000010", RIGHT, "00000011"),
        fallen('-', "00000001", RIGHT, "00000001"),
        whole('-', "000000010", RIGHT, "000000011"),
        fallen('-', "000000001", RIGHT, "000000001"),
        // Beside padding, and beside the next row.
        whole('-', "001/000", LEFT, "011/000"),
        whole('-', "00000001/00000000", LEFT, "00000011/00000000"),
        fallen('-', "00000000/10000000", LEFT, "00000000/10000000"),
        fallen('-', "00000001/00000000", RIGHT, "00000001/00000000"),
    ];
    for element in [SQUARE, PLUS, ROUND, RIGHT, LEFT] {
        cases.push(whole('E', "000/000", element, "000/000"));
    }
    cases
}

/// Nothing falls off.
fn whole(name: char, drawn: &str, element: u32, written: &str) -> Settled {
    dilate(name, drawn, element, false, written)
}

/// Ink falls off.
fn fallen(name: char, drawn: &str, element: u32, written: &str) -> Settled {
    dilate(name, drawn, element, true, written)
}

fn dilate(name: char, drawn: &str, element: u32, fell: bool, written: &str) -> Settled {
    let (w, h, bytes) = image(drawn);
    let call = Call::Dilate {
        w,
        h,
        element,
        out: vec![0xA5; bytes.len()],
        image: bytes,
        work: work(w, h),
    };
    let area = written.bytes().filter(|&pixel| pixel == b'1').count() as u32;
    case(name, call, Dilated { area, fell }, &image(written).2)
}
