//! The cases A to M of 01, J and K as T-04 has them and L as T-05 has it, sentence by sentence:
//! expected values are the documents'. And one chain of calls beside them.

use super::Call;
use crate::drawn::{full, image, labels};
use crate::Answer::{self, *};
use crate::{LEFT, PLUS, RIGHT, ROUND, SQUARE};

/// A call of a case, its answer, and the call with every lent buffer as it is left.
pub struct Settled {
    pub case: char,
    pub call: Call,
    pub answer: Answer,
    pub after: Call,
}

/// All calls of the cases, in their order.
#[rustfmt::skip]
pub fn settled() -> Vec<Settled> {
    let three = "111/111/111";
    // The same block in the middle of a blank sheet.
    let (middle, blank) = ("00000/01110/01110/01110/00000", "00000/00000/00000/00000/00000");
    let (mask_1, mask_2) = ((464, 7), (152, 38));
    let mut settled = vec![
        decompose('A', three, SQUARE, skeleton(1, 1), "000/020/000"),
        decompose('B', "11111/11111/11111", SQUARE, skeleton(3, 1), "00000/02220/00000"),
        minimise('B', "00000/02220/00000", SQUARE, Minimal(2), "00000/02020/00000"),
        decompose('C', "11111/11111/11111/11111/11111", SQUARE, skeleton(1, 2), "00000/00000/00300/00000/00000"),
        decompose('D', "1", SQUARE, skeleton(1, 0), "1"),
    ];
    for element in [SQUARE, PLUS, ROUND, RIGHT, LEFT] {
        settled.push(decompose('E', "000/000", element, Blank, "000/000"));
    }
    let only: Vec<u8> = std::iter::once(255).chain([0; 254]).collect();
    settled.push(case('F', decomposed(255, 1, RIGHT, full(255, 1)), skeleton(1, 254), &only));
    settled.extend([
        decompose('G', "1101", RIGHT, skeleton(2, 1), "2001"),
        reconstruct('G', "2001", RIGHT, 0, Area(3), "1101"),
        reconstruct('G', "2001", RIGHT, 1, Area(2), "1100"),
        reconstruct('G', "2001", RIGHT, 2, Area(0), "0000"),
        reconstruct('G', "2001", RIGHT, 255, Area(0), "0000"),
        reconstruct('G', "2001", RIGHT, 256, Refused(7), ""),
        decompose('H', "1101", LEFT, skeleton(2, 1), "0201"),
        case('I', decomposed(4, 3, SQUARE, vec![0xE0, 0xF0, 0xE0]), skeleton(2, 1), &labels("0000/0201/0000")),
        reconstruct('I', "0000/0201/0000", SQUARE, 1, Area(9), "1110/1110/1110"),
        hit_or_miss('J', three, mask_1, Area(0), "000/000/000"),
        hit_or_miss('J', three, mask_2, Area(0), "000/000/000"),
        hit_or_miss('J', middle, mask_1, Area(1), "00000/00100/00000/00000/00000"),
        hit_or_miss('J', middle, mask_2, Area(1), "00000/00010/00000/00000/00000"),
        // The step of 1 leaves this; the step of 2 after it takes nothing.
        hit_or_miss('J', "00000/01010/01110/01110/00000", mask_2, Area(0), blank),
        thin('K', three, Thinned { passes: 1, removed: 0, area: 9 }, three),
        thin('K', middle, Thinned { passes: 3, removed: 4, area: 5 }, "00000/01010/01100/01000/00000"),
        reconstruct('L', "2", SQUARE, 0, Refused(5), ""),
        reconstruct('L', "2", SQUARE, 1, Refused(5), ""),
        reconstruct('L', "2", SQUARE, 2, Refused(5), ""),
        // 256 by 1 would take 32 bytes.
        case('M', decomposed(256, 1, 0, vec![0; 32]), Refused(1), &[]),
        case('M', eroded(256, 1, 0, vec![0; 32]), Refused(1), &[]),
        case('M', decomposed(3, 1, SQUARE, vec![0xE1]), Refused(4), &[]),
        case('M', thinned(3, 1, vec![0xE1]), Refused(4), &[]),
        case('M', decomposed(3, 1, 4096, vec![0xE0]), Refused(2), &[]),
        minimise('M', "000", 4096, Refused(2), ""),
    ]);
    settled
}

/// Not of 01: labels that are shortened, at a cut. At cut 2 the labels of an image give its
/// opening by 2B. Shortened they give a point less: of those of size 2 one is dropped, which
/// one of size 1 helps to cover. At cut 0 both give the image.
#[rustfmt::skip]
pub fn shortened_at_a_cut() -> Vec<Settled> {
    // (-1,-1), (-1,0), the origin and (1,0).
    let element = 14400;
    let whole = "001100000000/001111000000/001111100000/000111111000/000000001110";
    let opened = "001000000000/001110000000/001111100000/000111111000/000000000000";
    let a_point_less = "001000000000/001110000000/001111100000/000111110000/000000000000";
    let full = "000000000000/000020000000/000030000000/000003300000/000000000200";
    let short = "000000000000/000020000000/000030000000/000003000000/000000000200";
    vec![
        decompose('-', whole, element, skeleton(5, 2), full),
        minimise('-', full, element, Minimal(4), short),
        reconstruct('-', full, element, 0, Area(20), whole),
        reconstruct('-', short, element, 0, Area(20), whole),
        open('-', whole, element, 2, Area(15), opened),
        reconstruct('-', full, element, 2, Area(15), opened),
        reconstruct('-', short, element, 2, Area(14), a_point_less),
    ]
}

/// A call that writes these bytes, where it is not refused.
pub fn case(case: char, call: Call, answer: Answer, bytes: &[u8]) -> Settled {
    let mut after = call.clone();
    if !matches!(answer, Refused(_)) {
        let p = after.parts();
        let cleared = 3 * plane(*p.w, *p.h);
        p.work.into_iter().for_each(|work| work[..cleared].fill(0));
        p.counters.into_iter().for_each(|counters| counters.fill(0));
        let written = p.written.or(p.labels).or(p.read);
        *written.expect("every call writes") = bytes.to_vec();
    }
    Settled {
        case,
        call,
        answer,
        after,
    }
}

fn skeleton(points: u32, max_size: u32) -> Answer {
    Skeleton { points, max_size }
}

/// P of 01.
fn plane(w: u32, h: u32) -> usize {
    (w.div_ceil(8) * h) as usize
}

/// A lent buffer that holds anything.
fn lent(len: usize) -> Vec<u8> {
    vec![0xA5; len]
}

/// Work with one byte more than 3P.
pub fn work(w: u32, h: u32) -> Vec<u8> {
    lent(3 * plane(w, h) + 1)
}

fn decomposed(w: u32, h: u32, element: u32, image: Vec<u8>) -> Call {
    Call::Decompose {
        w,
        h,
        element,
        image,
        labels: lent((w * h) as usize),
        work: work(w, h),
    }
}

fn eroded(w: u32, h: u32, element: u32, image: Vec<u8>) -> Call {
    Call::Erode {
        w,
        h,
        element,
        n: 1,
        out: lent(image.len()),
        image,
        work: work(w, h),
    }
}

fn thinned(w: u32, h: u32, image: Vec<u8>) -> Call {
    let work = work(w, h);
    Call::Thin { w, h, image, work }
}

fn open(name: char, drawn: &str, element: u32, n: u32, answer: Answer, written: &str) -> Settled {
    let (w, h, bytes) = image(drawn);
    let call = Call::Open {
        w,
        h,
        element,
        n,
        out: lent(bytes.len()),
        image: bytes,
        work: work(w, h),
    };
    case(name, call, answer, &image(written).2)
}

fn decompose(name: char, drawn: &str, element: u32, answer: Answer, written: &str) -> Settled {
    let (w, h, image) = image(drawn);
    let call = decomposed(w, h, element, image);
    case(name, call, answer, &labels(written))
}

fn reconstruct(
    name: char,
    drawn: &str,
    element: u32,
    cut: u32,
    answer: Answer,
    written: &str,
) -> Settled {
    let (w, h) = sides(drawn);
    let call = Call::Reconstruct {
        w,
        h,
        element,
        cut,
        labels: labels(drawn),
        image: lent(plane(w, h)),
        work: work(w, h),
    };
    case(name, call, answer, &image(written).2)
}

fn minimise(name: char, drawn: &str, element: u32, answer: Answer, written: &str) -> Settled {
    let (w, h) = sides(drawn);
    let call = Call::Minimise {
        w,
        h,
        element,
        labels: labels(drawn),
        work: work(w, h),
        counters: vec![0xA5A5; (w * h) as usize],
    };
    case(name, call, answer, &labels(written))
}

fn hit_or_miss(
    name: char,
    drawn: &str,
    (fg, bg): (u32, u32),
    answer: Answer,
    written: &str,
) -> Settled {
    let (w, h, bytes) = image(drawn);
    let call = Call::HitOrMiss {
        w,
        h,
        fg,
        bg,
        out: lent(bytes.len()),
        image: bytes,
    };
    case(name, call, answer, &image(written).2)
}

fn thin(name: char, drawn: &str, answer: Answer, written: &str) -> Settled {
    let (w, h, bytes) = image(drawn);
    case(name, thinned(w, h, bytes), answer, &image(written).2)
}

/// The sides of drawn labels.
fn sides(drawn: &str) -> (u32, u32) {
    let rows: Vec<&str> = drawn.split('/').collect();
    (rows[0].len() as u32, rows.len() as u32)
}
