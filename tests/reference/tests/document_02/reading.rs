//! T-02, reading the coded ticket.

mod cases;
mod every_stream;
mod lent_bytes;
mod pairs;
mod sentences;
mod words;

use reference::{Answer, Mark};

/// P of 01.
pub fn plane(w: u32, h: u32) -> usize {
    (w.div_ceil(8) * h) as usize
}

/// The answer to a ticket, and the image, which held A5 before. Where it is refused, that is what
/// it holds.
pub fn decode(w: u32, h: u32, element: u32, mark: Mark, stream: &[u8]) -> (Answer, Vec<u8>) {
    let (mut image, mut work) = (vec![0xA5; plane(w, h)], vec![0xA5; 5 * plane(w, h)]);
    let answer = reference::decode(w, h, element, mark, stream, &mut image, &mut work);
    if matches!(answer, Answer::Refused(_)) {
        assert!(image.iter().all(|&byte| byte == 0xA5));
    }
    (answer, image)
}

/// The ticket that is written for an image.
pub fn encode(w: u32, h: u32, element: u32, image: &[u8]) -> (Mark, Vec<u8>) {
    let (mut out, mut work) = (vec![0; 65_536], vec![0; 3 * image.len()]);
    match reference::encode(w, h, element, image, &mut out, &mut work) {
        Answer::Coded { bytes, max_size } => {
            out.truncate(bytes as usize);
            (Mark::Largest(max_size), out)
        }
        Answer::Blank => (Mark::Blank, vec![]),
        other => panic!("{other:?}"),
    }
}
