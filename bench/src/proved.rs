//! The proved functions, each by its number (`library`). Each answers one number or is refused:
//! `decompose` and `minimise` answer the points, `thin` the passes, `encode` the bytes of the
//! stream, the others the area. What is decoded here has a largest size: no input is blank.

use library::call;

/// Makes a call; the first value, or the number of the refusal.
#[rustfmt::skip]
fn first(op: u8, numbers: [u32; 4], x: &[u8], y: &mut [u8], z: &mut [u8], c: &mut [u16]) -> Result<u32, u8> {
    let reply = call(op, numbers, x, y, z, c);
    match reply.refusal {
        0 => Ok(reply.first),
        refusal => Err(refusal),
    }
}

#[rustfmt::skip]
pub fn erode(w: u32, h: u32, element: u32, n: u32, image: &[u8], out: &mut [u8], work: &mut [u8]) -> Result<u32, u8> {
    first(0, [w, h, element, n], image, out, work, &mut [])
}

#[rustfmt::skip]
pub fn open(w: u32, h: u32, element: u32, n: u32, image: &[u8], out: &mut [u8], work: &mut [u8]) -> Result<u32, u8> {
    first(1, [w, h, element, n], image, out, work, &mut [])
}

#[rustfmt::skip]
pub fn decompose(w: u32, h: u32, element: u32, image: &[u8], labels: &mut [u8], work: &mut [u8]) -> Result<u32, u8> {
    first(2, [w, h, element, 0], image, labels, work, &mut [])
}

#[rustfmt::skip]
pub fn reconstruct(w: u32, h: u32, element: u32, cut: u32, labels: &[u8], image: &mut [u8], work: &mut [u8]) -> Result<u32, u8> {
    first(3, [w, h, element, cut], labels, image, work, &mut [])
}

#[rustfmt::skip]
pub fn minimise(w: u32, h: u32, element: u32, labels: &mut [u8], work: &mut [u8], counters: &mut [u16]) -> Result<u32, u8> {
    first(4, [w, h, element, 0], &[], labels, work, counters)
}

pub fn thin(w: u32, h: u32, image: &mut [u8], work: &mut [u8]) -> Result<u32, u8> {
    first(6, [w, h, 0, 0], &[], image, work, &mut [])
}

#[rustfmt::skip]
pub fn encode(w: u32, h: u32, element: u32, image: &[u8], out: &mut [u8], work: &mut [u8]) -> Result<u32, u8> {
    first(7, [w, h, element, 0], image, out, work, &mut [])
}

#[rustfmt::skip]
pub fn decode(w: u32, h: u32, element: u32, largest: u32, stream: &[u8], image: &mut [u8], work: &mut [u8]) -> Result<u32, u8> {
    first(8, [w, h, element, largest], stream, image, work, &mut [])
}
