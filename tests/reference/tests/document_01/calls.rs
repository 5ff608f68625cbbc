//! The operations on values: each call is lent buffers of the right lengths that hold
//! anything, and gives back its answer with what it has written.

use reference::Answer;

fn plane(w: u32, h: u32) -> usize {
    (w.div_ceil(8) * h) as usize
}

fn lent(len: usize) -> Vec<u8> {
    vec![0xA5; len]
}

pub fn erode(w: u32, h: u32, element: u32, n: u32, image: &[u8]) -> (Answer, Vec<u8>) {
    let (mut out, mut work) = (lent(plane(w, h)), lent(3 * plane(w, h)));
    let answer = reference::erode(w, h, element, n, image, &mut out, &mut work);
    (answer, out)
}

pub fn open(w: u32, h: u32, element: u32, n: u32, image: &[u8]) -> (Answer, Vec<u8>) {
    let (mut out, mut work) = (lent(plane(w, h)), lent(3 * plane(w, h)));
    let answer = reference::open(w, h, element, n, image, &mut out, &mut work);
    (answer, out)
}

pub fn decompose(w: u32, h: u32, element: u32, image: &[u8]) -> (Answer, Vec<u8>) {
    let (mut labels, mut work) = (lent((w * h) as usize), lent(3 * plane(w, h)));
    let answer = reference::decompose(w, h, element, image, &mut labels, &mut work);
    (answer, labels)
}

pub fn reconstruct(w: u32, h: u32, element: u32, cut: u32, labels: &[u8]) -> (Answer, Vec<u8>) {
    let (mut image, mut work) = (lent(plane(w, h)), lent(3 * plane(w, h)));
    let answer = reference::reconstruct(w, h, element, cut, labels, &mut image, &mut work);
    (answer, image)
}

pub fn minimise(w: u32, h: u32, element: u32, labels: &[u8]) -> (Answer, Vec<u8>) {
    let (mut labels, mut work) = (labels.to_vec(), lent(3 * plane(w, h)));
    let mut counters = vec![0xA5A5; (w * h) as usize];
    let answer = reference::minimise(w, h, element, &mut labels, &mut work, &mut counters);
    (answer, labels)
}

pub fn hit_or_miss(w: u32, h: u32, fg: u32, bg: u32, image: &[u8]) -> (Answer, Vec<u8>) {
    let mut out = lent(plane(w, h));
    let answer = reference::hit_or_miss(w, h, fg, bg, image, &mut out);
    (answer, out)
}

pub fn thin(w: u32, h: u32, image: &[u8]) -> (Answer, Vec<u8>) {
    let (mut image, mut work) = (image.to_vec(), lent(3 * plane(w, h)));
    let answer = reference::thin(w, h, &mut image, &mut work);
    (answer, image)
}
