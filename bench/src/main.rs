//! Times the proved functions against the baseline, side by side in one run. Words given as
//! arguments select the lines that have all of them.

mod codes;
mod compare;
mod counts;
mod growth;
#[cfg_attr(not(leptonica), path = "leptonica_absent.rs")]
mod leptonica;
mod proved;

use bench::baseline;
use bench::inputs::{images, scans, thinned, ELEMENTS, SIDE};
use compare::{compare, heading, Lent};

/// The n of erosions and openings.
const FOLDS: [u32; 4] = [1, 8, 40, 255];

fn main() {
    heading(&leptonica::note());
    for (input, image) in images() {
        for (name, element) in ELEMENTS {
            erode_and_open([input, name], element, &image);
        }
    }
    for (input, image) in images() {
        for (name, element) in ELEMENTS {
            decompose([input, name], element, &image);
        }
    }
    for (input, image) in images() {
        for (name, element) in ELEMENTS {
            reconstruct([input, name], element, &image);
        }
    }
    for (input, image) in images() {
        for (name, element) in ELEMENTS {
            minimise([input, name], element, &image);
        }
    }
    for (input, image) in thinned() {
        thin(input, &image);
    }
    for scan in scans() {
        for (name, element) in ELEMENTS {
            codes::encode(name, element, &scan);
        }
    }
    for scan in scans() {
        for (name, element) in ELEMENTS {
            codes::decode(name, element, &scan);
        }
    }
    codes::table();
    counts::table();
    growth::tables();
}

/// What most calls are lent: an image and work. Work, and what is only written, hold anything.
fn lent(image: &[u8]) -> Lent {
    Lent {
        image: image.to_vec(),
        work: vec![0xa5; 3 * image.len()],
        ..Lent::default()
    }
}

#[rustfmt::skip]
fn erode_and_open([input, name]: [&str; 2], element: u32, image: &[u8]) {
    let lent = Lent { out: vec![0xa5; image.len()], ..lent(image) };
    for n in FOLDS {
        compare(["erode", input, name, &n.to_string()], &lent, false,
            |l| baseline::erode(SIDE, SIDE, element, n, &l.image, &mut l.out, &mut l.work),
            |l| proved::erode(SIDE, SIDE, element, n, &l.image, &mut l.out, &mut l.work),
            || leptonica::erode_or_open(false, element, n, image));
    }
    for n in FOLDS {
        compare(["open", input, name, &n.to_string()], &lent, false,
            |l| baseline::open(SIDE, SIDE, element, n, &l.image, &mut l.out, &mut l.work),
            |l| proved::open(SIDE, SIDE, element, n, &l.image, &mut l.out, &mut l.work),
            || leptonica::erode_or_open(true, element, n, image));
    }
}

/// The labels of an image.
fn labels(element: u32, image: &[u8]) -> Vec<u8> {
    let mut labels = vec![0; (SIDE * SIDE) as usize];
    let mut work = vec![0; 3 * image.len()];
    let answer = baseline::decompose(SIDE, SIDE, element, image, &mut labels, &mut work);
    answer.expect("sound arguments");
    labels
}

#[rustfmt::skip]
fn decompose([input, name]: [&str; 2], element: u32, image: &[u8]) {
    let lent = Lent { labels: vec![0xa5; (SIDE * SIDE) as usize], ..lent(image) };
    compare(["decompose", input, name, ""], &lent, false,
        |l| Ok(baseline::decompose(SIDE, SIDE, element, &l.image, &mut l.labels, &mut l.work)?.points),
        |l| proved::decompose(SIDE, SIDE, element, &l.image, &mut l.labels, &mut l.work),
        || leptonica::decompose(element, image));
}

#[rustfmt::skip]
fn reconstruct([input, name]: [&str; 2], element: u32, image: &[u8]) {
    const CUTS: [u32; 3] = [0, 1, 8];
    let lent = Lent { labels: labels(element, image), image: vec![0xa5; image.len()], ..lent(image) };
    for cut in CUTS {
        compare(["reconstruct", input, name, &cut.to_string()], &lent, false,
            |l| baseline::reconstruct(SIDE, SIDE, element, cut, &l.labels, &mut l.image, &mut l.work),
            |l| proved::reconstruct(SIDE, SIDE, element, cut, &l.labels, &mut l.image, &mut l.work),
            || leptonica::reconstruct(element, cut, &lent.labels));
    }
}

#[rustfmt::skip]
fn minimise([input, name]: [&str; 2], element: u32, image: &[u8]) {
    let labels = labels(element, image);
    let lent = Lent { counters: vec![0xa5; labels.len()], labels, ..lent(image) };
    compare(["minimise", input, name, ""], &lent, true,
        |l| baseline::minimise(SIDE, SIDE, element, &mut l.labels, &mut l.work, &mut l.counters),
        |l| proved::minimise(SIDE, SIDE, element, &mut l.labels, &mut l.work, &mut l.counters),
        || None);
}

#[rustfmt::skip]
fn thin(input: &str, image: &[u8]) {
    let timed = |name: &str, other: fn(&[u8]) -> Option<compare::Other>| {
        compare([name, input, "", ""], &lent(image), true,
            |l| Ok(baseline::thin(SIDE, SIDE, &mut l.image, &mut l.work)?.passes),
            |l| proved::thin(SIDE, SIDE, &mut l.image, &mut l.work),
            || other(image));
    };
    timed("thin", leptonica::thin);
    if cfg!(leptonica) {
        timed("own thin", leptonica::own_thin);
    }
}
