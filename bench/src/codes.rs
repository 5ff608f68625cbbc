//! Codes, written and read: the proved functions beside the baseline, and beside the proved
//! decomposition of the same image by the same element.

use crate::compare::{compare, is_selected, time_all, Lent};
use crate::proved;
use bench::baseline;
use bench::inputs::{scans, Scan, ELEMENTS};

/// What a code and a decomposition are lent. The output is longer than any stream of the inputs.
fn lent(scan: &Scan) -> Lent {
    let pixels = (scan.w * scan.h) as usize;
    Lent {
        image: scan.image.clone(),
        out: vec![0xa5; pixels],
        labels: vec![0xa5; pixels],
        work: vec![0xa5; 3 * scan.image.len()],
        ..Lent::default()
    }
}

/// The line of a code. The answer is the bytes of the stream.
#[rustfmt::skip]
pub fn encode(name: &str, element: u32, scan: &Scan) {
    let (w, h) = (scan.w, scan.h);
    compare(["encode", scan.name, name, ""], &lent(scan), false,
        |l| Ok(baseline::encode(w, h, element, &l.image, &mut l.out, &mut l.work)?.bytes),
        |l| proved::encode(w, h, element, &l.image, &mut l.out, &mut l.work),
        || None);
}

/// A code, by the baseline: its stream and the largest size.
fn code(element: u32, scan: &Scan) -> (Vec<u8>, u32) {
    let mut lent = lent(scan);
    let (out, work) = (&mut lent.out, &mut lent.work);
    let coded = baseline::encode(scan.w, scan.h, element, &scan.image, out, work);
    let coded = coded.expect("sound arguments");
    let largest = coded.max_size.expect("an image with ink");
    (lent.out[..coded.bytes as usize].to_vec(), largest)
}

/// What decoding is lent: a stream in the place of the output, an image to be written, and work.
fn lent_to_decode(scan: &Scan, stream: Vec<u8>) -> Lent {
    Lent {
        image: vec![0xa5; scan.image.len()],
        out: stream,
        work: vec![0xa5; 5 * scan.image.len()],
        ..Lent::default()
    }
}

/// The line of a code that is read. The answer is the area.
#[rustfmt::skip]
pub fn decode(name: &str, element: u32, scan: &Scan) {
    let (w, h) = (scan.w, scan.h);
    let (stream, largest) = code(element, scan);
    compare(["decode", scan.name, name, ""], &lent_to_decode(scan, stream), false,
        |l| baseline::decode(w, h, element, Some(largest), &l.out, &mut l.image, &mut l.work),
        |l| proved::decode(w, h, element, largest, &l.out, &mut l.image, &mut l.work),
        || None);
}

/// The table of codes: how long a code and its reading take, proved, beside the proved
/// decomposition, in turns, and what a code takes in place of the image.
pub fn table() {
    let mut words = std::env::args().skip(1).peekable();
    if words.peek().is_some() && !words.any(|word| word == "codes") {
        return;
    }
    let heading = ["", "input", "element", "image", "stream"];
    let [operation, input, element, image, stream] = heading;
    println!(
        "\n{operation:<11} {input:<14} {element:<7} {image:>6} {stream:>6} {:>10} {:>10} {:>6} {:>10} {:>6}",
        "decompose", "encode", "ratio", "decode", "ratio"
    );
    for scan in scans() {
        for (name, element) in ELEMENTS {
            line(name, element, &scan);
        }
    }
}

#[rustfmt::skip]
fn line(name: &str, element: u32, scan: &Scan) {
    let (w, h) = (scan.w, scan.h);
    let columns = format!("{:<11} {:<14} {name:<7}", "codes", scan.name);
    if !is_selected(&columns) {
        return;
    }
    let (stream, largest) = code(element, scan);
    let encode = |l: &mut Lent| proved::encode(w, h, element, &l.image, &mut l.out, &mut l.work);
    let decode = |l: &mut Lent| proved::decode(w, h, element, largest, &l.out, &mut l.image, &mut l.work);
    let decompose = |l: &mut Lent| proved::decompose(w, h, element, &l.image, &mut l.labels, &mut l.work);
    let (image, bytes) = (scan.image.len(), stream.len());
    let (mut apart, mut coded, mut read) = (lent(scan), lent(scan), lent_to_decode(scan, stream));
    assert_eq!(encode(&mut coded), Ok(bytes as u32), "{columns}");
    decode(&mut read).expect("a stream of the baseline");
    assert!(read.image == scan.image, "{columns}: another image is read");
    let lents = [&mut apart, &mut coded, &mut read];
    let [apart, coded, read] = time_all(lents, [&decompose, &encode, &decode]);
    println!(
        "{columns} {image:>6} {bytes:>6} {apart:>10.2} {coded:>10.2} {:>6.2} {read:>10.2} {:>6.2}",
        coded / apart, read / apart
    );
}
