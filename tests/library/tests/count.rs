//! T-03: the count of ones against a count bit by bit, at every number of bytes from 0 to 300, on
//! sheets of every width, and as the area that operations answer.

use library::{call, count};
use reference::{rng::Rng, SQUARE};

fn bit_by_bit(bytes: &[u8]) -> u32 {
    let mut ones = 0;
    for byte in bytes {
        for bit in 0..8 {
            if byte & (1 << bit) != 0 {
                ones += 1;
            }
        }
    }
    ones
}

/// Few ones, all ones, and what a seed gives.
fn contents(rng: &mut Rng, len: usize) -> [Vec<u8>; 3] {
    let few = (0..len).map(|_| (rng.one_in(16) as u8) << rng.below(8));
    [few.collect(), vec![0xff; len], rng.bytes(len)]
}

#[test]
fn every_number_of_bytes_0_to_300() {
    let mut rng = Rng::new(3);
    for len in 0..=300 {
        for bytes in contents(&mut rng, len + 8) {
            // wherever the bytes lie, and whatever lies beside them
            for start in 0..8 {
                let part = &bytes[start..start + len];
                assert_eq!(count(part), bit_by_bit(part), "{len} bytes from {start} on");
            }
        }
    }
}

#[test]
fn each_bit_is_counted_once() {
    for len in (0..=300).chain([8160]) {
        let mut bytes = vec![0; len];
        for at in 0..8 * len {
            bytes[at / 8] = 1 << (at % 8);
            assert_eq!(count(&bytes), 1, "bit {at} of {len} bytes");
            bytes[at / 8] = 0;
        }
        assert_eq!(count(&bytes), 0, "{len} bytes");
    }
}

/// An image with clean padding, and its foreground pixel by pixel.
fn image(rng: &mut Rng, w: usize, h: usize, ink: impl Fn(&mut Rng) -> bool) -> (Vec<u8>, u32) {
    let stride = w.div_ceil(8);
    let (mut image, mut area) = (vec![0; h * stride], 0);
    for y in 0..h {
        for x in 0..w {
            if ink(rng) {
                image[y * stride + x / 8] |= 0x80 >> (x % 8);
                area += 1;
            }
        }
    }
    (image, area)
}

#[test]
fn every_width_1_to_255() {
    let mut rng = Rng::new(255);
    for w in 1..=255 {
        for h in [1, 2, 7, 32, 101, 255] {
            for one_in in [1, 2, 9] {
                let (image, area) = image(&mut rng, w, h, |rng| rng.one_in(one_in));
                let title = format!("{w} by {h}, one pixel in {one_in}");
                assert_eq!(count(&image), area, "{title}");
                areas(w as u32, h as u32, &image, area, &title);
            }
        }
    }
}

/// Erosion and opening by 0B leave the image; thinning removes what it does not leave.
fn areas(w: u32, h: u32, image: &[u8], area: u32, title: &str) {
    let mut work = vec![0xa5; 3 * image.len()];
    let mut out = vec![0; image.len()];
    for op in [0, 1] {
        out.fill(0x5a);
        let reply = call(op, [w, h, SQUARE, 0], image, &mut out, &mut work, &mut []);
        assert_eq!(
            (reply.refusal, reply.first),
            (0, area),
            "{title}: operation {op}"
        );
        assert!(out == image, "{title}: another image, operation {op}");
    }
    let reply = call(6, [w, h, 0, 0], &[], &mut out, &mut work, &mut []);
    let (removed, left) = (reply.second, reply.third);
    assert_eq!(
        (reply.refusal, removed + left),
        (0, area),
        "{title}: thinning"
    );
    assert_eq!(left, bit_by_bit(&out), "{title}: left by thinning");
}

#[test]
fn lengths_up_to_a_megabyte() {
    let mut rng = Rng::new(20);
    let about = |n: usize| n - 2..=n + 2;
    let short = (2..40).flat_map(|n| about(224 * n)).chain(about(8160));
    let long = about(1024 * 128).chain([1 << 19, (1 << 20) - 1]);
    for len in short.chain(long) {
        for bytes in contents(&mut rng, len) {
            assert_eq!(count(&bytes), bit_by_bit(&bytes), "{len} bytes");
        }
    }
    assert_eq!(count(&vec![1; 1 << 20]), 0, "more bytes than a plane has");
}
