//! The program of document 01 against the second program, byte by byte.

use programs::run;
use reference::cases::input;
use reference::{program, LEFT, PLUS, RIGHT, ROUND, SQUARE};

fn agrees(input: &[u8], piece: usize) {
    let (printed, wanted) = (run("skeletonize", input, piece), program(input));
    assert!(
        printed == wanted,
        "for {:02x?}: {} in place of {}",
        &input[..input.len().min(40)],
        String::from_utf8_lossy(&printed),
        String::from_utf8_lossy(&wanted)
    );
}

/// W, H, the element, and so many bytes of the image.
fn scan(w: u8, h: u8, element: u32, image: &[u8]) -> Vec<u8> {
    [&[w, h], &element.to_le_bytes()[..], image].concat()
}

#[test]
fn the_printed_example() {
    let input = [0x03, 0x03, 0xc0, 0x39, 0x07, 0x00, 0xe0, 0xe0, 0xe0];
    assert_eq!(
        run("skeletonize", &input, 64),
        b"3 3 1 1\n0 0 0\n0 2 0\n0 0 0\n"
    );
}

#[test]
fn cases_f_and_m() {
    let full = scan(255, 1, RIGHT, &[&[0xff; 31][..], &[0xfe]].concat());
    let labels: Vec<&str> = std::iter::once("255").chain([("0"); 254]).collect();
    assert_eq!(
        run("skeletonize", &full, 64),
        format!("255 1 1 254\n{}\n", labels.join(" ")).as_bytes()
    );
    assert_eq!(run("skeletonize", &scan(0, 1, 0, &[]), 64), b"refused 1\n");
    assert_eq!(
        run("skeletonize", &scan(3, 1, 4096, &[0xe0]), 64),
        b"refused 2\n"
    );
    assert_eq!(
        run("skeletonize", &scan(3, 1, SQUARE, &[0xe1]), 64),
        b"refused 4\n"
    );
}

#[test]
fn empty_short_and_long_input() {
    for length in 0..6 {
        assert_eq!(
            run("skeletonize", &vec![1; length], 64),
            b"refused 3\n",
            "{length} bytes"
        );
    }
    for extra in [1, 2, 8_000, 9_000, 1_000_000] {
        agrees(&scan(3, 3, SQUARE, &vec![0xe0; 3 + extra]), 4096);
        agrees(&scan(0, 3, SQUARE, &vec![0xe0; 3 + extra]), 4096);
        agrees(&scan(255, 255, ROUND, &vec![0; 255 * 32 + extra]), 4096);
    }
}

#[test]
fn largest_sheets() {
    for element in [SQUARE, PLUS, ROUND, RIGHT, LEFT] {
        let row = [&[0xff; 31][..], &[0xfe]].concat();
        agrees(&scan(255, 255, element, &row.repeat(255)), 4096);
        agrees(&scan(255, 255, element, &[0; 255 * 32]), 4096);
        agrees(&scan(255, 255, element, &[0xaa; 255 * 32]), 4096);
    }
}

#[test]
fn input_in_small_pieces() {
    for seed in 0..20 {
        agrees(&input(seed), 7);
    }
}

#[test]
fn seeded_inputs() {
    for seed in 0..1500 {
        agrees(&input(seed), 1 << 16);
    }
}
