//! Row 8 and the rows before it, at their boundaries.

use reference::cases;
use reference::drawn::full;
use reference::rng::Rng;
use reference::Answer::{self, Blank, Coded, Refused};
use reference::{RIGHT, SQUARE};

/// The answer of a call that is lent so many bytes of output and of work.
fn answer(w: u32, h: u32, element: u32, image: &[u8], out: usize, work: usize) -> Answer {
    let (mut out, mut work) = (vec![0xA5; out], vec![0xA5; work]);
    reference::encode(w, h, element, image, &mut out, &mut work)
}

/// "New refusal 8, given exactly when the bytes needed exceed the lent output": every length
/// about the stream's.
#[test]
fn row_8_exactly_when_the_stream_is_longer() {
    let rng = &mut Rng::new(3);
    let (mut coded, mut blank) = (0, 0);
    for _ in 0..600 {
        let (w, h, element) = (cases::side(rng), cases::side(rng), cases::element(rng));
        let image = cases::image(rng, w, h);
        let work = 3 * image.len();
        let whole = answer(w, h, element, &image, 65_536, work);
        let needed = match whole {
            Coded { bytes, .. } => bytes as usize,
            Blank => 0,
            _ => panic!("{whole:?}"),
        };
        let any = rng.between(0, 2 * needed);
        for out in [0, 1, needed.saturating_sub(1), needed, needed + 1, any] {
            let expected = if out < needed {
                Refused(8)
            } else {
                whole.clone()
            };
            assert_eq!(answer(w, h, element, &image, out, work), expected, "{out}");
        }
        coded += (needed > 0) as u32;
        blank += (whole == Blank) as u32;
    }
    assert!(coded > 300 && blank > 30, "{coded} {blank}");
}

/// A blank scan has no stream, so that no output is too short for it.
#[test]
fn row_8_never_for_a_blank_scan() {
    for (w, h) in [(1, 1), (3, 2), (255, 255)] {
        let image = vec![0; (u32::div_ceil(w, 8) * h) as usize];
        for out in [0, 1, 100] {
            assert_eq!(answer(w, h, SQUARE, &image, out, 3 * image.len()), Blank);
        }
    }
}

/// The image and work have their lengths; that of the output is free.
#[test]
fn row_3_lengths() {
    // W = 9, H = 2: P is 4, work is 12 or more.
    let refused = |image: usize, out: usize, work: usize| {
        answer(9, 2, SQUARE, &vec![0; image], out, work) == Refused(3)
    };
    for a in 0..40 {
        assert_eq!(refused(a, 4, 12), a != 4);
        assert_eq!(refused(4, 4, a), a < 12);
        assert!(!refused(4, a, 12), "an output of {a}");
    }
}

#[test]
fn row_4_padding_bits() {
    for w in 1..=24u32 {
        let stride = w.div_ceil(8) as usize;
        for bit in 0..16 * stride {
            let mut image = vec![0; 2 * stride];
            image[bit / 8] = 0x80 >> (bit % 8);
            let padding = bit % (8 * stride) >= w as usize;
            let answered = answer(w, 2, RIGHT, &image, 100, 6 * stride);
            assert_eq!(answered == Refused(4), padding);
        }
    }
}

/// Rows 1 to 4 come before 8, each with no output and an image that has a stream.
#[test]
fn lower_rows_come_before_8() {
    let image = full(3, 3);
    assert_eq!(answer(3, 3, SQUARE, &image, 0, 9), Refused(8));
    for side in [0, 256, u32::MAX] {
        assert_eq!(answer(side, 3, SQUARE, &image, 0, 9), Refused(1));
        assert_eq!(answer(3, side, SQUARE, &image, 0, 9), Refused(1));
    }
    for element in [0, 4096, SQUARE & !4096, SQUARE | 1 << 25] {
        assert_eq!(answer(3, 3, element, &image, 0, 9), Refused(2));
    }
    assert_eq!(answer(3, 3, SQUARE, &image[1..], 0, 9), Refused(3));
    assert_eq!(answer(3, 3, SQUARE, &image, 0, 8), Refused(3));
    assert_eq!(answer(3, 3, SQUARE, &[0xE0, 0xE0, 0xF0], 0, 9), Refused(4));
}
