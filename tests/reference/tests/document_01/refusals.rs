//! The table of refusals: each row alone, at its boundary, and every pair of rows that can
//! occur in one call. Row 8 is that of 02, and so are 9 to 11.

use crate::{calls, plain};
use reference::cases::{accepted, call, damaged, run, Call, Damaged, DAMAGES};
use reference::drawn::{full, image, labels};
use reference::rng::Rng;
use reference::Answer::*;
use reference::{RIGHT, SQUARE};
use std::collections::BTreeSet;

/// The call is refused with this number, and no lent byte changes; but rows 8 to 11 clear work.
fn assert_refused(call: &Call, row: u8) {
    let (answer, after) = run(call);
    assert_eq!(answer, Refused(row), "{call:?}");
    let rows = vec![row];
    let call = call.clone();
    assert_eq!(after, Damaged { call, rows }.after());
}

/// Each row alone, each two rows and all rows of each operation: the lowest is answered.
#[test]
fn the_lowest_row_is_answered() {
    let mut tried = BTreeSet::new();
    for damaged in damaged() {
        assert_refused(&damaged.call, damaged.row());
        tried.insert((damaged.call.name(), damaged.rows));
    }
    let mut expected = BTreeSet::new();
    for (call, rows) in accepted() {
        assert!(!matches!(run(&call).0, Refused(_)), "{call:?}");
        for low in &rows {
            expected.insert((call.name(), vec![*low]));
            let higher = rows.iter().filter(|high| *high > low);
            expected.extend(higher.map(|high| (call.name(), vec![*low, *high])));
        }
        expected.insert((call.name(), rows));
    }
    assert_eq!(tried, expected, "the rows that can refuse each operation");
}

#[test]
fn a_damage_that_a_call_cannot_have_changes_nothing() {
    for (call, _) in accepted() {
        for (_, edit) in DAMAGES {
            let mut same = call.clone();
            assert!(edit(&mut same.parts()) || same == call);
        }
    }
}

/// The row of the table that refuses a call, or 0: the table read once more, row 5 as a test
/// of boxes. What the table lets pass of codes that are read is for the tests of 02.
fn row_of(call: &Call) -> u8 {
    let mut call = call.clone();
    let p = call.parts();
    let (w, h) = (*p.w as usize, *p.h as usize);
    if w == 0 || h == 0 || w > 255 || h > 255 {
        return 1;
    }
    let element = p.element.map_or(SQUARE, |element| *element);
    let b = plain::element(element);
    if element >= 1 << 25 || !b.contains(&(0, 0)) || b.len() < 2 {
        return 2;
    }
    let bytes = h * w.div_ceil(8);
    let images = [&p.read, &p.written];
    if images
        .into_iter()
        .flatten()
        .any(|image| image.len() != bytes)
        || p.labels
            .as_ref()
            .is_some_and(|labels| labels.len() != w * h)
        || p.work.is_some_and(|work| match p.ticket {
            Some(_) => work.len() < 5 * bytes,
            None => work.len() < 3 * bytes,
        })
        || p.counters.is_some_and(|counters| counters.len() != w * h)
    {
        return 3;
    }
    if let Some(image) = &p.read {
        let mask = 0xFFu16 >> ((w + 7) % 8 + 1);
        let mut rows = image.chunks(w.div_ceil(8));
        if rows.any(|row| row[row.len() - 1] as u16 & mask != 0) {
            return 4;
        }
    } else if let Some(labels) = &p.labels {
        let reach = |pick: fn(&(i32, i32)) -> i32| {
            let offsets = b.iter().map(pick);
            (offsets.clone().min().unwrap(), offsets.max().unwrap())
        };
        let ((left, right), (top, bottom)) = (reach(|b| b.0), reach(|b| b.1));
        let inside = |((x, y), n): ((i32, i32), usize)| {
            let n = n as i32;
            x + n * left >= 0
                && x + n * right < w as i32
                && y + n * top >= 0
                && y + n * bottom < h as i32
        };
        let points = plain::points(w as u32, h as u32, labels);
        if !points.into_iter().all(inside) {
            return 5;
        }
    }
    if let Some((fg, bg)) = p.mask {
        if *fg > 511 || *bg > 511 || *fg & 16 == 0 || *fg & *bg != 0 {
            return 6;
        }
    }
    if p.cut_or_n.is_some_and(|n| *n > 255) {
        return 7;
    }
    // Only a code has an output of any length; where it is long enough, its bytes are answered.
    if let (Some(image), Some(stream)) = (p.read, p.stream) {
        let (mut out, mut work) = (vec![0; 65_536], vec![0; 3 * bytes]);
        let whole = reference::encode(w as u32, h as u32, element, image, &mut out, &mut work);
        if matches!(whole, Coded { bytes, .. } if bytes as usize > stream.len()) {
            return 8;
        }
    }
    0
}

/// Whether a call is refused where the table says so, and only there. A code that is read may be
/// wrong by rows 9 to 11 of 02.
fn assert_row(call: &Call) -> u8 {
    let row = row_of(call);
    match (row, run(call).0) {
        (0, Refused(9..=11)) => assert!(matches!(call, Call::Decode { .. }), "{call:?}"),
        (0, answer) => assert!(!matches!(answer, Refused(_)), "{call:?}"),
        _ => assert_refused(call, row),
    }
    row
}

/// "Given exactly when": generated calls are refused where the table says so, and only there.
#[test]
fn exactly_when_the_table_says_so() {
    for seed in 100_000..115_000 {
        assert_row(&call(seed));
    }
}

/// No numbers and no lengths make an operation fail in another way than by a refusal.
#[test]
fn any_numbers_and_any_lengths() {
    let rng = &mut Rng::new(9);
    let number = |rng: &mut Rng| {
        let any = rng.number() as u32 >> rng.below(32);
        rng.pick(&[0, 1, 2, 8, 9, 255, 256, SQUARE, 16, u32::MAX, any])
    };
    let (sound, mut successes) = (accepted(), 0);
    for _ in 0..60_000 {
        let (mut call, _) = rng.pick(&sound);
        let p = call.parts();
        let numbers = [p.w, p.h].into_iter().chain(p.element).chain(p.cut_or_n);
        for argument in numbers.chain(p.mask.into_iter().flat_map(|(fg, bg)| [fg, bg])) {
            if rng.one_in(3) {
                *argument = number(rng);
            }
        }
        let read = p.ticket.map(|(_, stream)| stream);
        let buffers = [p.read, p.written, p.stream, read, p.labels, p.work];
        for buffer in buffers.into_iter().flatten() {
            if rng.one_in(8) {
                let len = rng.below(40);
                *buffer = rng.bytes(len);
            }
        }
        if let Some(counters) = p.counters.filter(|_| rng.one_in(8)) {
            counters.resize(rng.below(40), 7);
        }
        successes += (assert_row(&call) == 0) as u32;
    }
    assert!(successes > 5000);
}

#[test]
fn row_1_sides() {
    for side in [0, 256, 257, 511, 512, 65536, 65537, 1 << 31, u32::MAX] {
        for (call, _) in accepted() {
            for (w, h) in [(side, 3), (3, side), (side, side)] {
                let mut call = call.clone();
                (*call.parts().w, *call.parts().h) = (w, h);
                assert_refused(&call, 1);
            }
        }
        // Answered before any length is computed.
        assert_eq!(reference::thin(side, side, &mut [], &mut []), Refused(1));
        assert_eq!(
            reference::hit_or_miss(side, 1, 0, 0, &[], &mut []),
            Refused(1)
        );
    }
    for (w, h) in [(1, 1), (1, 255), (255, 1), (255, 255)] {
        assert_ne!(calls::decompose(w, h, SQUARE, &full(w, h)).0, Refused(1));
        assert_ne!(calls::thin(w, h, &full(w, h)).0, Refused(1));
    }
}

#[test]
fn row_2_element() {
    let refused = |element| calls::decompose(3, 3, element, &full(3, 3)).0 == Refused(2);
    assert!(refused(0) && refused(4096) && refused(u32::MAX));
    for bit in 0..32 {
        // The origin and one more point; bits 25 to 31 are no points.
        assert_eq!(refused(4096 | 1 << bit), bit == 12 || bit >= 25);
        // Two points, none of them the origin.
        assert!(bit == 12 || refused(1 << bit | 1));
        assert_eq!(refused(((1 << 25) - 1) & !(1 << bit)), bit == 12);
    }
    assert!(!refused((1 << 25) - 1));
    let rng = &mut Rng::new(7);
    for _ in 0..2000 {
        let element = (rng.number() & rng.number()) as u32 >> rng.below(32);
        let bits: Vec<u32> = (0..32).filter(|bit| element & 1 << bit != 0).collect();
        let sound = bits.contains(&12) && bits.len() >= 2 && bits.iter().all(|&bit| bit <= 24);
        assert_eq!(refused(element), !sound, "{element}");
    }
}

#[test]
fn row_3_lengths() {
    // W = 9, H = 2: P is 4, work is 12 or more, labels and counters are 18.
    let thin = |image: usize, work: usize| {
        reference::thin(9, 2, &mut vec![0; image], &mut vec![0; work]) == Refused(3)
    };
    let hit_or_miss = |image: usize, out: usize| {
        let image = vec![0; image];
        reference::hit_or_miss(9, 2, 16, 0, &image, &mut vec![0; out]) == Refused(3)
    };
    let minimise = |labels: usize, work: usize, counters: usize| {
        let (mut labels, mut work) = (vec![0; labels], vec![0; work]);
        let mut counters = vec![0; counters];
        reference::minimise(9, 2, SQUARE, &mut labels, &mut work, &mut counters) == Refused(3)
    };
    let decompose = |image: usize, labels: usize, work: usize| {
        let (image, mut labels, mut work) = (vec![0; image], vec![0; labels], vec![0; work]);
        reference::decompose(9, 2, SQUARE, &image, &mut labels, &mut work) == Refused(3)
    };
    let reconstruct = |labels: usize, image: usize, work: usize| {
        let (labels, mut image, mut work) = (vec![0; labels], vec![0; image], vec![0; work]);
        reference::reconstruct(9, 2, SQUARE, 0, &labels, &mut image, &mut work) == Refused(3)
    };
    let open = |image: usize, out: usize, work: usize| {
        let (image, mut out, mut work) = (vec![0; image], vec![0; out], vec![0; work]);
        reference::open(9, 2, SQUARE, 1, &image, &mut out, &mut work) == Refused(3)
    };
    for a in 0..40 {
        assert_eq!(thin(a, 12), a != 4);
        assert_eq!(thin(4, a), a < 12);
        assert_eq!(hit_or_miss(a, 4), a != 4);
        assert_eq!(hit_or_miss(4, a), a != 4);
        assert_eq!(minimise(a, 12, 18), a != 18);
        assert_eq!(minimise(18, a, 18), a < 12);
        assert_eq!(minimise(18, 12, a), a != 18);
        assert_eq!(decompose(a, 18, 12), a != 4);
        assert_eq!(decompose(4, a, 12), a != 18);
        assert_eq!(decompose(4, 18, a), a < 12);
        assert_eq!(reconstruct(a, 4, 12), a != 18);
        assert_eq!(reconstruct(18, a, 12), a != 4);
        assert_eq!(reconstruct(18, 4, a), a < 12);
        assert_eq!(open(a, 4, 12), a != 4);
        assert_eq!(open(4, a, 12), a != 4);
        assert_eq!(open(4, 4, a), a < 12);
    }
}

#[test]
fn row_4_padding_bits() {
    for w in 1..=24u32 {
        let stride = w.div_ceil(8) as usize;
        for row in 0..2 {
            for bit in 0..8 * stride {
                let mut image = vec![0; 2 * stride];
                image[row * stride + bit / 8] = 0x80 >> (bit % 8);
                let refused = bit as u32 >= w;
                assert_eq!(calls::thin(w, 2, &image).0 == Refused(4), refused);
                assert_eq!(calls::open(w, 2, RIGHT, 0, &image).0 == Refused(4), refused);
                assert_eq!(
                    calls::erode(w, 2, RIGHT, 0, &image).0 == Refused(4),
                    refused
                );
                assert_eq!(
                    calls::decompose(w, 2, RIGHT, &image).0 == Refused(4),
                    refused
                );
                assert_eq!(
                    calls::hit_or_miss(w, 2, 16, 0, &image).0 == Refused(4),
                    refused
                );
            }
        }
    }
}

/// An image that is only written may hold anything before.
#[test]
fn row_4_not_for_an_image_only_written() {
    let (mut written, mut work) = ([0xFF], [0xFF; 3]);
    let (w, h, read) = image("110");
    let answer = reference::reconstruct(w, h, RIGHT, 0, &[2, 0, 0], &mut written, &mut work);
    assert_eq!((answer, written), (Area(2), [0xC0]));
    written = [0xFF];
    let answer = reference::open(w, h, RIGHT, 1, &read, &mut written, &mut work);
    assert_eq!((answer, written), (Area(2), [0xC0]));
    let mut written = [0xFF; 3];
    let answer = reference::hit_or_miss(3, 3, 16, 0, &full(3, 3), &mut written);
    assert_eq!((answer, written), (Area(1), [0, 0x40, 0]));
}

#[test]
fn row_5_a_point_leaves_the_frame() {
    // RIGHT on 3 by 1: size n at x fits when x+n is 2 or less.
    for x in 0..3 {
        for size in 0..255 {
            let mut labels = [0; 3];
            labels[x] = size as u8 + 1;
            let leaves = x + size > 2;
            for cut in (0..=256).chain([u32::MAX]) {
                let wanted = match cut {
                    _ if leaves => Some(5),
                    256.. => Some(7),
                    _ => None,
                };
                let row = match calls::reconstruct(3, 1, RIGHT, cut, &labels).0 {
                    Refused(row) => Some(row),
                    _ => None,
                };
                assert_eq!(row, wanted, "size {size}, cut {cut}");
            }
            assert_eq!(
                calls::minimise(3, 1, RIGHT, &labels).0 == Refused(5),
                leaves
            );
        }
    }
}

#[test]
fn row_6_mask() {
    for fg in 0..1024u32 {
        for bg in 0..1024u32 {
            let has = |number: u32, bit: u32| number & 1 << bit != 0;
            let above = has(fg, 9) || has(bg, 9);
            let overlap = (0..9).any(|bit| has(fg, bit) && has(bg, bit));
            let refused = above || !has(fg, 4) || overlap;
            let answer = calls::hit_or_miss(1, 1, fg, bg, &[0x80]).0;
            assert_eq!(answer == Refused(6), refused, "{fg} {bg}");
        }
    }
    for bit in 9..32 {
        assert_eq!(
            calls::hit_or_miss(1, 1, 16 | 1 << bit, 0, &[0]).0,
            Refused(6)
        );
        assert_eq!(calls::hit_or_miss(1, 1, 16, 1 << bit, &[0]).0, Refused(6));
    }
}

#[test]
fn row_7_cut_or_n() {
    let (w, h, image) = image("1101");
    for n in [
        0,
        1,
        2,
        254,
        255,
        256,
        257,
        511,
        512,
        65536,
        65537,
        u32::MAX,
    ] {
        let refused = n > 255;
        assert_eq!(
            calls::erode(w, h, RIGHT, n, &image).0 == Refused(7),
            refused
        );
        assert_eq!(calls::open(w, h, RIGHT, n, &image).0 == Refused(7), refused);
        let rebuilt = calls::reconstruct(w, h, RIGHT, n, &labels("2001"));
        assert_eq!(rebuilt.0 == Refused(7), refused);
    }
}
