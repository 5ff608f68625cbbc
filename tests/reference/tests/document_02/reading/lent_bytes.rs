//! Every lent byte after a call of the reader: generated calls of all kinds, and what buffers
//! held before.

use reference::cases::{call_of, run, Call};
use reference::rng::Rng;
use reference::Answer::{Area, Refused};
use std::collections::BTreeMap;

const DECODE: usize = 8;

/// The stream, the image and the work of a call, and P by its sides.
fn buffers(call: &Call) -> ([Vec<u8>; 3], usize) {
    let Call::Decode {
        w,
        h,
        stream,
        image,
        work,
        ..
    } = call
    else {
        panic!("another call");
    };
    let plane = w.div_ceil(8) as usize * *h as usize;
    ([stream, image, work].map(Vec::clone), plane)
}

/// "Refusals 9 to 11 leave the output unchanged, and they, like success, leave the first 5P bytes
/// of work 0 and the rest alone"; any other refusal leaves all as it was.
#[test]
fn every_byte_after_every_answer() {
    let mut met = BTreeMap::new();
    for seed in 0..8000 {
        let call = call_of(DECODE, seed);
        let (answer, after) = run(&call);
        let ([stream, image, work], plane) = buffers(&call);
        let ([stream_after, image_after, work_after], _) = buffers(&after);
        assert_eq!(stream_after, stream, "a stream that is read stays");
        let row = match answer {
            Refused(row) => row,
            Area(points) => {
                let ones = image_after.iter().map(|byte| byte.count_ones());
                assert_eq!(ones.sum::<u32>(), points, "seed {seed}");
                0
            }
            _ => panic!("{answer:?}"),
        };
        let cleared = match row {
            0 | 9..=11 => 5 * plane,
            _ => 0,
        };
        assert!(row == 0 || image_after == image, "seed {seed}");
        assert!(work_after[..cleared].iter().all(|&byte| byte == 0));
        assert_eq!(work_after[cleared..], work[cleared..], "seed {seed}");
        *met.entry(row).or_insert(0) += 1;
    }
    assert_eq!(met.len(), 7, "{met:?}");
    assert!(met.values().all(|&times| times >= 100), "{met:?}");
}

/// The image and the work may hold anything before.
#[test]
fn what_buffers_held_before_never_matters() {
    let rng = &mut Rng::new(8);
    for seed in 0..3000 {
        let first = call_of(DECODE, seed);
        let ([_, image, work], plane) = buffers(&first);
        let mut second = first.clone();
        let parts = second.parts();
        let other = rng.bytes(image.len());
        parts.written.expect("an image").clone_from(&other);
        let cleared = work.len().min(plane.saturating_mul(5));
        parts.work.expect("work")[..cleared].fill_with(|| rng.number() as u8);
        let ((answer, after), (answer_2, after_2)) = (run(&first), run(&second));
        assert_eq!(answer, answer_2, "seed {seed}");
        let ([_, a, work], [_, b, work_2]) = (buffers(&after).0, buffers(&after_2).0);
        match answer {
            Refused(_) => assert_eq!(b, other, "seed {seed}"),
            _ => assert_eq!(a, b, "seed {seed}"),
        }
        if matches!(answer, Area(_) | Refused(9..=11)) {
            assert_eq!(work, work_2, "seed {seed}");
        }
    }
}
