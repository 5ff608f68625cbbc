//! Every lent byte after a call: generated calls of all kinds, and what they held before.

use reference::cases::{call, run, Call, Parts};
use reference::rng::Rng;
use reference::Answer::*;

/// P of 01, for sides that are accepted.
fn plane_bytes(p: &Parts) -> usize {
    (p.w.div_ceil(8) * *p.h) as usize
}

/// Refusals 8 to 11 of 02 clear work, and are tested there.
#[test]
fn after_a_refusal_no_lent_byte_has_changed() {
    let mut refused = 0;
    for seed in 0..8000 {
        let before = call(seed);
        if let (Refused(1..=7), after) = run(&before) {
            assert_eq!(after, before, "seed {seed}");
            refused += 1;
        }
    }
    assert!(refused > 2000);
}

#[test]
fn after_a_success_work_and_counters_are_cleared() {
    for seed in 0..8000 {
        let mut before = call(seed);
        let (answer, mut after) = run(&before);
        if matches!(answer, Refused(_)) {
            continue;
        }
        let (before, after) = (before.parts(), after.parts());
        let cleared = before.planes * plane_bytes(&before);
        if let (Some(before), Some(after)) = (before.work, after.work) {
            assert!(after[..cleared].iter().all(|&byte| byte == 0));
            assert_eq!(after[cleared..], before[cleared..], "the rest is as it was");
        }
        if let Some(counters) = after.counters {
            assert!(counters.iter().all(|&count| count == 0));
        }
    }
}

#[test]
fn after_a_success_what_is_only_read_is_unchanged() {
    for seed in 0..4000 {
        let before = call(seed);
        match (&before, &run(&before).1) {
            (Call::Erode { image: b, .. }, Call::Erode { image: a, .. })
            | (Call::Open { image: b, .. }, Call::Open { image: a, .. })
            | (Call::Decompose { image: b, .. }, Call::Decompose { image: a, .. })
            | (Call::HitOrMiss { image: b, .. }, Call::HitOrMiss { image: a, .. })
            | (Call::Encode { image: b, .. }, Call::Encode { image: a, .. })
            | (Call::Decode { stream: b, .. }, Call::Decode { stream: a, .. })
            | (Call::Dilate { image: b, .. }, Call::Dilate { image: a, .. })
            | (Call::Reconstruct { labels: b, .. }, Call::Reconstruct { labels: a, .. }) => {
                assert_eq!(a, b)
            }
            _ => {}
        }
    }
}

/// Padding bits written are 0, and the area answered is that of the image written.
#[test]
fn after_a_success_images_written_are_sound() {
    for seed in 0..8000 {
        let (answer, mut after) = run(&call(seed));
        let (Area(area) | Thinned { area, .. } | Dilated { area, .. }) = answer else {
            continue;
        };
        let p = after.parts();
        let (stride, unused) = (p.w.div_ceil(8), p.w.div_ceil(8) * 8 - *p.w);
        let image = p.written.or(p.read).unwrap();
        let last = image.chunks(stride as usize).map(|row| row[row.len() - 1]);
        assert!(last.into_iter().all(|byte| byte.trailing_zeros() >= unused));
        let ones: u32 = image.iter().map(|byte| byte.count_ones()).sum();
        assert_eq!(ones, area, "seed {seed}");
    }
}

/// What is only written, the work and the counters may hold anything before.
#[test]
fn what_buffers_held_before_never_matters() {
    let rng = &mut Rng::new(8);
    for seed in 0..4000 {
        let first = call(seed);
        let mut second = first.clone();
        let decomposes = matches!(first, Call::Decompose { .. });
        let cleared = match run(&first).0 {
            Refused(_) => 0,
            _ => {
                let p = second.parts();
                p.planes * plane_bytes(&p)
            }
        };
        let p = second.parts();
        let change = |buffer: &mut [u8], rng: &mut Rng| {
            buffer.fill_with(|| rng.number() as u8);
        };
        if let Some(out) = p.written {
            change(out, rng);
        }
        if let Some(work) = p.work {
            change(&mut work[..cleared], rng);
        }
        if let Some(counters) = p.counters {
            counters.fill_with(|| rng.number() as u16);
        }
        if let (Some(labels), true) = (p.labels, decomposes) {
            change(labels, rng);
        }
        let ((answer, after), (answer_2, after_2)) = (run(&first), run(&second));
        assert_eq!(answer, answer_2);
        if !matches!(answer, Refused(_)) {
            assert_eq!(after, after_2, "seed {seed}");
        }
    }
}
