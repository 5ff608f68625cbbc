//! Every lent byte after a call: generated calls of all kinds, and what they held before.

use reference::cases::{call_of, run, Call};
use reference::rng::Rng;
use reference::Answer::{Blank, Coded, Refused};

const ENCODE: usize = 7;

/// A generated call, and its buffers after it.
fn lent(seed: u64) -> (Call, [Vec<u8>; 3]) {
    let call = call_of(ENCODE, seed);
    let buffers = buffers(&call);
    (call, buffers)
}

/// image, out, work.
fn buffers(call: &Call) -> [Vec<u8>; 3] {
    let Call::Encode {
        image, out, work, ..
    } = call
    else {
        panic!("another call");
    };
    [image, out, work].map(Vec::clone)
}

/// "bytes past the stream stay unchanged. Refusal 8 leaves the output unchanged and the first
/// 3P bytes of work 0"; any other refusal leaves all as it was.
#[test]
fn every_byte_after_every_answer() {
    let (mut coded, mut blank, mut eight, mut other) = (0, 0, 0, 0);
    for seed in 0..6000 {
        let (call, [image, out, work]) = lent(seed);
        let (answer, after) = run(&call);
        let [image_after, out_after, work_after] = buffers(&after);
        assert_eq!(image_after, image, "an image that is read stays");
        assert_eq!(out_after.len(), out.len());
        let (written, cleared) = match answer {
            Coded { bytes, .. } => (bytes as usize, 3 * image.len()),
            Blank | Refused(8) => (0, 3 * image.len()),
            _ => (0, 0),
        };
        assert_eq!(out_after[written..], out[written..], "seed {seed}");
        assert!(work_after[..cleared].iter().all(|&byte| byte == 0));
        assert_eq!(work_after[cleared..], work[cleared..], "seed {seed}");
        match answer {
            Coded { .. } => coded += 1,
            Blank => blank += 1,
            Refused(8) => eight += 1,
            Refused(_) => other += 1,
            _ => panic!("{answer:?}"),
        }
    }
    let met = [coded, blank, eight, other];
    assert!(met.iter().all(|&times| times >= 300), "{met:?}");
}

/// The output and the work may hold anything before.
#[test]
fn what_buffers_held_before_never_matters() {
    let rng = &mut Rng::new(8);
    for seed in 0..3000 {
        let (first, [image, out, work]) = lent(seed);
        let mut second = first.clone();
        let parts = second.parts();
        let cleared = work.len().min(3 * image.len());
        let other_out = rng.bytes(out.len());
        parts.stream.expect("an output").clone_from(&other_out);
        parts.work.expect("work")[..cleared].fill_with(|| rng.number() as u8);
        let ((answer, after), (answer_2, after_2)) = (run(&first), run(&second));
        assert_eq!(answer, answer_2, "seed {seed}");
        let ([_, a, work], [_, b, work_2]) = (buffers(&after), buffers(&after_2));
        let written = match answer {
            Coded { bytes, .. } => bytes as usize,
            _ => 0,
        };
        assert_eq!(a[..written], b[..written], "seed {seed}");
        assert_eq!(b[written..], other_out[written..], "seed {seed}");
        if matches!(answer, Coded { .. } | Blank | Refused(8)) {
            assert_eq!(work, work_2, "seed {seed}");
        }
    }
}
