//! The stream of calls itself: pieces, ends, limits, and what an operation does not use.

use programs::format::{Message, Reply, DECODE_BLANK, DILATE};
use programs::replay::Replay;
use programs::run;
use reference::cases::{call, Call};
use reference::rng::Rng;

/// The longest x, and the longest of the other buffers.
const LONGEST: usize = 1 << 20;
const LARGEST: usize = 65_536;

/// The bytes of a seed's call and of its reply.
fn both(seed: u64) -> (Vec<u8>, Vec<u8>) {
    let call = call(seed);
    (Message::from(&call).bytes(), Reply::expected(&call).bytes())
}

/// Calls and replies of some seeds, one after the other.
fn list(seeds: std::ops::Range<u64>) -> (Vec<u8>, Vec<u8>) {
    let both: Vec<_> = seeds.map(both).collect();
    let calls = both.iter().flat_map(|(call, _)| call.clone()).collect();
    (
        calls,
        both.into_iter().flat_map(|(_, reply)| reply).collect(),
    )
}

#[test]
fn no_calls() {
    assert!(run("replay", &[], 64).is_empty());
}

#[test]
fn calls_in_small_pieces() {
    let (calls, replies) = list(0..40);
    assert!(run("replay", &calls[..], 7) == replies);
    assert!(run("replay", &calls[..], 4096) == replies);
    assert!(run("replay", &calls[..], usize::MAX) == replies);
}

/// Input that ends inside a call: the calls before it are answered, and it is not.
#[test]
fn input_that_ends_inside_a_call() {
    let (calls, replies) = list(0..3);
    let (last, _) = both(3);
    let whole = [&calls[..], &last].concat();
    for len in (0..40).chain([last.len() / 2, last.len() - 1]) {
        let cut = &whole[..calls.len() + len.min(last.len() - 1)];
        assert!(run("replay", cut, 64) == replies, "{len} bytes of a call");
    }
}

#[test]
fn input_ends_at_an_unknown_operation() {
    let (calls, replies) = list(0..3);
    let (mut unknown, _) = both(3);
    for operation in [11, 12, 128, 255] {
        unknown[0] = operation;
        let input = [&calls[..], &unknown, &calls].concat();
        assert!(run("replay", &input, 4096) == replies, "{operation}");
    }
}

#[test]
fn input_ends_at_a_length_above_the_buffers() {
    let (calls, replies) = list(0..3);
    for (length, most) in [LONGEST, LARGEST, LARGEST, LARGEST].into_iter().enumerate() {
        for long in [most as u32 + 1, most as u32 + 256, 1 << 24, u32::MAX] {
            let mut head = [0; 33];
            head[17 + 4 * length..21 + 4 * length].copy_from_slice(&long.to_le_bytes());
            let input = [&calls[..], &head, &vec![0; 1 << 21], &calls].concat();
            assert!(
                run("replay", &input, 4096) == replies,
                "length {length}: {long}"
            );
        }
    }
}

/// Buffers of 1,048,576 and 65,536 are taken, and come back as they were where the call is refused.
#[test]
fn the_largest_buffers() {
    let rng = &mut Rng::new(1);
    let mut replay = Replay::start();
    for operation in 0..=DILATE {
        let message = Message {
            operation,
            numbers: [255, 255, 473536, 0],
            x: rng.bytes(LONGEST),
            y: rng.bytes(LARGEST),
            z: rng.bytes(LARGEST),
            c: (0..LARGEST).map(|_| rng.number() as u16).collect(),
        };
        let reply = replay.call(&message);
        let wanted = Reply {
            row: 3,
            y: message.y,
            z: message.z,
            c: message.c,
            ..Reply::default()
        };
        assert!(reply == wanted, "operation {operation}");
    }
    replay.end();
}

/// Numbers that an operation does not have are passed over, and buffers that it does not use
/// come back as they came.
#[test]
fn what_an_operation_does_not_use() {
    let rng = &mut Rng::new(2);
    let (mut replay, mut blank, mut dilated) = (Replay::start(), 0, 0);
    for seed in 0..1600 {
        let call = call(seed);
        let (mut message, mut wanted) = (Message::from(&call), Reply::expected(&call));
        let long = rng.below(40);
        if matches!(call, Call::Minimise { .. } | Call::Thin { .. }) {
            message.x = rng.bytes(long);
        }
        if matches!(call, Call::HitOrMiss { .. }) {
            message.z = rng.bytes(long);
            wanted.z = message.z.clone();
        }
        if !matches!(call, Call::Minimise { .. }) {
            message.c = (0..long).map(|_| rng.number() as u16).collect();
            wanted.c = message.c.clone();
        }
        if matches!(call, Call::Thin { .. }) {
            message.numbers[2] = rng.number() as u32;
        }
        if matches!(
            call,
            Call::Decompose { .. }
                | Call::Minimise { .. }
                | Call::Thin { .. }
                | Call::Encode { .. }
                | Call::Dilate { .. }
        ) || message.operation == DECODE_BLANK
        {
            message.numbers[3] = rng.number() as u32;
            blank += (message.operation == DECODE_BLANK) as u32;
            dilated += (message.operation == DILATE) as u32;
        }
        let difference = replay.call(&message).difference(&wanted);
        assert_eq!(difference, None, "seed {seed}, {}", call.name());
    }
    assert!(blank >= 10, "{blank} blank marks");
    assert!(dilated >= 100, "{dilated} dilations");
    replay.end();
}
