//! What `replay` reads and writes. Numbers stand lowest byte first.
//!
//! A call: a byte for the operation, w, h, a, b, the lengths of x, y, z and c, then x, y, z
//! and c. x is only read; y, z and c are lent. a is the element or a mask's foreground, b is
//! n, the cut, the mask's background or the largest size beside a stream; what an operation does
//! not have is passed over. Reading a code has two numbers: one with a largest size, one with the
//! blank mark. Every other operation has one.
//!
//! A reply: a byte for the refusal, 0 if there is none, a byte for how many values the answer
//! has, three values, then y, z and c as they are after the call.

use reference::cases::{run, Call};
use reference::{Answer, Mark};
use std::io::{self, Read};

/// The operations whose number is not their place in `Call`: reading with the blank mark, and
/// dilation, which comes after it.
pub const DECODE_BLANK: u8 = 9;
pub const DILATE: u8 = 10;

/// A call of the format.
#[derive(Clone, Debug, Default, PartialEq)]
pub struct Message {
    pub operation: u8,
    /// w, h, a, b.
    pub numbers: [u32; 4],
    pub x: Vec<u8>,
    pub y: Vec<u8>,
    pub z: Vec<u8>,
    pub c: Vec<u16>,
}

impl From<&Call> for Message {
    fn from(call: &Call) -> Message {
        #[rustfmt::skip]
        let (numbers, x, y, z, c): (_, &[u8], &[u8], &[u8], &[u16]) = match call {
            Call::Erode { w, h, element, n, image, out, work }
            | Call::Open { w, h, element, n, image, out, work } =>
                ([*w, *h, *element, *n], image, out, work, &[]),
            Call::Decompose { w, h, element, image, labels, work } =>
                ([*w, *h, *element, 0], image, labels, work, &[]),
            Call::Encode { w, h, element, image, out, work } =>
                ([*w, *h, *element, 0], image, out, work, &[]),
            Call::Decode { w, h, element, mark: Mark::Largest(size), stream, image, work } =>
                ([*w, *h, *element, *size], stream, image, work, &[]),
            Call::Decode { w, h, element, mark: Mark::Blank, stream, image, work } =>
                ([*w, *h, *element, 0], stream, image, work, &[]),
            Call::Reconstruct { w, h, element, cut, labels, image, work } =>
                ([*w, *h, *element, *cut], labels, image, work, &[]),
            Call::Minimise { w, h, element, labels, work, counters } =>
                ([*w, *h, *element, 0], &[], labels, work, counters),
            Call::HitOrMiss { w, h, fg, bg, image, out } =>
                ([*w, *h, *fg, *bg], image, out, &[], &[]),
            Call::Thin { w, h, image, work } =>
                ([*w, *h, 0, 0], &[], image, work, &[]),
            Call::Dilate { w, h, element, image, out, work } =>
                ([*w, *h, *element, 0], image, out, work, &[]),
        };
        Message {
            operation: number(call),
            numbers,
            x: x.to_vec(),
            y: y.to_vec(),
            z: z.to_vec(),
            c: c.to_vec(),
        }
    }
}

/// The number of a call's operation.
fn number(call: &Call) -> u8 {
    match call {
        Call::Decode {
            mark: Mark::Blank, ..
        } => DECODE_BLANK,
        Call::Dilate { .. } => DILATE,
        _ => call.operation() as u8,
    }
}

impl Message {
    pub fn bytes(&self) -> Vec<u8> {
        let lengths = [self.x.len(), self.y.len(), self.z.len(), self.c.len()];
        let mut bytes = vec![self.operation];
        bytes.extend(self.numbers.iter().flat_map(|n| n.to_le_bytes()));
        bytes.extend(lengths.iter().flat_map(|&n| (n as u32).to_le_bytes()));
        for buffer in [&self.x, &self.y, &self.z] {
            bytes.extend(buffer);
        }
        bytes.extend(self.c.iter().flat_map(|count| count.to_le_bytes()));
        bytes
    }
}

/// A reply of the format.
#[derive(Clone, Debug, Default, PartialEq)]
pub struct Reply {
    /// The refusal, 0 if there is none.
    pub row: u8,
    /// How many values the answer has.
    pub count: u8,
    pub values: [u32; 3],
    pub y: Vec<u8>,
    pub z: Vec<u8>,
    pub c: Vec<u16>,
}

impl Reply {
    /// What the second program replies to a call.
    pub fn expected(call: &Call) -> Reply {
        let (answer, after) = run(call);
        Reply::new(&answer, &after)
    }

    /// An answer, and the call with every lent buffer as it is afterwards.
    pub fn new(answer: &Answer, after: &Call) -> Reply {
        let (row, count, values) = match *answer {
            Answer::Refused(row) => (row, 0, [0; 3]),
            Answer::Area(area) => (0, 1, [area, 0, 0]),
            Answer::Blank => (0, 1, [0; 3]),
            Answer::Skeleton { points, max_size } => (0, 2, [points, max_size, 0]),
            Answer::Minimal(points) => (0, 1, [points, 0, 0]),
            Answer::Thinned {
                passes,
                removed,
                area,
            } => (0, 3, [passes, removed, area]),
            Answer::Coded { bytes, max_size } => (0, 2, [bytes, max_size, 0]),
            Answer::Dilated { area, fell } => (0, 2, [area, fell as u32, 0]),
        };
        let Message { y, z, c, .. } = Message::from(after);
        Reply {
            row,
            count,
            values,
            y,
            z,
            c,
        }
    }

    pub fn bytes(&self) -> Vec<u8> {
        let mut bytes = vec![self.row, self.count];
        bytes.extend(self.values.iter().flat_map(|n| n.to_le_bytes()));
        bytes.extend(&self.y);
        bytes.extend(&self.z);
        bytes.extend(self.c.iter().flat_map(|count| count.to_le_bytes()));
        bytes
    }

    /// The reply to a call, whose buffers say how long it is.
    pub fn read(from: &mut impl Read, call: &Message) -> io::Result<Reply> {
        let head = take(from, 14)?;
        let value = |i: usize| u32::from_le_bytes(head[i..i + 4].try_into().expect("four bytes"));
        let (y, z) = (take(from, call.y.len())?, take(from, call.z.len())?);
        let c = take(from, 2 * call.c.len())?;
        let counters = c.chunks_exact(2).map(|c| u16::from_le_bytes([c[0], c[1]]));
        Ok(Reply {
            row: head[0],
            count: head[1],
            values: [value(2), value(6), value(10)],
            y,
            z,
            c: counters.collect(),
        })
    }

    /// How this reply differs from the one that is wanted.
    pub fn difference(&self, wanted: &Reply) -> Option<String> {
        fn first<T: PartialEq + std::fmt::Debug>(a: &[T], b: &[T]) -> Option<String> {
            let at = a.iter().zip(b).position(|(a, b)| a != b);
            let at = at.or((a.len() != b.len()).then_some(a.len().min(b.len())))?;
            Some(format!("{at}: {:?} in place of {:?}", a.get(at), b.get(at)))
        }
        let answer = |r: &Reply| (r.row, r.count, r.values);
        if answer(self) != answer(wanted) {
            let (found, wanted) = (answer(self), answer(wanted));
            return Some(format!(
                "refusal, count and values {found:?} in place of {wanted:?}"
            ));
        }
        let y = first(&self.y, &wanted.y).map(|at| format!("y at {at}"));
        let z = || first(&self.z, &wanted.z).map(|at| format!("z at {at}"));
        let c = || first(&self.c, &wanted.c).map(|at| format!("c at {at}"));
        y.or_else(z).or_else(c)
    }
}

fn take(from: &mut impl Read, len: usize) -> io::Result<Vec<u8>> {
    let mut bytes = vec![0; len];
    from.read_exact(&mut bytes)?;
    Ok(bytes)
}

/// A call in a line: the operation and its numbers, and a stream that is read as far as a line
/// has room.
pub fn describe(call: &Call) -> String {
    let [w, h, a, b] = Message::from(call).numbers;
    let numbers = format!("{} with w {w}, h {h}, a {a}", call.name());
    let Call::Decode { mark, stream, .. } = call else {
        return format!("{numbers}, b {b}");
    };
    let bytes = &stream[..stream.len().min(64)];
    let more = if bytes.len() < stream.len() { ".." } else { "" };
    format!(
        "{numbers}, {mark:?}, {} bytes {bytes:02x?}{more}",
        stream.len()
    )
}

#[cfg(test)]
mod tests {
    use super::*;
    use reference::cases::{accepted, call};
    use std::collections::BTreeSet;

    #[test]
    fn a_call_byte_by_byte() {
        let call = Call::Minimise {
            w: 1,
            h: 2,
            element: 0x04030201,
            labels: vec![7, 8],
            work: vec![9; 3],
            counters: vec![0x0102, 0xff00],
        };
        #[rustfmt::skip]
        let bytes = [
            4,
            1, 0, 0, 0, 2, 0, 0, 0, 1, 2, 3, 4, 0, 0, 0, 0,
            0, 0, 0, 0, 2, 0, 0, 0, 3, 0, 0, 0, 2, 0, 0, 0,
            7, 8, 9, 9, 9, 2, 1, 0, 0xff,
        ];
        assert_eq!(Message::from(&call).bytes(), bytes);
    }

    #[test]
    fn a_reply_byte_by_byte() {
        let after = Call::Thin {
            w: 3,
            h: 1,
            image: vec![0xa0],
            work: vec![0, 0, 0, 5],
        };
        let answer = Answer::Thinned {
            passes: 2,
            removed: 1,
            area: 0x0102,
        };
        #[rustfmt::skip]
        let bytes = [0, 3, 2, 0, 0, 0, 1, 0, 0, 0, 2, 1, 0, 0, 0xa0, 0, 0, 0, 5];
        assert_eq!(Reply::new(&answer, &after).bytes(), bytes);
        let refused = Reply::new(&Answer::Refused(4), &after);
        assert_eq!(
            refused.bytes()[..14],
            [4, 0, 0, 0, 0, 0, 0, 0, 0, 0, 0, 0, 0, 0]
        );
    }

    #[test]
    fn a_code_that_is_read_byte_by_byte() {
        let call = |mark| Call::Decode {
            w: 4,
            h: 1,
            element: 0x04030201,
            mark,
            stream: vec![0x42, 0],
            image: vec![7],
            work: vec![9; 5],
        };
        #[rustfmt::skip]
        let bytes = [
            8,
            4, 0, 0, 0, 1, 0, 0, 0, 1, 2, 3, 4, 0xfe, 1, 0, 0x80,
            2, 0, 0, 0, 1, 0, 0, 0, 5, 0, 0, 0, 0, 0, 0, 0,
            0x42, 0, 7, 9, 9, 9, 9, 9,
        ];
        let largest = call(Mark::Largest(0x8000_01fe));
        assert_eq!(Message::from(&largest).bytes(), bytes);
        let blank = Message::from(&call(Mark::Blank)).bytes();
        assert_eq!((blank[0], &blank[13..17]), (9, &[0; 4][..]));
        assert_eq!((&blank[1..13], &blank[17..]), (&bytes[1..13], &bytes[17..]));
        let reply = Reply::new(&Answer::Area(3), &largest);
        let answer = [0, 1, 3, 0, 0, 0, 0, 0, 0, 0, 0, 0, 0, 0];
        assert_eq!(reply.bytes(), [&answer[..], &[7, 9, 9, 9, 9, 9]].concat());
    }

    #[test]
    fn a_dilation_byte_by_byte() {
        let call = Call::Dilate {
            w: 4,
            h: 1,
            element: 0x04030201,
            image: vec![0x70],
            out: vec![8],
            work: vec![9; 3],
        };
        #[rustfmt::skip]
        let bytes = [
            10,
            4, 0, 0, 0, 1, 0, 0, 0, 1, 2, 3, 4, 0, 0, 0, 0,
            1, 0, 0, 0, 1, 0, 0, 0, 3, 0, 0, 0, 0, 0, 0, 0,
            0x70, 8, 9, 9, 9,
        ];
        assert_eq!(Message::from(&call).bytes(), bytes);
        for (fell, second) in [(false, 0), (true, 1)] {
            let reply = Reply::new(&Answer::Dilated { area: 3, fell }, &call);
            let answer = [0, 2, 3, 0, 0, 0, second, 0, 0, 0, 0, 0, 0, 0];
            assert_eq!(reply.bytes(), [&answer[..], &[8, 9, 9, 9]].concat());
        }
    }

    /// Every operation has its number, and reading two: 0 to 10.
    #[test]
    fn the_numbers_of_the_operations() {
        let calls = accepted();
        let numbers: BTreeSet<u8> = calls.iter().map(|(call, _)| number(call)).collect();
        assert_eq!(numbers, (0..=10).collect());
    }

    /// A line names what a call is: the mark and the stream too.
    #[test]
    fn a_line_has_the_mark_and_the_stream() {
        let call = |mark, bytes: usize| Call::Decode {
            w: 4,
            h: 1,
            element: 12288,
            mark,
            stream: vec![0x42; bytes],
            image: vec![],
            work: vec![],
        };
        let line = "decode with w 4, h 1, a 12288, Largest(1), 2 bytes [42, 42]";
        assert_eq!(describe(&call(Mark::Largest(1), 2)), line);
        let line = "decode with w 4, h 1, a 12288, Blank, 0 bytes []";
        assert_eq!(describe(&call(Mark::Blank, 0)), line);
        let long = describe(&call(Mark::Blank, 65_536));
        assert!(long.ends_with("42].."), "{long}");
        let thin = Call::Thin {
            w: 1,
            h: 2,
            image: vec![],
            work: vec![],
        };
        assert_eq!(describe(&thin), "thin with w 1, h 2, a 0, b 0");
    }

    #[test]
    fn replies_are_read_as_they_are_written() {
        for seed in 0..500 {
            let call = call(seed);
            let (reply, message) = (Reply::expected(&call), Message::from(&call));
            let read = Reply::read(&mut &reply.bytes()[..], &message).expect("all bytes");
            assert_eq!(read, reply);
        }
    }

    /// Any one byte of a reply that is changed is a difference.
    #[test]
    fn every_byte_counts() {
        for seed in 0..200 {
            let call = call(seed);
            let (wanted, message) = (Reply::expected(&call), Message::from(&call));
            assert_eq!(wanted.difference(&wanted), None);
            let mut bytes = wanted.bytes();
            for i in (0..bytes.len()).step_by(1 + bytes.len() / 64) {
                bytes[i] ^= 1 << (i % 8);
                let read = Reply::read(&mut &bytes[..], &message).expect("all bytes");
                assert!(
                    read.difference(&wanted).is_some(),
                    "byte {i} of seed {seed}"
                );
                bytes[i] ^= 1 << (i % 8);
            }
        }
    }
}
