//! Codes that are read ("coded tickets", the stream and what travels beside it), of many kinds.

use super::{image, labels};
use crate::code::{encode, encode_labels, pack, section, Code};
use crate::decode::{sections, unpack, Mark};
use crate::frame::Frame;
use crate::rng::Rng;

/// The kinds of tickets.
#[derive(Clone, Copy, Debug, PartialEq, Eq, PartialOrd, Ord)]
pub enum TicketKind {
    /// That of an image.
    Own,
    /// The same with a bit changed.
    Flipped,
    /// The same without some of its last bytes.
    Truncated,
    /// The same with bytes after it.
    Extended,
    /// The same with a bit set in its padding, where it has some.
    Padded,
    /// The same with another mark.
    Marked,
    /// Of labels of any kind.
    Labels,
    /// Of any short runs.
    Runs,
    /// Any bytes and any mark.
    Any,
}

pub const TICKET_KINDS: [TicketKind; 9] = [
    TicketKind::Own,
    TicketKind::Flipped,
    TicketKind::Truncated,
    TicketKind::Extended,
    TicketKind::Padded,
    TicketKind::Marked,
    TicketKind::Labels,
    TicketKind::Runs,
    TicketKind::Any,
];

/// A ticket of any kind, those of images more often.
pub fn ticket(rng: &mut Rng, w: u32, h: u32, element: u32) -> (Mark, Vec<u8>) {
    let kind = match rng.below(16) {
        0..=4 => TicketKind::Own,
        5..=6 => TicketKind::Flipped,
        7 => TicketKind::Truncated,
        8 => TicketKind::Extended,
        9 => TicketKind::Padded,
        10 => TicketKind::Marked,
        11..=13 => TicketKind::Labels,
        14 => TicketKind::Runs,
        _ => TicketKind::Any,
    };
    ticket_of(rng, kind, w, h, element)
}

/// A ticket of this kind.
pub fn ticket_of(rng: &mut Rng, kind: TicketKind, w: u32, h: u32, element: u32) -> (Mark, Vec<u8>) {
    let mut own = || ticket_of_image(w, h, element, &image(rng, w, h));
    match kind {
        TicketKind::Own => own(),
        TicketKind::Flipped => flipped(own(), rng),
        TicketKind::Truncated => truncated(own(), rng),
        TicketKind::Extended => extended(own(), rng),
        TicketKind::Padded => {
            let (mark, mut stream) = own();
            let any = rng.between(1, 6);
            let _ = pad(mark, &mut stream, any) || pad(mark, &mut stream, 1);
            (mark, stream)
        }
        TicketKind::Marked => {
            let (mark, stream) = own();
            (other_mark(rng, mark), stream)
        }
        TicketKind::Labels => {
            let labels = labels(rng, w, h, element);
            ticket_of_labels(w, h, element, &labels)
        }
        TicketKind::Runs => runs(rng, (w * h) as usize),
        TicketKind::Any => {
            let (bytes, largest) = (rng.pick(&[1, 2, 3, 9, 40]), rng.below(5));
            let mark = rng.pick(&[Mark::Blank, Mark::Largest(0), Mark::Largest(largest as u32)]);
            (mark, rng.bytes(bytes))
        }
    }
}

/// The ticket of an image.
pub fn ticket_of_image(w: u32, h: u32, element: u32, image: &[u8]) -> (Mark, Vec<u8>) {
    let frame = Frame::new(w, h).expect("sides from 1 to 255");
    ticket_for(encode(&frame.unpack(image), element))
}

/// The ticket of labels of any kind. A point that a larger one covers is lost.
pub fn ticket_of_labels(w: u32, h: u32, element: u32, labels: &[u8]) -> (Mark, Vec<u8>) {
    let frame = Frame::new(w, h).expect("sides from 1 to 255");
    ticket_for(encode_labels(frame, element, labels))
}

/// The mark and the stream of a code; without one the mark is blank.
fn ticket_for(code: Option<Code>) -> (Mark, Vec<u8>) {
    code.map_or((Mark::Blank, vec![]), |code| {
        (Mark::Largest(code.max_size as u32), code.stream)
    })
}

fn flipped((mark, mut stream): (Mark, Vec<u8>), rng: &mut Rng) -> (Mark, Vec<u8>) {
    if !stream.is_empty() {
        let bit = rng.below(8 * stream.len());
        stream[bit / 8] ^= 0x80 >> (bit % 8);
    }
    (mark, stream)
}

fn truncated((mark, mut stream): (Mark, Vec<u8>), rng: &mut Rng) -> (Mark, Vec<u8>) {
    let any = rng.below(stream.len() + 1);
    stream.truncate(rng.pick(&[stream.len().saturating_sub(1), any]));
    (mark, stream)
}

fn extended((mark, mut stream): (Mark, Vec<u8>), rng: &mut Rng) -> (Mark, Vec<u8>) {
    let any = rng.number() as u8;
    let more = rng.between(1, 9);
    stream.push(rng.pick(&[0, 0, 1, any]));
    stream.extend(rng.pick(&[vec![], vec![], vec![0; more], vec![any; more]]));
    (mark, stream)
}

/// Sets a bit, counted from the last one, in the padding of a stream; whether it has that bit.
pub fn pad(mark: Mark, stream: &mut [u8], bit: usize) -> bool {
    let Mark::Largest(max_size) = mark else {
        return false;
    };
    let symbols = unpack(stream);
    let read = sections(&symbols, max_size as usize + 1);
    let padding = read.map_or(0, |(_, rest)| 2 * rest.len());
    let last = stream.last_mut().filter(|_| bit <= padding.min(8));
    last.map(|byte| *byte |= 1 << (bit - 1)).is_some()
}

/// Another mark: about this one, at the limit and beyond, blank, or any small one.
fn other_mark(rng: &mut Rng, mark: Mark) -> Mark {
    let of = match mark {
        Mark::Blank => 0,
        Mark::Largest(of) => of,
    };
    let any = rng.below(9) as u32;
    let sizes = [of + 1, of.saturating_sub(1), any, 254, 255, 256, u32::MAX];
    let others: Vec<Mark> = sizes
        .into_iter()
        .map(Mark::Largest)
        .chain([Mark::Blank])
        .collect();
    rng.pick(&others)
}

/// A few sizes of a few runs.
fn runs(rng: &mut Rng, pixels: usize) -> (Mark, Vec<u8>) {
    let (max_size, longest) = (rng.below(4), pixels.min(30));
    let mut size = || (0..rng.below(4)).map(|_| rng.below(longest)).collect();
    let sizes: Vec<Vec<usize>> = (0..=max_size).map(|_| size()).collect();
    let symbols: Vec<u8> = sizes.iter().flat_map(|runs| section(runs)).collect();
    (Mark::Largest(max_size as u32), pack(&symbols))
}
