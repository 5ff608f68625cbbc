//! Seeded calls for comparison with another implementation: every seed is one call with all
//! its arguments and lent buffers, and `run` says what must come of it.

mod coded;
mod damage;
mod dilated;
mod readings;
mod refused;
mod settled;
mod sound;
mod tickets;

pub use coded::coded;
pub use damage::{Damage, DAMAGES};
pub use dilated::dilated;
pub use readings::readings;
pub use refused::{accepted, damaged, Damaged};
pub use settled::{settled, shortened_at_a_cut, Settled};
pub use sound::{cut_or_n, element, element_of, image, image_of, labels, labels_of, mask, side};
pub use sound::{output, output_of, OutputKind, OUTPUT_KINDS};
pub use sound::{ImageKind, LabelsKind, IMAGE_KINDS, LABELS_KINDS};
pub use tickets::{ticket, ticket_of, ticket_of_image, ticket_of_labels};
pub use tickets::{TicketKind, TICKET_KINDS};

use crate::element::ORIGIN;
use crate::frame::{Frame, Set};
use crate::rng::Rng;
use crate::{code, skeleton, Answer, Mark, PLANES, READER_PLANES, SQUARE};
use damage::damage;

/// A call: the numbers, what is read, what is written, the work.
#[derive(Clone, Debug, PartialEq)]
pub enum Call {
    Erode {
        w: u32,
        h: u32,
        element: u32,
        n: u32,
        image: Vec<u8>,
        out: Vec<u8>,
        work: Vec<u8>,
    },
    Open {
        w: u32,
        h: u32,
        element: u32,
        n: u32,
        image: Vec<u8>,
        out: Vec<u8>,
        work: Vec<u8>,
    },
    Decompose {
        w: u32,
        h: u32,
        element: u32,
        image: Vec<u8>,
        labels: Vec<u8>,
        work: Vec<u8>,
    },
    Reconstruct {
        w: u32,
        h: u32,
        element: u32,
        cut: u32,
        labels: Vec<u8>,
        image: Vec<u8>,
        work: Vec<u8>,
    },
    Minimise {
        w: u32,
        h: u32,
        element: u32,
        labels: Vec<u8>,
        work: Vec<u8>,
        counters: Vec<u16>,
    },
    HitOrMiss {
        w: u32,
        h: u32,
        fg: u32,
        bg: u32,
        image: Vec<u8>,
        out: Vec<u8>,
    },
    Thin {
        w: u32,
        h: u32,
        image: Vec<u8>,
        work: Vec<u8>,
    },
    Encode {
        w: u32,
        h: u32,
        element: u32,
        image: Vec<u8>,
        out: Vec<u8>,
        work: Vec<u8>,
    },
    Decode {
        w: u32,
        h: u32,
        element: u32,
        mark: Mark,
        stream: Vec<u8>,
        image: Vec<u8>,
        work: Vec<u8>,
    },
    Dilate {
        w: u32,
        h: u32,
        element: u32,
        image: Vec<u8>,
        out: Vec<u8>,
        work: Vec<u8>,
    },
}

/// The answer to a call, and the same call with every lent buffer as it is afterwards.
pub fn run(call: &Call) -> (Answer, Call) {
    let mut after = call.clone();
    #[rustfmt::skip]
    let answer = match &mut after {
        Call::Erode { w, h, element, n, image, out, work } =>
            crate::erode(*w, *h, *element, *n, image, out, work),
        Call::Open { w, h, element, n, image, out, work } =>
            crate::open(*w, *h, *element, *n, image, out, work),
        Call::Decompose { w, h, element, image, labels, work } =>
            crate::decompose(*w, *h, *element, image, labels, work),
        Call::Reconstruct { w, h, element, cut, labels, image, work } =>
            crate::reconstruct(*w, *h, *element, *cut, labels, image, work),
        Call::Minimise { w, h, element, labels, work, counters } =>
            crate::minimise(*w, *h, *element, labels, work, counters),
        Call::HitOrMiss { w, h, fg, bg, image, out } =>
            crate::hit_or_miss(*w, *h, *fg, *bg, image, out),
        Call::Thin { w, h, image, work } =>
            crate::thin(*w, *h, image, work),
        Call::Encode { w, h, element, image, out, work } =>
            crate::encode(*w, *h, *element, image, out, work),
        Call::Decode { w, h, element, mark, stream, image, work } =>
            crate::decode(*w, *h, *element, *mark, stream, image, work),
        Call::Dilate { w, h, element, image, out, work } =>
            crate::dilate(*w, *h, *element, image, out, work),
    };
    (answer, after)
}

/// The arguments of any call by their part in it; what a call does not have is empty.
pub struct Parts<'a> {
    pub w: &'a mut u32,
    pub h: &'a mut u32,
    pub element: Option<&'a mut u32>,
    pub cut_or_n: Option<&'a mut u32>,
    /// fg and bg.
    pub mask: Option<(&'a mut u32, &'a mut u32)>,
    /// The image that is read; thinning writes it as well.
    pub read: Option<&'a mut Vec<u8>>,
    /// The image that is only written.
    pub written: Option<&'a mut Vec<u8>>,
    /// The output of a code, of any length.
    pub stream: Option<&'a mut Vec<u8>>,
    /// The mark and the stream of a code that is read.
    pub ticket: Option<(&'a mut Mark, &'a mut Vec<u8>)>,
    pub labels: Option<&'a mut Vec<u8>>,
    pub work: Option<&'a mut Vec<u8>>,
    /// How many times P bytes the work has at least.
    pub planes: usize,
    pub counters: Option<&'a mut Vec<u16>>,
}

/// The operations, in the order of `Call`.
pub const OPERATIONS: [&str; 10] = [
    "erode",
    "open",
    "decompose",
    "reconstruct",
    "minimise",
    "hit_or_miss",
    "thin",
    "encode",
    "decode",
    "dilate",
];

impl Call {
    /// The place of the operation in `OPERATIONS`.
    pub fn operation(&self) -> usize {
        match self {
            Call::Erode { .. } => 0,
            Call::Open { .. } => 1,
            Call::Decompose { .. } => 2,
            Call::Reconstruct { .. } => 3,
            Call::Minimise { .. } => 4,
            Call::HitOrMiss { .. } => 5,
            Call::Thin { .. } => 6,
            Call::Encode { .. } => 7,
            Call::Decode { .. } => 8,
            Call::Dilate { .. } => 9,
        }
    }

    pub fn name(&self) -> &'static str {
        OPERATIONS[self.operation()]
    }

    pub fn parts(&mut self) -> Parts<'_> {
        let none = |w, h| Parts {
            w,
            h,
            element: None,
            cut_or_n: None,
            mask: None,
            read: None,
            written: None,
            stream: None,
            ticket: None,
            labels: None,
            work: None,
            planes: PLANES,
            counters: None,
        };
        #[rustfmt::skip]
        let parts = match self {
            Call::Erode { w, h, element, n, image, out, work }
            | Call::Open { w, h, element, n, image, out, work } => Parts {
                element: Some(element), cut_or_n: Some(n),
                read: Some(image), written: Some(out), work: Some(work), ..none(w, h)
            },
            Call::Decompose { w, h, element, image, labels, work } => Parts {
                element: Some(element),
                read: Some(image), labels: Some(labels), work: Some(work), ..none(w, h)
            },
            Call::Reconstruct { w, h, element, cut, labels, image, work } => Parts {
                element: Some(element), cut_or_n: Some(cut),
                labels: Some(labels), written: Some(image), work: Some(work), ..none(w, h)
            },
            Call::Minimise { w, h, element, labels, work, counters } => Parts {
                element: Some(element),
                labels: Some(labels), work: Some(work), counters: Some(counters), ..none(w, h)
            },
            Call::HitOrMiss { w, h, fg, bg, image, out } => Parts {
                mask: Some((fg, bg)), read: Some(image), written: Some(out), ..none(w, h)
            },
            Call::Thin { w, h, image, work } => Parts {
                read: Some(image), work: Some(work), ..none(w, h)
            },
            Call::Encode { w, h, element, image, out, work } => Parts {
                element: Some(element),
                read: Some(image), stream: Some(out), work: Some(work), ..none(w, h)
            },
            Call::Decode { w, h, element, mark, stream, image, work } => Parts {
                element: Some(element), ticket: Some((mark, stream)),
                written: Some(image), work: Some(work), planes: READER_PLANES, ..none(w, h)
            },
            Call::Dilate { w, h, element, image, out, work } => Parts {
                element: Some(element),
                read: Some(image), written: Some(out), work: Some(work), ..none(w, h)
            },
        };
        parts
    }
}

/// The call of a seed: sound, or with one or two of its arguments damaged. Labels may be wild,
/// cuts too large, outputs of a code too short and codes that are read wrong in any case. What is
/// only written, and the work, hold anything.
pub fn call(seed: u64) -> Call {
    let rng = &mut Rng::new(seed);
    let (w, h, operation) = (side(rng), side(rng), rng.below(OPERATIONS.len()));
    drawn_call(rng, operation, w, h)
}

/// The same of one operation.
pub fn call_of(operation: usize, seed: u64) -> Call {
    let rng = &mut Rng::new(seed);
    let (w, h) = (side(rng), side(rng));
    drawn_call(rng, operation, w, h)
}

fn drawn_call(rng: &mut Rng, operation: usize, w: u32, h: u32) -> Call {
    let mut call = sound_call(rng, operation, w, h);
    for _ in 0..rng.pick(&[0, 0, 0, 0, 1, 1, 2]) {
        damage(rng, &mut call);
    }
    call
}

/// A call of an operation on a frame, with lengths, padding, element and mask that are sound;
/// the output of a code has any length, and a code that is read is of any kind.
pub fn sound_call(rng: &mut Rng, operation: usize, w: u32, h: u32) -> Call {
    let element = element(rng);
    sound_call_by(rng, operation, w, h, element)
}

/// The same by an element, where the operation has one.
pub fn sound_call_by(rng: &mut Rng, operation: usize, w: u32, h: u32, element: u32) -> Call {
    let frame = Frame::new(w, h).expect("sides from 1 to 255");
    let image = image(rng, w, h);
    let labels = match operation {
        0 | 1 => skeleton::decompose(&frame.unpack(&image), element),
        3 | 4 => labels(rng, w, h, element),
        _ => rng.bytes(frame.pixels()),
    };
    let written = rng.bytes(image.len());
    let spare = rng.pick(&[0, 0, 1, 9]);
    let planes = if operation == 8 {
        READER_PLANES
    } else {
        PLANES
    };
    let work = rng.bytes(planes * image.len() + spare);
    let (n, (fg, bg)) = (cut_or_n(rng, &labels), mask(rng));
    let counters = (0..frame.pixels()).map(|_| rng.number() as u16).collect();
    let (mark, stream) = match operation {
        7 => {
            let bytes = stream_bytes(&frame.unpack(&image), element);
            (Mark::Blank, output(rng, bytes))
        }
        8 => ticket(rng, w, h, element),
        _ => (Mark::Blank, vec![]),
    };
    #[rustfmt::skip]
    let call = match operation {
        0 => Call::Erode { w, h, element, n, image, out: written, work },
        1 => Call::Open { w, h, element, n, image, out: written, work },
        2 => Call::Decompose { w, h, element, image, labels, work },
        3 => Call::Reconstruct { w, h, element, cut: n, labels, image: written, work },
        4 => Call::Minimise { w, h, element, labels, work, counters },
        5 => Call::HitOrMiss { w, h, fg, bg, image, out: written },
        6 => Call::Thin { w, h, image, work },
        7 => Call::Encode { w, h, element, image, out: stream, work },
        8 => Call::Decode { w, h, element, mark, stream, image: written, work },
        _ => Call::Dilate { w, h, element, image, out: written, work },
    };
    call
}

/// The bytes of an image's stream.
fn stream_bytes(x: &Set, element: u32) -> usize {
    code::encode(x, element).map_or(0, |code| code.stream.len())
}

/// The standard input of a seed for the program: sound, or damaged in one or two places.
pub fn input(seed: u64) -> Vec<u8> {
    let rng = &mut Rng::new(seed);
    let (w, h) = (side(rng), side(rng));
    let mut input = vec![w as u8, h as u8];
    input.extend(element(rng).to_le_bytes());
    input.extend(image(rng, w, h));
    for _ in 0..rng.pick(&[0, 0, 1, 2]) {
        let whole = input.len() > 6;
        match rng.below(7) {
            0 => input.truncate(rng.below(6)),
            1 => drop(input.pop()),
            2 => input.push(b'\n'),
            3 => input.extend(rng.bytes(3)),
            4 if whole => input[rng.below(2)] = 0,
            5 if whole => {
                let element = rng.pick(&[0, ORIGIN, SQUARE | 1 << 25, SQUARE & !ORIGIN]);
                input[2..6].copy_from_slice(&u32::to_le_bytes(element));
            }
            // Most often a padding bit.
            _ => input
                .iter_mut()
                .last()
                .into_iter()
                .for_each(|byte| *byte |= 1),
        }
    }
    input
}
