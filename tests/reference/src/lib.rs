//! An independent second program for the rules of document 01, with the edge of T-04, row 5 of
//! T-05 and the dilation of T-06, and the codes of 02, written and read. It works on unpacked sets
//! of points and on distances, not on packed planes that are eroded and dilated step by step, and
//! it is the judge in comparisons: for any arguments and any lengths it says the answer and every
//! lent byte afterwards.

pub mod cases;
mod code;
mod decode;
mod dilation;
pub mod drawn;
mod element;
mod frame;
mod refusal;
pub mod rng;
mod skeleton;
mod thinning;

pub use decode::Mark;
pub use element::{LEFT, PLUS, RIGHT, ROUND, SQUARE};
pub use thinning::GOLAY_L;

use frame::{Frame, Set};
use refusal::{accept, Arguments};

/// What an operation answers.
#[derive(Clone, Debug, PartialEq)]
pub enum Answer {
    /// The number of the refusal. No lent byte has changed; but 8 leaves the first 3P bytes of
    /// work 0, and 9 to 11 the first 5P.
    Refused(u8),
    /// The foreground points of the image written.
    Area(u32),
    /// The image decomposed or encoded was blank: no points, no largest size, no stream.
    Blank,
    /// The skeleton points and their largest size.
    Skeleton { points: u32, max_size: u32 },
    /// The points left in the minimal skeleton.
    Minimal(u32),
    /// The passes made, the idle one included, the points removed and those left.
    Thinned {
        passes: u32,
        removed: u32,
        area: u32,
    },
    /// The bytes of the stream written and the largest size.
    Coded { bytes: u32, max_size: u32 },
    /// The foreground points of the dilated image written, and whether any fell off the frame.
    Dilated { area: u32, fell: bool },
}

use Answer::*;

/// Writes a set into a lent image.
fn write(frame: Frame, set: &Set, image: &mut [u8]) -> Answer {
    image.copy_from_slice(&frame.pack(set));
    Area(set.area())
}

/// How many times P bytes of work an operation needs, and leaves 0; the reader of codes needs
/// more.
const PLANES: usize = 3;
const READER_PLANES: usize = 5;

/// Leaves the work buffer as after every success and after refusals 8 to 11: 0 in so many times
/// P bytes.
fn clear(frame: Frame, planes: usize, work: &mut [u8]) {
    work[..planes * frame.plane_bytes()].fill(0);
}

/// The number of points in labels.
fn points(labels: &[u8]) -> u32 {
    labels.iter().filter(|&&label| label > 0).count() as u32
}

/// Erosion by nB.
pub fn erode(
    w: u32,
    h: u32,
    element: u32,
    n: u32,
    image: &[u8],
    out: &mut [u8],
    work: &mut [u8],
) -> Answer {
    erode_or_open(skeleton::erode, w, h, element, n, image, out, work)
}

/// Opening by nB.
pub fn open(
    w: u32,
    h: u32,
    element: u32,
    n: u32,
    image: &[u8],
    out: &mut [u8],
    work: &mut [u8],
) -> Answer {
    erode_or_open(skeleton::open, w, h, element, n, image, out, work)
}

#[allow(clippy::too_many_arguments)]
fn erode_or_open(
    operation: fn(&Set, u32, usize) -> Set,
    w: u32,
    h: u32,
    element: u32,
    n: u32,
    image: &[u8],
    out: &mut [u8],
    work: &mut [u8],
) -> Answer {
    let arguments = Arguments {
        w,
        h,
        element: Some(element),
        images: &[image.len(), out.len()],
        work: Some((work.len(), PLANES)),
        read: Some(image),
        cut_or_n: Some(n),
        ..Arguments::default()
    };
    accept(&arguments).map_or_else(Refused, |frame| {
        clear(frame, PLANES, work);
        let set = operation(&frame.unpack(image), element, n as usize);
        write(frame, &set, out)
    })
}

/// Skeleton decomposition ("taking apart").
pub fn decompose(
    w: u32,
    h: u32,
    element: u32,
    image: &[u8],
    labels: &mut [u8],
    work: &mut [u8],
) -> Answer {
    let arguments = Arguments {
        w,
        h,
        element: Some(element),
        images: &[image.len()],
        labels: Some(labels.len()),
        work: Some((work.len(), PLANES)),
        read: Some(image),
        ..Arguments::default()
    };
    accept(&arguments).map_or_else(Refused, |frame| {
        clear(frame, PLANES, work);
        labels.copy_from_slice(&skeleton::decompose(&frame.unpack(image), element));
        match labels.iter().max() {
            Some(&label) if label > 0 => Skeleton {
                points: points(labels),
                max_size: label as u32 - 1,
            },
            _ => Blank,
        }
    })
}

/// Partial reconstruction ("rebuilding at a cut"). Row 5 asks every point, whatever the cut.
pub fn reconstruct(
    w: u32,
    h: u32,
    element: u32,
    cut: u32,
    labels: &[u8],
    image: &mut [u8],
    work: &mut [u8],
) -> Answer {
    let arguments = Arguments {
        w,
        h,
        element: Some(element),
        images: &[image.len()],
        labels: Some(labels.len()),
        work: Some((work.len(), PLANES)),
        read_labels: Some(labels),
        cut_or_n: Some(cut),
        ..Arguments::default()
    };
    accept(&arguments).map_or_else(Refused, |frame| {
        clear(frame, PLANES, work);
        let set = skeleton::reconstruct(frame, element, cut, labels);
        write(frame, &set, image)
    })
}

/// The globally minimal skeleton ("shortening"), in place.
pub fn minimise(
    w: u32,
    h: u32,
    element: u32,
    labels: &mut [u8],
    work: &mut [u8],
    counters: &mut [u16],
) -> Answer {
    let arguments = Arguments {
        w,
        h,
        element: Some(element),
        labels: Some(labels.len()),
        work: Some((work.len(), PLANES)),
        counters: Some(counters.len()),
        read_labels: Some(labels),
        ..Arguments::default()
    };
    accept(&arguments).map_or_else(Refused, |frame| {
        clear(frame, PLANES, work);
        counters.fill(0);
        labels.copy_from_slice(&skeleton::minimise(frame, element, labels));
        Minimal(points(labels))
    })
}

/// Hit-or-miss by one mask; nothing within one pixel of the frame's edge is hit.
pub fn hit_or_miss(w: u32, h: u32, fg: u32, bg: u32, image: &[u8], out: &mut [u8]) -> Answer {
    let arguments = Arguments {
        w,
        h,
        images: &[image.len(), out.len()],
        read: Some(image),
        mask: Some((fg, bg)),
        ..Arguments::default()
    };
    accept(&arguments).map_or_else(Refused, |frame| {
        let hits = thinning::hit_or_miss(&frame.unpack(image), fg, bg);
        write(frame, &hits, out)
    })
}

/// Thinning by the house set until a pass removes nothing, in place.
pub fn thin(w: u32, h: u32, image: &mut [u8], work: &mut [u8]) -> Answer {
    let arguments = Arguments {
        w,
        h,
        images: &[image.len()],
        work: Some((work.len(), PLANES)),
        read: Some(image),
        ..Arguments::default()
    };
    accept(&arguments).map_or_else(Refused, |frame| {
        clear(frame, PLANES, work);
        let before = frame.unpack(image);
        let (after, passes) = thinning::thin(before.clone());
        write(frame, &after, image);
        Thinned {
            passes,
            removed: before.area() - after.area(),
            area: after.area(),
        }
    })
}

/// The code of an image ("coded ticket") into the first bytes of an output of any length. Row 8
/// applies where the stream is longer than it; a blank image has no stream.
pub fn encode(
    w: u32,
    h: u32,
    element: u32,
    image: &[u8],
    out: &mut [u8],
    work: &mut [u8],
) -> Answer {
    let arguments = Arguments {
        w,
        h,
        element: Some(element),
        images: &[image.len()],
        work: Some((work.len(), PLANES)),
        read: Some(image),
        ..Arguments::default()
    };
    accept(&arguments).map_or_else(Refused, |frame| {
        clear(frame, PLANES, work);
        let Some(code) = code::encode(&frame.unpack(image), element) else {
            return Blank;
        };
        let Some(first) = out.get_mut(..code.stream.len()) else {
            return Refused(8);
        };
        first.copy_from_slice(&code.stream);
        Coded {
            bytes: code.stream.len() as u32,
            max_size: code.max_size as u32,
        }
    })
}

/// The image of a code ("reading the coded ticket"), from its mark and its stream, which has any
/// length. Rows 9 to 11 say what is wrong with a code; they leave the image as it was.
pub fn decode(
    w: u32,
    h: u32,
    element: u32,
    mark: Mark,
    stream: &[u8],
    image: &mut [u8],
    work: &mut [u8],
) -> Answer {
    let arguments = Arguments {
        w,
        h,
        element: Some(element),
        images: &[image.len()],
        work: Some((work.len(), READER_PLANES)),
        ..Arguments::default()
    };
    accept(&arguments).map_or_else(Refused, |frame| {
        clear(frame, READER_PLANES, work);
        let read = decode::decode(frame, element, mark, stream);
        read.map_or_else(Refused, |set| write(frame, &set, image))
    })
}

/// Dilation by B once ("the inner growing step"), which says whether ink fell off the frame.
pub fn dilate(
    w: u32,
    h: u32,
    element: u32,
    image: &[u8],
    out: &mut [u8],
    work: &mut [u8],
) -> Answer {
    let arguments = Arguments {
        w,
        h,
        element: Some(element),
        images: &[image.len(), out.len()],
        work: Some((work.len(), PLANES)),
        read: Some(image),
        ..Arguments::default()
    };
    accept(&arguments).map_or_else(Refused, |frame| {
        clear(frame, PLANES, work);
        let (dilated, fell) = dilation::dilate(&frame.unpack(image), element);
        write(frame, &dilated, out);
        Dilated {
            area: dilated.area(),
            fell,
        }
    })
}

/// What the program prints for these bytes of standard input: a byte W, a byte H, the
/// element lowest byte first, then the image.
pub fn program(input: &[u8]) -> Vec<u8> {
    let refused = |row: u8| format!("refused {row}\n").into_bytes();
    let [w, h, e0, e1, e2, e3, image @ ..] = input else {
        return refused(3);
    };
    let element = u32::from_le_bytes([*e0, *e1, *e2, *e3]);
    let frame = Frame::new(*w as u32, *h as u32);
    // Without a frame the call is refused by row 1, whatever it is lent.
    let mut labels = vec![0; frame.map_or(0, Frame::pixels)];
    let mut work = vec![0; frame.map_or(0, |f| 3 * f.plane_bytes())];
    let answer = decompose(*w as u32, *h as u32, element, image, &mut labels, &mut work);
    let (points, max_size) = match answer {
        Refused(row) => return refused(row),
        Skeleton { points, max_size } => (points, max_size.to_string()),
        _ => (0, "-".to_string()),
    };
    let mut lines = vec![format!("{w} {h} {points} {max_size}\n")];
    for row in labels.chunks(*w as usize) {
        let numbers: Vec<String> = row.iter().map(u8::to_string).collect();
        lines.push(numbers.join(" ") + "\n");
    }
    lines.concat().into_bytes()
}
