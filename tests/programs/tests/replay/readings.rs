//! Codes that are read, with their marks ("tickets").

mod altered;
mod chosen;
mod long;
mod runs;
mod short;

use programs::replay::Replay;
use reference::cases::{element, ticket_of_image, Call};
use reference::rng::Rng;
use reference::Answer::{self, Refused};
use reference::{Mark, LEFT, PLUS, RIGHT, ROUND, SQUARE};

const NAMED: [u32; 5] = [SQUARE, PLUS, ROUND, RIGHT, LEFT];
/// The origin and (0, 1): on one row every point has size 0.
const DOWN: u32 = 1 << 12 | 1 << 17;
/// The longest stream that `replay` takes.
const LONGEST: usize = 65_536;

/// A sheet: its sides and an element.
#[derive(Clone, Copy, Debug)]
struct Sheet {
    w: u32,
    h: u32,
    element: u32,
}

impl Sheet {
    fn new(w: u32, h: u32, element: u32) -> Sheet {
        Sheet { w, h, element }
    }

    /// Of up to so many columns and rows.
    fn small(rng: &mut Rng, columns: usize, rows: usize) -> Sheet {
        let (w, h) = (rng.between(1, columns) as u32, rng.between(1, rows) as u32);
        Sheet::new(w, h, element(rng))
    }

    fn pixels(self) -> usize {
        (self.w * self.h) as usize
    }

    fn own(self, image: &[u8]) -> (Mark, Vec<u8>) {
        ticket_of_image(self.w, self.h, self.element, image)
    }

    /// A call; image and work hold anything.
    fn call(self, rng: &mut Rng, mark: Mark, stream: Vec<u8>) -> Call {
        let (plane, spare) = ((self.w.div_ceil(8) * self.h) as usize, rng.below(3));
        Call::Decode {
            w: self.w,
            h: self.h,
            element: self.element,
            mark,
            stream,
            image: rng.bytes(plane),
            work: rng.bytes(5 * plane + spare),
        }
    }
}

/// The row of an answer, 0 if it is a success.
fn row(answer: &Answer) -> usize {
    match answer {
        Refused(row) => *row as usize,
        _ => 0,
    }
}

/// How often each row answered, 0 for a success.
type Rows = [u64; 12];

/// Makes calls and counts their rows.
fn agree(replay: &mut Replay, calls: &[(String, Call)], rows: &mut Rows) -> Vec<Answer> {
    let answers = replay.all_agree(calls);
    for answer in &answers {
        rows[row(answer)] += 1;
    }
    answers
}

/// The symbols of a size whose points have these places, and which none covers.
fn symbols(places: &[usize]) -> Vec<u8> {
    let starts = std::iter::once(0).chain(places.iter().map(|place| place + 1));
    let runs = places.iter().zip(starts).map(|(place, from)| place - from);
    let numerals: Vec<Vec<u8>> = runs.map(|run| numeral(run as u128)).collect();
    [numerals.join(&0), vec![0, 0]].concat()
}

/// The stream of size 0 alone.
fn points_of_size_0(places: &[usize]) -> Vec<u8> {
    pack(&symbols(places))
}

/// The symbols of a run: of a digit d it is d+1.
fn numeral(run: u128) -> Vec<u8> {
    let mut symbols = if run < 3 { vec![] } else { numeral(run / 3) };
    symbols.push((run % 3) as u8 + 1);
    symbols
}

fn pack(symbols: &[u8]) -> Vec<u8> {
    let byte = |four: &[u8]| (0..4).fold(0, |byte, i| byte << 2 | four.get(i).unwrap_or(&0));
    symbols.chunks(4).map(byte).collect()
}
