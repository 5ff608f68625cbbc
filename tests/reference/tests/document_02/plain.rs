//! T-01 and T-02 read word for word, on sets of points of the whole plane and on text. Slow, and
//! made to be believed.

#[path = "../document_01/plain.rs"]
#[allow(dead_code)]
mod sets;

pub use sets::{dilate, element, foreground, frame, packed, skeleton, Points};

use reference::Mark;
use std::collections::BTreeSet;
use std::str::Chars;
use Reason::*;

/// "pixels already covered by larger points, grown as far as this size (the points one size up
/// together with their own mask, grown once by B)": the mask of each size, by the points of
/// each.
pub fn masks(b: &Points, subsets: &[Points]) -> Vec<Points> {
    let mut masks = vec![Points::new(); subsets.len()];
    for n in (1..subsets.len()).rev() {
        masks[n - 1] = dilate(&(&subsets[n] | &masks[n]), b);
    }
    masks
}

/// "a run counts the other pixels since the previous point of that size or the sheet's start":
/// the runs of each size.
pub fn runs(w: u32, h: u32, b: &Points, subsets: &[Points]) -> Vec<Vec<usize>> {
    let of_size = |(points, mask): (&Points, &Points)| {
        let (mut runs, mut run) = (vec![], 0);
        for z in frame(w, h).filter(|z| !mask.contains(z)) {
            if points.contains(&z) {
                runs.push(run);
                run = 0;
            } else {
                run += 1;
            }
        }
        runs
    };
    subsets
        .iter()
        .zip(&masks(b, subsets))
        .map(of_size)
        .collect()
}

/// "A run has no leading zero digit; zero is the one digit 0": a run in base 3.
pub fn digits(mut run: usize) -> String {
    let mut digits = String::new();
    while run > 0 {
        digits.insert(0, char::from(b'0' + (run % 3) as u8));
        run /= 3;
    }
    if digits.is_empty() {
        digits.push('0');
    }
    digits
}

/// "Sizes go from the largest down to 0", "Commas part the runs; two commas end a size, empty
/// or not": all sizes as text.
pub fn text(runs: &[Vec<usize>]) -> String {
    let mut text = String::new();
    for runs in runs.iter().rev() {
        let parted: Vec<String> = runs.iter().map(|&run| digits(run)).collect();
        text += &parted.join(",");
        text += ",,";
    }
    text
}

/// "00 comma, 01 zero, 10 one, 11 two", "Bits fill bytes from the top, the last padded with 0".
pub fn bytes(text: &str) -> Vec<u8> {
    let symbol = |symbol| match symbol {
        ',' => "00",
        '0' => "01",
        '1' => "10",
        '2' => "11",
        _ => panic!("no symbol"),
    };
    let mut bits: String = text.chars().map(symbol).collect();
    let padding = bits.len().next_multiple_of(8) - bits.len();
    bits += &"0".repeat(padding);
    let byte = |at: usize| u8::from_str_radix(&bits[at..at + 8], 2).expect("eight bits");
    (0..bits.len()).step_by(8).map(byte).collect()
}

/// The symbols of bytes, as text.
pub fn symbols(stream: &[u8]) -> String {
    let bits: String = stream.iter().map(|byte| format!("{byte:08b}")).collect();
    let symbol = |at: usize| match &bits[at..at + 2] {
        "00" => ',',
        "01" => '0',
        "10" => '1',
        _ => '2',
    };
    (0..bits.len()).step_by(2).map(symbol).collect()
}

/// T-02's reasons for a refusal, in its order.
#[derive(Clone, Copy, Debug, PartialEq, Eq, PartialOrd, Ord)]
pub enum Reason {
    EndsEarly,
    LeadingZero,
    NoDigit,
    PassesTheSheet,
    LargestAbove254,
    NoPointInTheFirstSize,
    LeavesTheSheet,
    ByteWithABlank,
    Padding,
    BytesFollow,
    NoSkeleton,
}

impl Reason {
    pub fn row(self) -> u8 {
        match self {
            ByteWithABlank | Padding | BytesFollow => 10,
            NoSkeleton => 11,
            _ => 9,
        }
    }
}

/// What a stream gives, as far as it can be read: all reasons to refuse it, and the scan.
#[derive(Default)]
pub struct Reading {
    pub reasons: BTreeSet<Reason>,
    pub scan: Points,
}

impl Reading {
    /// The lowest row, 0 if there is none.
    pub fn row(&self) -> u8 {
        let rows = self.reasons.iter().map(|reason| reason.row());
        rows.min().unwrap_or(0)
    }

    fn refuse(&mut self, reason: Reason, holds: bool) {
        self.reasons.extend(holds.then_some(reason));
    }
}

/// T-02, sentence by sentence. Where a stream cannot be read, nothing more is asked of it; a first
/// size without a point and points that leave the sheet are noted, and reading goes on, on the
/// whole plane.
pub fn read(w: u32, h: u32, b: &Points, mark: Mark, stream: &[u8]) -> Reading {
    let mut reading = Reading::default();
    let Mark::Largest(largest) = mark else {
        reading.refuse(ByteWithABlank, !stream.is_empty());
        return reading;
    };
    if largest > 254 {
        reading.refuse(LargestAbove254, true);
        return reading;
    }
    let text = symbols(stream);
    let mut rest = text.chars();
    let mut subsets = vec![Points::new(); largest as usize + 1];
    let mut mask = Points::new();
    for n in (0..subsets.len()).rev() {
        let points = size(&mut rest).and_then(|runs| places(w, h, &mask, &runs));
        subsets[n] = match points {
            Ok(points) => points,
            Err(reason) => {
                reading.refuse(reason, true);
                return reading;
            }
        };
        let first = n == largest as usize;
        reading.refuse(NoPointInTheFirstSize, first && subsets[n].is_empty());
        let leaves = |&z: &(i32, i32)| leaves_the_sheet(w, h, b, n, z);
        reading.refuse(LeavesTheSheet, subsets[n].iter().any(leaves));
        let covered = &subsets[n] | &mask;
        mask = dilate(&covered, b);
        reading.scan = covered;
    }
    let rest = rest.as_str();
    let in_the_byte = rest.len() % 4;
    reading.refuse(
        Padding,
        rest[..in_the_byte].contains(|symbol| symbol != ','),
    );
    reading.refuse(BytesFollow, rest.len() > in_the_byte);
    // A map has no sizes above its largest point's.
    while subsets.last().is_some_and(Points::is_empty) {
        subsets.pop();
    }
    reading.refuse(NoSkeleton, skeleton(&reading.scan, b) != subsets);
    reading
}

/// The runs of a size, symbol by symbol: "two commas end a size, empty or not".
fn size(rest: &mut Chars) -> Result<Vec<String>, Reason> {
    let mut runs: Vec<String> = vec![];
    loop {
        let mut run = String::new();
        loop {
            match rest.next().ok_or(EndsEarly)? {
                ',' => break,
                digit => run.push(digit),
            }
        }
        match run.as_str() {
            // The second comma after a run, or the first of two that stand alone.
            "" if !runs.is_empty() => return Ok(runs),
            "" => match rest.next().ok_or(EndsEarly)? {
                ',' => return Ok(runs),
                _ => return Err(NoDigit),
            },
            "0" => runs.push(run),
            _ if run.starts_with('0') => return Err(LeadingZero),
            _ => runs.push(run),
        }
    }
}

/// The points after runs of pixels that a mask does not cover.
fn places(w: u32, h: u32, mask: &Points, runs: &[String]) -> Result<Points, Reason> {
    let mut counted = frame(w, h).filter(|z| !mask.contains(z));
    let place = |run: &String| {
        // What has more digits than a number takes is longer than any sheet.
        let run = u64::from_str_radix(run, 3).ok();
        run.and_then(|run| counted.nth(run as usize))
    };
    let points: Option<Points> = runs.iter().map(place).collect();
    points.ok_or(PassesTheSheet)
}

/// Whether nB at a point leaves the sheet: it reaches n times as far as B.
pub fn leaves_the_sheet(w: u32, h: u32, b: &Points, n: usize, (x, y): (i32, i32)) -> bool {
    let reach = |(dx, dy): &(i32, i32)| (x + n as i32 * dx, y + n as i32 * dy);
    let inside = |(x, y): (i32, i32)| 0 <= x && x < w as i32 && 0 <= y && y < h as i32;
    !b.iter().map(reach).all(inside)
}
