//! How the cost of the proved functions grows, on square sheets all ink: with the sheet, with
//! the element, with n, and of a decomposition with the largest size.

use crate::compare::{is_selected, time, Lent};
use crate::proved;
use bench::inputs::{full, SIDE};

const SQUARE: u32 = 473536;
const SIDES: [u32; 5] = [16, 32, 64, 128, SIDE];
const FOLDS: [u32; 4] = [1, 2, 16, 64];
const ELEMENTS: [(&str, u32); 5] = [
    ("RIGHT", 12288),
    ("PLUS", 145536),
    ("SQUARE", SQUARE),
    ("ROUND", 15728622),
    ("all 25", (1 << 25) - 1),
];

pub fn tables() {
    let mut words = std::env::args().skip(1).peekable();
    if words.peek().is_some() && !words.any(|word| word == "growth") {
        return;
    }
    let heading = ["", "sheet", "bytes", "element", "points", "steps"];
    let [operation, sheet, bytes, element, points, steps] = heading;
    println!(
        "\n{operation:<17} {sheet:>7} {bytes:>6} {element:<7} {points:>6} {steps:>6} {:>10} {:>10}",
        "proved", "ns a row"
    );
    for side in SIDES {
        erode(side, ("SQUARE", SQUARE), 1);
    }
    for element in ELEMENTS {
        erode(SIDE, element, 1);
    }
    for n in FOLDS {
        erode(SIDE, ("SQUARE", SQUARE), n);
    }
    for side in SIDES {
        decompose(side);
    }
}

/// What a call is lent on a sheet all ink.
fn lent(side: u32) -> Lent {
    let image = full(side);
    Lent {
        out: vec![0; image.len()],
        labels: vec![0; (side * side) as usize],
        work: vec![0; 3 * image.len()],
        image,
        ..Lent::default()
    }
}

#[rustfmt::skip]
fn erode(side: u32, (name, element): (&str, u32), n: u32) {
    line("growth, erode", side, (name, element), n, |l| {
        proved::erode(side, side, element, n, &l.image, &mut l.out, &mut l.work)
    });
}

/// A decomposition by the square makes a step for each size.
#[rustfmt::skip]
fn decompose(side: u32) {
    line("growth, decompose", side, ("SQUARE", SQUARE), side.div_ceil(2), |l| {
        proved::decompose(side, side, SQUARE, &l.image, &mut l.labels, &mut l.work)
    });
}

/// Times a call and prints it, with the time for each row of the sheet and each step.
fn line(
    operation: &str,
    side: u32,
    (name, element): (&str, u32),
    steps: u32,
    call: impl Fn(&mut Lent) -> Result<u32, u8>,
) {
    let mut lent = lent(side);
    let (bytes, points) = (lent.image.len(), element.count_ones());
    let columns = format!("{operation:<17} {side:>7} {bytes:>6} {name:<7} {points:>6} {steps:>6}");
    if is_selected(&columns) {
        let micros = time(&mut lent, call);
        let each = micros * 1000.0 / (side * steps) as f64;
        println!("{columns} {micros:>10.2} {each:>10.1}");
    }
}
