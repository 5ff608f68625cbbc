//! Seeded calls of all kinds. CALLS is how many, FIRST the first seed:
//!
//!     CALLS=1000000 cargo test --offline --manifest-path tests/Cargo.toml --test replay seeded
//!
//! A failure names its seed; FIRST=that CALLS=1 makes that call alone.

use programs::replay::seeds_agree;
use reference::cases::{call, OPERATIONS};
use reference::{Answer, Mark};
use std::collections::BTreeMap;

const CALLS: u64 = 100_000;

fn option(name: &str) -> Option<u64> {
    let text = std::env::var(name).ok()?;
    let number = text.replace('_', "").parse();
    Some(number.unwrap_or_else(|_| panic!("{name}={text} is no number")))
}

#[test]
fn seeded_calls() {
    let (first, calls) = (option("FIRST"), option("CALLS"));
    let mut met: BTreeMap<(usize, &str, u32), u32> = BTreeMap::new();
    let mut count = |operation: usize, what: &'static str, value: u32| {
        *met.entry((operation, what, value)).or_default() += 1;
    };
    seeds_agree(
        first.unwrap_or(0),
        calls.unwrap_or(CALLS),
        call,
        |call, answer| {
            let (operation, mut call) = (call.operation(), call.clone());
            let p = call.parts();
            if let Some(&mut n) = p.cut_or_n {
                count(operation, "cut or n", n);
            }
            if let Some((Mark::Largest(largest), _)) = p.ticket {
                count(operation, "largest size", *largest);
            }
            if let Answer::Refused(row) = answer {
                return count(operation, "row", *row as u32);
            }
            count(operation, "row", 0);
            if let Answer::Blank | Answer::Area(0) | Answer::Dilated { area: 0, .. } = answer {
                count(operation, "blank", 0);
            }
            if let Answer::Dilated { fell, .. } = answer {
                count(operation, "fell", *fell as u32);
            }
            if let (Answer::Coded { bytes, .. }, Some(out)) = (answer, p.stream) {
                let kind = match out.len() - *bytes as usize {
                    0 => "exactly enough",
                    1 => "one byte more",
                    _ => "more",
                };
                count(operation, kind, 0);
            }
            count(operation, "width", *p.w);
            count(operation, "height", *p.h);
            if let Some(&mut element) = p.element {
                count(operation, "points", element.count_ones());
                count(operation, "element", element);
            }
        },
    );
    if first.is_some() || calls.is_some_and(|calls| calls < CALLS) {
        return;
    }
    // What the seeds must reach, in each operation.
    let reached = |operation: usize, what: &'static str, value: u32, least: u32| {
        let times = met.get(&(operation, what, value)).copied().unwrap_or(0);
        let name = OPERATIONS[operation];
        assert!(times >= least, "{name}: {what} {value}: {times} times");
    };
    let rows: [&[u32]; 10] = [
        &[0, 1, 2, 3, 4, 7],
        &[0, 1, 2, 3, 4, 7],
        &[0, 1, 2, 3, 4],
        &[0, 1, 2, 3, 5, 7],
        &[0, 1, 2, 3, 5],
        &[0, 1, 3, 4, 6],
        &[0, 1, 3, 4],
        &[0, 1, 2, 3, 4, 8],
        &[0, 1, 2, 3, 9, 10, 11],
        &[0, 1, 2, 3, 4],
    ];
    for (operation, rows) in rows.iter().enumerate() {
        rows.iter()
            .for_each(|&row| reached(operation, "row", row, 50));
        for side in (1..=40).chain(248..=255) {
            reached(operation, "width", side, 3);
            reached(operation, "height", side, 3);
        }
    }
    for operation in [0, 1, 2, 3, 4, 7, 8, 9] {
        (2..=25).for_each(|points| reached(operation, "points", points, 5));
        for element in [473536, 145536, 15728622, 12288, 6144] {
            reached(operation, "element", element, 50);
        }
    }
    for what in ["blank", "exactly enough", "one byte more", "more"] {
        reached(7, what, 0, 50);
    }
    reached(8, "blank", 0, 50);
    reached(9, "blank", 0, 50);
    reached(9, "fell", 0, 500);
    reached(9, "fell", 1, 500);
    for largest in (0..10).chain([254, 255, 256, u32::MAX]) {
        reached(8, "largest size", largest, 20);
    }
    for operation in [0, 1, 3] {
        for n in [0, 1, 255, 256, u32::MAX] {
            reached(operation, "cut or n", n, 50);
        }
    }
}
