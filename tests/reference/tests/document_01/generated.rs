//! The generated calls reach what they are meant to reach.

use reference::cases::{call, input, run, Call};
use reference::{program, Answer};
use std::collections::{BTreeMap, BTreeSet};

/// The row of a refusal, 0 for a success.
fn row(answer: &Answer) -> u8 {
    match answer {
        Answer::Refused(row) => *row,
        _ => 0,
    }
}

#[test]
fn generated_calls_meet_every_row_of_every_operation() {
    let mut met: BTreeMap<&str, BTreeSet<u8>> = BTreeMap::new();
    for seed in 0..6000 {
        let call = call(seed);
        met.entry(call.name())
            .or_default()
            .insert(row(&run(&call).0));
    }
    let expected = BTreeMap::from([
        ("erode", BTreeSet::from([0, 1, 2, 3, 4, 7])),
        ("open", BTreeSet::from([0, 1, 2, 3, 4, 7])),
        ("decompose", BTreeSet::from([0, 1, 2, 3, 4])),
        ("reconstruct", BTreeSet::from([0, 1, 2, 3, 5, 7])),
        ("minimise", BTreeSet::from([0, 1, 2, 3, 5])),
        ("hit_or_miss", BTreeSet::from([0, 1, 3, 4, 6])),
        ("thin", BTreeSet::from([0, 1, 3, 4])),
        ("encode", BTreeSet::from([0, 1, 2, 3, 4, 8])),
        ("decode", BTreeSet::from([0, 1, 2, 3, 9, 10, 11])),
        ("dilate", BTreeSet::from([0, 1, 2, 3, 4])),
    ]);
    assert_eq!(met, expected);
}

#[test]
fn generated_calls_meet_every_side_and_cut() {
    let (mut widths, mut heights, mut cuts) = (BTreeSet::new(), BTreeSet::new(), BTreeSet::new());
    let mut elements = BTreeSet::new();
    for seed in 0..12000 {
        let mut call = call(seed);
        let p = call.parts();
        widths.insert(*p.w);
        heights.insert(*p.h);
        cuts.extend(p.cut_or_n.map(|n| *n));
        elements.extend(p.element.map(|e| e.count_ones()));
    }
    let sides = (0..=40).chain(248..=256).chain([u32::MAX]);
    for side in sides {
        assert!(widths.contains(&side) && heights.contains(&side), "{side}");
    }
    for cut in [0, 1, 2, 3, 4, 254, 255, 256, u32::MAX] {
        assert!(cuts.contains(&cut), "{cut}");
    }
    assert!((0..=25).all(|points| elements.contains(&points)));
}

/// Maps with a wild point from the cut on, and maps whose wild points are all below it.
#[test]
fn generated_calls_meet_wild_points_on_both_sides_of_the_cut() {
    let (mut below, mut from) = (0, 0);
    for seed in 0..6000 {
        let mut call = call(seed);
        let wild = row(&run(&call).0) == 5;
        if let (Call::Reconstruct { cut, labels, .. }, true) = (&mut call, wild) {
            let hidden = |label: &&mut u8| **label as u32 <= *cut;
            labels
                .iter_mut()
                .filter(hidden)
                .for_each(|label| *label = 0);
            match row(&run(&call).0) {
                5 => from += 1,
                _ => below += 1,
            }
        }
    }
    assert!(below > 50 && from > 50, "{below} {from}");
}

#[test]
fn generated_calls_of_a_seed_are_the_same_again() {
    for seed in 0..200 {
        assert_eq!(call(seed), call(seed));
        assert_eq!(input(seed), input(seed));
    }
}

#[test]
fn generated_inputs_meet_every_answer_of_the_program() {
    let mut met = BTreeSet::new();
    for seed in 0..2000 {
        let output = String::from_utf8(program(&input(seed))).expect("plain text");
        let first = output.lines().next().expect("a line");
        let kind = match first.strip_prefix("refused ") {
            Some(row) => row.to_string(),
            None if first.ends_with('-') => "blank".to_string(),
            None => "skeleton".to_string(),
        };
        assert!(output.ends_with('\n'));
        met.insert(kind);
    }
    let expected = ["1", "2", "3", "4", "blank", "skeleton"];
    assert_eq!(met, expected.map(String::from).into());
}
