//! The cases A to M of 01, J and K as T-04 has them and L as T-05 has it, the codes of 02, written
//! and read, and the dilations of T-06, from the tables that the second program is held to, and
//! what a cut makes of shortened labels.

use programs::format::{Message, Reply};
use programs::replay::Replay;
use reference::cases::{coded, dilated, readings, settled, shortened_at_a_cut, Call};
use reference::drawn::{draw, image};
use std::collections::{BTreeMap, BTreeSet};

/// Each call of a case replies what the document says.
#[test]
fn cases_a_to_m() {
    let mut replay = Replay::start();
    let mut cases = BTreeSet::new();
    for settled in settled() {
        let reply = replay.call(&Message::from(&settled.call));
        let wanted = Reply::new(&settled.answer, &settled.after);
        assert_eq!(reply, wanted, "case {}: {:?}", settled.case, settled.call);
        cases.insert(settled.case);
    }
    assert_eq!(cases, ('A'..='M').collect());
    replay.end();
}

/// The codes of A to E and G to I and of the sample of 000; some with too few bytes lent.
#[test]
fn codes_of_the_cases_and_of_the_sample() {
    let mut replay = Replay::start();
    let (mut cases, mut refused) = (BTreeSet::new(), 0);
    for settled in coded() {
        let reply = replay.call(&Message::from(&settled.call));
        let wanted = Reply::new(&settled.answer, &settled.after);
        assert_eq!(reply, wanted, "case {}: {:?}", settled.case, settled.call);
        cases.insert(settled.case);
        refused += (reply.row == 8) as u32;
    }
    assert_eq!(cases, "ABCDEGHIS".chars().collect());
    assert!(refused >= 4, "{refused}");
    replay.end();
}

/// The codes of A to I and of the sample of 000 read back, and those that 02 refuses for each of
/// its reasons.
#[test]
fn readings_of_the_cases_and_of_the_sample() {
    let mut replay = Replay::start();
    let (mut cases, mut rows) = (BTreeSet::new(), BTreeMap::new());
    for settled in readings() {
        let reply = replay.call(&Message::from(&settled.call));
        let wanted = Reply::new(&settled.answer, &settled.after);
        assert_eq!(reply, wanted, "case {}: {:?}", settled.case, settled.call);
        if reply.row == 0 {
            cases.insert(settled.case);
        }
        *rows.entry(reply.row).or_insert(0) += 1;
    }
    assert_eq!(cases, "-ABCDEFGHIS".chars().collect());
    let least = BTreeMap::from([(0, 14), (9, 30), (10, 15), (11, 4)]);
    assert!(rows.keys().eq(least.keys()), "{rows:?}");
    assert!(
        least.iter().all(|(row, least)| rows[row] >= *least),
        "{rows:?}"
    );
    replay.end();
}

/// Dilations by hand: where ink falls off, and where nothing does.
#[test]
fn dilations_by_hand() {
    let mut replay = Replay::start();
    let mut met = BTreeMap::new();
    for settled in dilated() {
        let reply = replay.call(&Message::from(&settled.call));
        let wanted = Reply::new(&settled.answer, &settled.after);
        assert_eq!(reply, wanted, "{:?}", settled.call);
        *met.entry(reply.values[1]).or_insert(0) += 1;
    }
    assert!(met[&0] >= 15 && met[&1] >= 15, "{met:?}");
    replay.end();
}

/// Case J's last sentence in steps: the step of mask 1, then of mask 2, on what is left. A block
/// that is the whole sheet stays.
#[test]
fn case_j_in_steps() {
    let mut replay = Replay::start();
    for (drawn, left) in [
        ("111/111/111", "111/111/111"),
        (
            "00000/01110/01110/01110/00000",
            "00000/01010/01110/01110/00000",
        ),
    ] {
        let (w, h, mut block) = image(drawn);
        for (fg, bg) in [(464, 7), (152, 38)] {
            let hit = Call::HitOrMiss {
                w,
                h,
                fg,
                bg,
                image: block.clone(),
                out: vec![0xA5; block.len()],
            };
            let hits = replay.call(&Message::from(&hit)).y;
            block
                .iter_mut()
                .zip(&hits)
                .for_each(|(byte, hit)| *byte &= !hit);
        }
        assert_eq!(draw(w, &block), left);
    }
    replay.end();
}

/// At cut 2 the labels of an image give 15 points, its opening by 2B, and shortened 14.
#[test]
fn shortened_labels_at_a_cut_are_not_the_opening() {
    let mut replay = Replay::start();
    for settled in shortened_at_a_cut() {
        let reply = replay.call(&Message::from(&settled.call));
        let wanted = Reply::new(&settled.answer, &settled.after);
        assert_eq!(reply, wanted, "{:?}", settled.call);
    }
    replay.end();
}
