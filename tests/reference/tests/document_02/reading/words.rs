//! The reader against T-02 read word for word, on small sheets: tickets of every kind, with
//! random, mostly lopsided elements.

use super::{decode, encode};
use crate::plain::{self, Reason};
use reference::cases::{self, ticket_of, TicketKind, TICKET_KINDS};
use reference::rng::Rng;
use reference::Answer::{self, Area, Refused};
use reference::Mark;
use std::collections::BTreeMap;

/// What must be answered, and the image.
fn word_for_word(
    w: u32,
    h: u32,
    element: u32,
    mark: Mark,
    stream: &[u8],
) -> (plain::Reading, Answer, Vec<u8>) {
    let reading = plain::read(w, h, &plain::element(element), mark, stream);
    let (answer, image) = match reading.row() {
        0 => {
            let points = reading.scan.len() as u32;
            (Area(points), plain::packed(w, h, &reading.scan))
        }
        row => (Refused(row), vec![0xA5; super::plane(w, h)]),
    };
    (reading, answer, image)
}

/// What was met: each reason alone, each two rows, successes.
#[derive(Default)]
struct Met {
    alone: BTreeMap<Reason, u32>,
    rows: BTreeMap<Vec<u8>, u32>,
}

impl Met {
    fn count(&mut self, reading: &plain::Reading) {
        let reasons: Vec<Reason> = reading.reasons.iter().copied().collect();
        if let [reason] = reasons[..] {
            *self.alone.entry(reason).or_default() += 1;
        }
        let mut rows: Vec<u8> = reasons.iter().map(|reason| reason.row()).collect();
        rows.dedup();
        *self.rows.entry(rows).or_default() += 1;
    }
}

#[test]
fn the_rule_word_for_word() {
    let (rng, mut met) = (&mut Rng::new(1), Met::default());
    for kind in TICKET_KINDS {
        let (mut accepted, mut refused) = (0, 0);
        for _ in 0..1500 {
            let (w, h) = (rng.between(1, 14) as u32, rng.between(1, 10) as u32);
            let element = cases::element(rng);
            let (mark, stream) = ticket_of(rng, kind, w, h, element);
            // Many sizes take sets of points long, and no sheet here has them.
            if (Mark::Largest(20)..Mark::Largest(255)).contains(&mark) && stream.len() > 40 {
                continue;
            }
            let (reading, answer, image) = word_for_word(w, h, element, mark, &stream);
            assert_eq!(
                decode(w, h, element, mark, &stream),
                (answer, image),
                "{w} by {h}, element {element}, {mark:?}, {stream:?}"
            );
            accepted += (reading.row() == 0) as u32;
            refused += (reading.row() > 0) as u32;
            met.count(&reading);
        }
        match kind {
            TicketKind::Own => assert_eq!(refused, 0),
            TicketKind::Extended => assert_eq!(accepted, 0),
            _ => assert!(
                accepted >= 3 && refused >= 100,
                "{kind:?}: {accepted} {refused}"
            ),
        }
    }
    assert_eq!(met.alone.len(), 11, "{:?}", met.alone);
    assert!(
        met.alone.values().all(|&times| times >= 20),
        "{:?}",
        met.alone
    );
    for rows in [&[][..], &[9], &[10], &[11]] {
        let times = met.rows.get(rows).copied().unwrap_or(0);
        assert!(times >= 20, "{rows:?}: {times} times");
    }
}

/// Short streams of any runs, some without a digit or with a leading zero: reasons meet that
/// drawn tickets do not have.
#[test]
fn any_symbols_word_for_word() {
    let (rng, mut met) = (&mut Rng::new(2), Met::default());
    let words = [
        "0,", "0,", "0,", "0,", "1,", "1,", "2,", "10,", ",", ",", ",", "00,", "1",
    ];
    for _ in 0..60_000 {
        let (w, h) = (rng.between(1, 5) as u32, rng.between(1, 4) as u32);
        let (element, len) = (cases::element(rng), rng.between(0, 9));
        let text: String = (0..len).map(|_| rng.pick(&words)).collect();
        let (mark, stream) = (Mark::Largest(rng.below(3) as u32), plain::bytes(&text));
        let (reading, answer, image) = word_for_word(w, h, element, mark, &stream);
        assert_eq!(
            decode(w, h, element, mark, &stream),
            (answer, image),
            "{w} by {h}, element {element}, {mark:?}, {text}"
        );
        met.count(&reading);
    }
    for rows in [&[][..], &[9], &[10], &[11], &[9, 10], &[9, 11], &[10, 11]] {
        let times = met.rows.get(rows).copied().unwrap_or(0);
        assert!(times >= 50, "{rows:?}: {times} times");
    }
    assert!(met.rows.contains_key(&vec![9, 10, 11]), "{:?}", met.rows);
}

/// "Wanted: whatever T-01 writes is accepted and gives back the scan".
#[test]
fn whatever_is_written_is_read_back() {
    let rng = &mut Rng::new(3);
    for kind in cases::IMAGE_KINDS {
        let (mut blank, mut large) = (0, 0);
        for _ in 0..250 {
            let (w, h, element) = (cases::side(rng), cases::side(rng), cases::element(rng));
            let image = cases::image_of(rng, kind, w, h);
            let (mark, stream) = encode(w, h, element, &image);
            let points: u32 = image.iter().map(|byte| byte.count_ones()).sum();
            let read = decode(w, h, element, mark, &stream);
            assert!(
                read == (Area(points), image),
                "{w} by {h}, element {element}"
            );
            blank += (mark == Mark::Blank) as u32;
            large += (mark >= Mark::Largest(3)) as u32;
        }
        let is_blank = kind == cases::IMAGE_KINDS[0];
        assert_eq!(blank == 250, is_blank, "{kind:?}");
        let noise = [cases::ImageKind::Sparse, cases::ImageKind::Half];
        assert!(
            is_blank || noise.contains(&kind) || large >= 20,
            "{kind:?}: {large}"
        );
    }
}
