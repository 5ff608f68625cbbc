//! The settled tickets, from the table that the comparisons share: the codes of 01's scans and of
//! the sample of 000 read back, and each reason for a refusal.

use crate::plain::{self, Reason};
use reference::cases::{coded, readings, run, Call, Settled};
use reference::Answer::{Area, Coded, Refused};
use reference::Mark::{self, Blank, Largest};
use std::collections::BTreeSet;

/// Every call of a case gives its answer and leaves every lent byte as it says.
fn holds(case: char) {
    let calls: Vec<Settled> = readings().into_iter().filter(|s| s.case == case).collect();
    assert!(calls.iter().any(|s| matches!(s.answer, Area(_))));
    for s in calls {
        assert_eq!(run(&s.call), (s.answer, s.after), "{:?}", s.call);
    }
}

macro_rules! cases {
    ($($name:ident $case:literal)*) => {
        $(#[test] fn $name() { holds($case); })*
    };
}

cases! {
    case_a_square_3_by_3 'A'
    case_b_square_5_by_3 'B'
    case_c_square_5_by_5 'C'
    case_d_one_point 'D'
    case_e_blank 'E'
    case_f_the_largest_size 'F'
    case_g_right 'G'
    case_h_left 'H'
    case_i_square_with_a_dot 'I'
    sample_of_000 'S'
    a_byte_without_padding '-'
}

/// The mark and stream of a settled call, and the reading of 02 word for word.
fn word_for_word(call: &Call) -> plain::Reading {
    let Call::Decode {
        w,
        h,
        element,
        mark,
        stream,
        ..
    } = call
    else {
        panic!("another call");
    };
    plain::read(*w, *h, &plain::element(*element), *mark, stream)
}

/// The table says what 02 says, has each reason alone, and each two rows and all three at once.
#[test]
fn the_table_has_every_reason() {
    let (mut alone, mut rows) = (BTreeSet::new(), BTreeSet::new());
    for s in readings().iter().filter(|s| s.case != 'F') {
        let reading = word_for_word(&s.call);
        let row = match s.answer {
            Refused(row) => row,
            _ => 0,
        };
        assert_eq!(row, reading.row(), "{:?}", s.call);
        let reasons: Vec<Reason> = reading.reasons.iter().copied().collect();
        if let [reason] = reasons[..] {
            alone.insert(reason);
        }
        rows.insert(
            reasons
                .iter()
                .map(|reason| reason.row())
                .collect::<BTreeSet<u8>>(),
        );
    }
    assert_eq!(alone.len(), 11, "{alone:?}");
    for several in [&[9, 10][..], &[9, 11], &[10, 11], &[9, 10, 11]] {
        assert!(
            rows.contains(&several.iter().copied().collect()),
            "{several:?}"
        );
    }
}

/// Each code of the table of codes is read back, with its scan's points.
#[test]
fn the_codes_of_the_table_are_read_back() {
    let mut read = 0;
    for s in coded() {
        let Call::Encode {
            w,
            h,
            element,
            image,
            ..
        } = &s.call
        else {
            panic!("another call");
        };
        let (Call::Encode { out, .. }, Coded { bytes, max_size }) = (&s.after, &s.answer) else {
            continue;
        };
        let stream = &out[..*bytes as usize];
        let points = image.iter().map(|byte| byte.count_ones()).sum();
        let answered = super::decode(*w, *h, *element, Largest(*max_size), stream);
        assert_eq!(answered, (Area(points), image.clone()));
        read += 1;
    }
    assert!(read >= 9, "{read}");
}

/// "Scan G of document 01 gives bytes 42 00, largest size 1", and these give scan G.
#[test]
fn g_is_read_back() {
    let g = |mark: Mark, stream: &[u8]| super::decode(4, 1, reference::RIGHT, mark, stream);
    assert_eq!(g(Largest(1), &[0x42, 0x00]), (Area(3), vec![0xD0]));
    assert_eq!(g(Blank, &[0x42, 0x00]).0, Refused(10));
    assert_eq!(g(Blank, &[]), (Area(0), vec![0x00]));
}
