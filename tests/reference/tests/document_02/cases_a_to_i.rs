//! The codes of 01's scans A to E and G to I and of the sample of 000, from the table that the
//! comparisons share.

use reference::cases::{coded, run, Call, Settled};
use reference::Answer::{Blank, Coded, Refused};

/// Every call of a case gives its answer and leaves every lent byte as it says.
fn holds(case: char) {
    let calls: Vec<Settled> = coded().into_iter().filter(|s| s.case == case).collect();
    assert!(!calls.is_empty());
    for s in calls {
        assert_eq!(run(&s.call), (s.answer, s.after), "{:?}", s.call);
    }
}

macro_rules! cases {
    ($($name:ident $case:literal)*) => {
        $(#[test] fn $name() { holds($case); })*
    };
}

cases! {
    case_a_square_3_by_3 'A'
    case_b_square_5_by_3 'B'
    case_c_square_5_by_5 'C'
    case_d_one_point 'D'
    case_e_blank 'E'
    case_g_right 'G'
    case_h_left 'H'
    case_i_square_with_a_dot 'I'
    sample_of_000 'S'
}

/// The table has each kind of answer.
#[test]
fn the_table_has_codes_blanks_and_refusals() {
    let count = |test: fn(&Settled) -> bool| coded().iter().filter(|s| test(s)).count();
    assert!(count(|s| matches!(s.answer, Coded { .. })) >= 9);
    assert!(count(|s| matches!(s.answer, Refused(8))) >= 4);
    assert!(count(|s| s.answer == Blank) >= 2);
}

/// The bytes of the sample's image, as 02's runs give them.
#[test]
fn the_sample_is_40_pixels_in_a_row() {
    let mut samples = coded().into_iter().filter(|s| s.case == 'S');
    let sample = samples.next().expect("a sample");
    let Call::Encode { w, h, image, .. } = sample.call else {
        panic!("another call");
    };
    assert_eq!((w, h, image), (40, 1, vec![0x00, 0x10, 0x20, 0x32, 0x01]));
}
