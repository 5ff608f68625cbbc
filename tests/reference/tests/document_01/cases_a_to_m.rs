//! The cases A to M of 01, J and K as T-04 has them and L as T-05 has it, from the table that the
//! comparisons share.

use reference::cases::{run, settled, Settled};

/// Every call of a case gives its answer and leaves every lent byte as it says.
fn holds(case: char) {
    let calls: Vec<Settled> = settled().into_iter().filter(|s| s.case == case).collect();
    assert!(!calls.is_empty());
    for s in calls {
        assert_eq!(run(&s.call), (s.answer, s.after), "{:?}", s.call);
    }
}

macro_rules! cases {
    ($($name:ident $case:literal)*) => {
        $(#[test] fn $name() { holds($case); })*
    };
}

cases! {
    case_a_square_3_by_3 'A'
    case_b_square_5_by_3 'B'
    case_c_square_5_by_5 'C'
    case_d_one_point 'D'
    case_e_blank 'E'
    case_f_right_255_by_1 'F'
    case_g_right 'G'
    case_h_left 'H'
    case_i_square_with_a_dot 'I'
    case_j_masks_1_and_2 'J'
    case_k_thinned 'K'
    case_l_wild_label 'L'
    case_m_refusals 'M'
}
