//! Every kind of damaged argument in every operation: alone, in pairs, all rows at once.

use super::{Call, Damage, DAMAGES};
use crate::drawn::{full, labels};
use crate::Mark::{Blank, Largest};
use crate::SQUARE;

/// An accepted call of each operation on a 3 by 3 frame, with the rows that can refuse it. The
/// reader of codes has two: the code of case B, whose labels can be minimised, and a blank.
pub fn accepted() -> Vec<(Call, Vec<u8>)> {
    let (w, h, element) = (3, 3, SQUARE);
    let image = || full(3, 3);
    let out = || vec![0x5A; 3];
    let work = || vec![0xA5; 9];
    let labels = || labels("000/020/000");
    #[rustfmt::skip]
    let calls = vec![
        (Call::Erode { w, h, element, n: 1, image: image(), out: out(), work: work() },
            vec![1, 2, 3, 4, 7]),
        (Call::Open { w, h, element, n: 1, image: image(), out: out(), work: work() },
            vec![1, 2, 3, 4, 7]),
        (Call::Decompose { w, h, element, image: image(), labels: vec![0xA5; 9], work: work() },
            vec![1, 2, 3, 4]),
        (Call::Reconstruct { w, h, element, cut: 1, labels: labels(), image: out(), work: work() },
            vec![1, 2, 3, 5, 7]),
        (Call::Minimise { w, h, element, labels: labels(), work: work(), counters: vec![9; 9] },
            vec![1, 2, 3, 5]),
        (Call::HitOrMiss { w, h, fg: 464, bg: 7, image: image(), out: out() },
            vec![1, 3, 4, 6]),
        (Call::Thin { w, h, image: image(), work: work() },
            vec![1, 3, 4]),
        // Exactly enough for the stream.
        (Call::Encode { w, h, element, image: image(), out: vec![0x5A; 2], work: vec![0xA5; 10] },
            vec![1, 2, 3, 4, 8]),
        (Call::Decode { w: 5, h, element, mark: Largest(1), stream: vec![0xD1, 0x10, 0x00],
            image: out(), work: vec![0xA5; 16] },
            vec![1, 2, 3, 9, 10, 11]),
        (Call::Decode { w, h, element, mark: Blank, stream: vec![],
            image: out(), work: vec![0xA5; 15] },
            vec![1, 2, 3, 9, 10]),
        (Call::Dilate { w, h, element, image: image(), out: out(), work: vec![0xA5; 10] },
            vec![1, 2, 3, 4]),
    ];
    calls
}

/// A call with damaged arguments, and the rows that they aim at, in order.
#[derive(Clone)]
pub struct Damaged {
    pub call: Call,
    pub rows: Vec<u8>,
}

impl Damaged {
    /// The row that is answered: the lowest.
    pub fn row(&self) -> u8 {
        self.rows[0]
    }

    /// The call with every lent buffer as it is afterwards: no byte has changed, but that row 8
    /// leaves the first 3P bytes of work 0, and rows 9 to 11 the first 5P.
    pub fn after(&self) -> Call {
        let mut after = self.call.clone();
        if self.row() >= 8 {
            let p = after.parts();
            let cleared = p.planes * (p.w.div_ceil(8) * *p.h) as usize;
            p.work.into_iter().for_each(|work| work[..cleared].fill(0));
        }
        after
    }

    /// The call with one damage more; none if it has no such argument.
    fn with(mut self, &(row, edit): &Damage) -> Option<Damaged> {
        self.rows.insert(0, row);
        edit(&mut self.call.parts()).then_some(self)
    }
}

/// Each kind of damage alone in each accepted call that has such an argument, then each two
/// kinds that aim at different rows, then all rows at once. The higher row goes first: it may
/// ask for sides and bytes that are sound.
pub fn damaged() -> Vec<Damaged> {
    let mut all = vec![];
    for (call, rows) in accepted() {
        let sound = Damaged { call, rows: vec![] };
        let alone = DAMAGES.iter().flat_map(|kind| sound.clone().with(kind));
        for high in alone {
            let lower = DAMAGES.iter().filter(|(row, _)| *row < high.rows[0]);
            all.extend(lower.flat_map(|low| high.clone().with(low)));
            all.push(high);
        }
        let each = |damaged: Damaged, row: &u8| {
            let mut kinds = DAMAGES.iter().filter(|(of, _)| of == row);
            kinds.find_map(|kind| damaged.clone().with(kind))
        };
        all.extend(rows.iter().rev().try_fold(sound, each));
    }
    all
}
