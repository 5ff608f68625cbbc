//! Dilation ("growing") by the element once, and what falls off the frame (T-06): each point moved
//! by each offset, in signed coordinates of the whole plane.

use crate::element::offsets;
use crate::frame::Set;

/// The points x+b of the frame, and whether an x+b lies outside it.
pub fn dilate(x: &Set, element: u32) -> (Set, bool) {
    let (b, mut fell) = (offsets(element), false);
    let mut dilated = x.frame.collect(|_, _| false);
    for (zx, zy) in x.points() {
        for (dx, dy) in &b {
            match x.frame.index(zx + dx, zy + dy) {
                Some(place) => dilated.member[place] = true,
                None => fell = true,
            }
        }
    }
    (dilated, fell)
}
