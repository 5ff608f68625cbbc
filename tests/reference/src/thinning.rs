//! Hit-or-miss and thinning, pixel by pixel from the definition. A point whose 3 by 3
//! neighbourhood does not lie whole on the frame is never hit (T-04).

use crate::frame::Set;

/// The house set: Golay L on the square grid in its eight turns, as (fg, bg). x must be
/// foreground, o background, a dot may be either. Each mask from the third on is the one two
/// before it, turned a quarter clockwise.
///
/// ```text
///   o o o   . o o   x . o   . x .   x x x   . x .   o . x   o o .
///   . x .   x x o   x x o   x x o   . x .   o x x   o x x   o x x
///   x x x   . x .   x . o   . o o   o o o   o o .   o . x   . x .
/// ```
pub const GOLAY_L: [(u32, u32); 8] = [
    (464, 7),
    (152, 38),
    (89, 292),
    (26, 416),
    (23, 448),
    (50, 200),
    (308, 73),
    (176, 11),
];

/// All nine offsets of a neighbourhood, as one number of a mask.
const NEIGHBOURHOOD: u32 = 0b111_111_111;

/// The offsets of one number of a mask: bit 3(dy+1) + (dx+1) stands for (dx, dy).
fn offsets(number: u32) -> impl Iterator<Item = (i32, i32)> {
    (0..9)
        .filter(move |bit| number >> bit & 1 == 1)
        .map(|bit| (bit % 3 - 1, bit / 3 - 1))
}

/// The points whose whole neighbourhood lies on the frame, where all offsets of fg fall on
/// foreground and all of bg on background.
pub fn hit_or_miss(x: &Set, fg: u32, bg: u32) -> Set {
    x.frame.collect(|zx, zy| {
        offsets(NEIGHBOURHOOD).all(|(dx, dy)| x.frame.has(zx + dx, zy + dy))
            && offsets(fg).all(|(dx, dy)| x.has(zx + dx, zy + dy))
            && offsets(bg).all(|(dx, dy)| !x.has(zx + dx, zy + dy))
    })
}

/// Thinning to idempotence: what is left, and the passes made, the idle one included. Each
/// step removes at once all points that its mask hits in the set before the step.
pub fn thin(x: Set) -> (Set, u32) {
    let (mut thinned, mut passes) = (x, 0);
    loop {
        let before = thinned.area();
        for (fg, bg) in GOLAY_L {
            thinned = thinned.minus(&hit_or_miss(&thinned, fg, bg));
        }
        passes += 1;
        if thinned.area() == before {
            return (thinned, passes);
        }
    }
}
