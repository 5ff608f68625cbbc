//! Thinning by the house set.

use super::frame::{area, Frame, Offsets};
use super::planes::hit_or_miss_plane;

/// The house set: Golay L on the square grid in its eight turns, as fg and bg.
pub const GOLAY_L: [(u32, u32); 8] = [
    (464, 7),
    (152, 38),
    (89, 292),
    (26, 416),
    (23, 448),
    (50, 200),
    (308, 73),
    (176, 11),
];

/// The passes made, the idle one included, the points removed and those left.
#[derive(Debug, PartialEq)]
pub struct Thinned {
    pub passes: u32,
    pub removed: u32,
    pub area: u32,
}

/// Thinning in place, until a pass removes nothing.
pub fn thin(w: u32, h: u32, image: &mut [u8], work: &mut [u8]) -> Result<Thinned, u8> {
    let frame = Frame::new(w, h)?;
    frame.lengths(&[image], None, work)?;
    frame.padding(image)?;
    let masks = GOLAY_L.map(|(fg, bg)| (Offsets::new(fg, 3), Offsets::new(bg, 3)));
    let [hits, ..] = frame.planes(work);
    let first = area(image);
    let (mut before, mut passes) = (first, 0);
    let left = loop {
        for (fg, bg) in &masks {
            hit_or_miss_plane(frame, fg, bg, image, hits);
            image
                .iter_mut()
                .zip(&*hits)
                .for_each(|(to, hits)| *to &= !hits);
        }
        passes += 1;
        let left = area(image);
        if left == before {
            break left;
        }
        before = left;
    };
    work[..3 * frame.plane_bytes].fill(0);
    Ok(Thinned {
        passes,
        removed: first - left,
        area: left,
    })
}
