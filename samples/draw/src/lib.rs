//! Drawn tickets as sample images.

mod digits;
mod noise;
mod outline;
mod outside;
pub mod picture;
mod ticket;

pub use convert::Image;

use ticket::ticket;

/// The 3 by 3 block, the element of every sample.
pub const SQUARE: u32 = 473536;

/// All samples, by name. The tickets are cropped so that the thin first digit touches the left
/// edge, and others the top and the bottom edge.
pub fn samples() -> Vec<(&'static str, Image)> {
    vec![
        ("block", Image::collect(3, 3, |_, _| true)),
        ("ticket-0417", ticket(80, &["0417"], 1)),
        ("ticket-417", ticket(80, &["417"], 2)),
        ("sheet-0417", ticket(255, &["0417", "2593", "0868"], 3)),
        ("sheet-417", ticket(255, &["417", "2593", "0868"], 4)),
    ]
}

#[cfg(test)]
mod tests {
    use super::*;
    use std::path::Path;

    #[test]
    fn files_are_as_drawn() {
        let folder = Path::new(env!("CARGO_MANIFEST_DIR")).join("..");
        for (name, image) in samples() {
            let file = |ending| std::fs::read(folder.join(name).with_extension(ending)).ok();
            assert_eq!(file("scan"), Some(image.to_scan(SQUARE)), "{name}.scan");
            assert_eq!(file("pbm"), Some(image.to_pbm()), "{name}.pbm");
        }
    }
}
