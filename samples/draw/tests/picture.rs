//! The picture in the documents is the one that the tool draws.

use std::path::Path;

#[test]
fn file_is_as_drawn() {
    let file = Path::new(env!("CARGO_MANIFEST_DIR")).join("../../docs/picture.svg");
    let kept = std::fs::read_to_string(file).unwrap_or_default();
    let hint = "the bin `picture` draws it";
    assert!(kept == draw::picture::picture(), "docs/picture.svg: {hint}");
}
