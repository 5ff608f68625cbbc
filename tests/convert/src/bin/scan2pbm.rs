//! The skeleton program's input on standard input becomes a P4 PBM on standard output. Its
//! element is left out.

use convert::{filter, Image};

fn main() {
    filter("scan2pbm", |scan| Ok(Image::from_scan(scan)?.to_pbm()));
}
