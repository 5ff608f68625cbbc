//! A P4 PBM on standard input becomes the skeleton program's input on standard output, for
//! the element whose number is the argument. Padding bits are cleared.

use convert::{filter, Image};

fn main() {
    let element = std::env::args().nth(1).and_then(|word| word.parse().ok());
    filter("pbm2scan", |pbm| {
        let element = element.ok_or("the argument is no element number")?;
        Ok(Image::from_pbm(pbm)?.to_scan(element))
    });
}
