//! Where the machine has no Leptonica, nothing is compared with it.

use crate::compare::Other;

pub fn note() -> String {
    "not found (Debian has it as libleptonica-dev), so nothing is compared with it.".to_string()
}

pub fn erode_or_open(_opens: bool, _element: u32, _n: u32, _image: &[u8]) -> Option<Other> {
    None
}

pub fn decompose(_element: u32, _image: &[u8]) -> Option<Other> {
    None
}

pub fn reconstruct(_element: u32, _cut: u32, _labels: &[u8]) -> Option<Other> {
    None
}

pub fn thin(_image: &[u8]) -> Option<Other> {
    None
}

pub fn own_thin(_image: &[u8]) -> Option<Other> {
    None
}
