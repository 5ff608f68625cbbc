//! Binary images in the two formats that the samples are kept in.

mod image;

pub use image::Image;

use std::io::{stdin, stdout, Read, Write};

/// Standard input through a conversion to standard output; or a message and status 1.
pub fn filter(name: &str, convert: impl Fn(&[u8]) -> Result<Vec<u8>, String>) {
    let mut input = Vec::new();
    let read = stdin().read_to_end(&mut input).map_err(|e| e.to_string());
    let written = read
        .and_then(|_| convert(&input))
        .and_then(|output| stdout().write_all(&output).map_err(|e| e.to_string()));
    if let Err(message) = written {
        eprintln!("{name}: {message}");
        std::process::exit(1);
    }
}
