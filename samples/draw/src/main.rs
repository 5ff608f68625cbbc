//! Writes every sample into a folder, as NAME.scan and as NAME.pbm.

use draw::{samples, SQUARE};
use std::path::Path;
use std::process::exit;

fn main() -> std::io::Result<()> {
    let Some(folder) = std::env::args_os().nth(1) else {
        eprintln!("use: draw FOLDER");
        exit(2);
    };
    for (name, image) in samples() {
        let file = Path::new(&folder).join(name);
        std::fs::write(file.with_extension("scan"), image.to_scan(SQUARE))?;
        std::fs::write(file.with_extension("pbm"), image.to_pbm())?;
    }
    Ok(())
}
