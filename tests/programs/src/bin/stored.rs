//! Writes the stored replay into a folder, as `stdin` and `stdout`.

use programs::stored::{stdin, stdout};
use std::path::Path;
use std::process::exit;

fn main() -> std::io::Result<()> {
    let Some(folder) = std::env::args_os().nth(1) else {
        eprintln!("use: stored FOLDER");
        exit(2);
    };
    std::fs::write(Path::new(&folder).join("stdin"), stdin())?;
    std::fs::write(Path::new(&folder).join("stdout"), stdout())
}
