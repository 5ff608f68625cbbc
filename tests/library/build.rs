//! Links the proved functions as a static library, libcalls.a. CALLS_LIB may name the folder that
//! has it; without that it is proved and built here, of the crate `calls_c`, again only where a
//! crate has changed.

use std::path::{Path, PathBuf};
use std::process::Command;
use std::{env, fs};

fn main() {
    println!("cargo:rerun-if-env-changed=CALLS_LIB");
    let folder = match env::var_os("CALLS_LIB") {
        Some(folder) => given(folder.into()),
        None => built(&Path::new(env!("CARGO_MANIFEST_DIR")).join("../..")),
    };
    println!("cargo:rustc-link-search=native={}", folder.display());
}

/// The folder of a library that is there.
fn given(folder: PathBuf) -> PathBuf {
    let library = folder.join("libcalls.a");
    println!("cargo:rerun-if-changed={}", library.display());
    folder
}

/// The folder of the library, once `rt` has proved and built it.
fn built(root: &Path) -> PathBuf {
    let crates = root.join("crates");
    let mut sources = vec![root.join("crates.txt")];
    for folder in fs::read_dir(&crates).expect("the folder of the crates") {
        let folder = folder.expect("a crate").path();
        // What `rt` makes lies in out/, and is no source.
        sources.extend(["src", "specs", "proofs"].map(|part| folder.join(part)));
    }
    for source in sources.iter().filter(|source| source.exists()) {
        println!("cargo:rerun-if-changed={}", source.display());
    }
    let calls = crates.join("calls_c");
    let made = Command::new("rt")
        .arg("lib")
        .current_dir(&calls)
        .output()
        .unwrap_or_else(|error| panic!("rt, the command of the Rattle kit: {error}"));
    let [said, failed] = [&made.stdout, &made.stderr].map(|text| String::from_utf8_lossy(text));
    assert!(made.status.success(), "rt lib, calls_c: {said}{failed}");
    let folder = PathBuf::from(env::var_os("OUT_DIR").expect("a folder of cargo's"));
    let library = calls.join("out/libcalls_c.a");
    fs::copy(library, folder.join("libcalls.a")).expect("the library");
    folder
}
