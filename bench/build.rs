//! Leptonica is linked where pkg-config finds it (Debian's libleptonica-dev).

use std::process::Command;

fn main() {
    println!("cargo:rustc-check-cfg=cfg(leptonica)");
    println!("cargo:rerun-if-changed=build.rs");
    let found = Command::new("pkg-config").args(["--libs", "lept"]).output();
    if let Some(found) = found.ok().filter(|found| found.status.success()) {
        println!("cargo:rustc-cfg=leptonica");
        for flag in String::from_utf8_lossy(&found.stdout).split_whitespace() {
            println!("cargo:rustc-link-arg-bins={flag}");
        }
    }
}
