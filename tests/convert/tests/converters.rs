//! The two converters as programs.

use std::io::Write;
use std::path::Path;
use std::process::{Command, Output, Stdio};

fn run(program: &str, arguments: &[&str], input: &[u8]) -> Output {
    let mut child = Command::new(program)
        .args(arguments)
        .stdin(Stdio::piped())
        .stdout(Stdio::piped())
        .stderr(Stdio::piped())
        .spawn()
        .expect("the program starts");
    let mut stdin = child.stdin.take().expect("its standard input");
    stdin.write_all(input).expect("it reads all");
    drop(stdin);
    child.wait_with_output().expect("it ends")
}

fn pbm2scan(arguments: &[&str], pbm: &[u8]) -> Output {
    run(env!("CARGO_BIN_EXE_pbm2scan"), arguments, pbm)
}

fn scan2pbm(scan: &[u8]) -> Output {
    run(env!("CARGO_BIN_EXE_scan2pbm"), &[], scan)
}

fn message(output: Output) -> String {
    assert_eq!(output.status.code(), Some(1));
    assert!(output.stdout.is_empty());
    String::from_utf8(output.stderr).expect("a message")
}

#[test]
fn the_samples_there_and_back() {
    let samples = Path::new(env!("CARGO_MANIFEST_DIR")).join("../../samples");
    let files = std::fs::read_dir(samples).expect("the samples");
    let files = files.map(|file| file.expect("a file").path());
    let scans: Vec<_> = files
        .filter(|file| file.extension() == Some("scan".as_ref()))
        .collect();
    assert!(scans.len() >= 5);
    for file in scans {
        let scan = std::fs::read(&file).expect("a scan");
        let pbm = std::fs::read(file.with_extension("pbm")).expect("its PBM");
        assert_eq!(
            pbm2scan(&["473536"], &pbm).stdout,
            scan,
            "{}",
            file.display()
        );
        assert_eq!(scan2pbm(&scan).stdout, pbm, "{}", file.display());
    }
}

#[test]
fn padding_is_cleared() {
    let scan = pbm2scan(&["473536"], b"P4\n3 3\n\xff\xff\xff");
    assert!(scan.status.success());
    assert_eq!(scan.stdout, [3, 3, 0xc0, 0x39, 7, 0, 0xe0, 0xe0, 0xe0]);
}

#[test]
fn refusals_have_a_message() {
    let high = [b"P4\n1 256\n", &[0; 256][..]].concat();
    let refused = message(pbm2scan(&["473536"], &high));
    assert_eq!(refused, "pbm2scan: a side is 256, above 255\n");
    let refused = message(pbm2scan(&[], b"P4\n1 1\n\0"));
    assert_eq!(refused, "pbm2scan: the argument is no element number\n");
    let refused = message(scan2pbm(b"\x01\x01"));
    assert_eq!(refused, "scan2pbm: fewer than six bytes\n");
}
