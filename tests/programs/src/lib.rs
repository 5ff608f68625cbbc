//! Runs the proved programs of the repository. Each is in its crate's folder out/ once `rt ci`, or `rt run` there, has passed.

pub mod format;
pub mod replay;
pub mod stored;

use std::io::{ErrorKind, Write};
use std::path::{Path, PathBuf};
use std::process::{Child, Command, Stdio};
use std::thread;

/// Where a program is.
pub fn path(program: &str) -> PathBuf {
    Path::new(env!("CARGO_MANIFEST_DIR"))
        .join("../../crates")
        .join(program)
        .join("out")
        .join(program)
}

/// Starts a program with this standard input and a pipe for standard output.
pub fn start_on(program: &str, stdin: impl Into<Stdio>) -> Child {
    let path = path(program);
    Command::new(&path)
        .stdin(stdin)
        .stdout(Stdio::piped())
        .spawn()
        .unwrap_or_else(|error| {
            panic!(
                "{}: {error}; `rt run` in its folder builds it",
                path.display()
            )
        })
}

/// Starts a program with pipes for standard input and output.
fn start(program: &str) -> Child {
    start_on(program, Stdio::piped())
}

/// What a running program writes to standard output until it ends.
pub fn output(program: &str, child: Child) -> Vec<u8> {
    let output = child.wait_with_output().expect("a child that ends");
    assert!(output.status.success(), "{program}: {}", output.status);
    output.stdout
}

/// What a program writes to standard output for these bytes of standard input, handed over in
/// pieces of at most so many bytes.
pub fn run(program: &str, input: &[u8], piece: usize) -> Vec<u8> {
    let mut child = start(program);
    let mut stdin = child.stdin.take().expect("a pipe");
    let input = input.to_vec();
    let writer = thread::spawn(move || {
        for part in input.chunks(piece) {
            // A program need not read all of a long input.
            match stdin.write_all(part) {
                Err(error) if error.kind() == ErrorKind::BrokenPipe => break,
                written => written.expect("a pipe that is open"),
            }
        }
    });
    let printed = output(program, child);
    writer.join().expect("the input is written");
    printed
}
