//! Reads that end, fail, bring a part or are interrupted. The end of the input ends the
//! reading, a read that fails leaves nothing to say, and an interrupted one is made again.

use programs::format::{Message, Reply};
use programs::{output, path, start_on};
use reference::cases::{call, input};
use reference::program;
use std::fs::{read_to_string, File};
use std::io::Write;
use std::net::Shutdown;
use std::os::fd::OwnedFd;
use std::os::unix::net::UnixStream;
use std::process::{Child, Command, Stdio};
use std::thread::sleep;
use std::time::{Duration, Instant};

/// The printed example of 01, and what is printed for it.
const BLOCK: [u8; 9] = [0x03, 0x03, 0xc0, 0x39, 0x07, 0x00, 0xe0, 0xe0, 0xe0];
const PRINTED: &[u8] = b"3 3 1 1\n0 0 0\n0 2 0\n0 0 0\n";
const SECOND: Duration = Duration::from_secs(1);

/// A program that reads from a socket, where these bytes stand already and a read fails after
/// so long without a byte, and the other end of the socket.
fn start_on_a_socket(program: &str, first: &[u8], patience: Duration) -> (Child, UnixStream) {
    let (mut ours, theirs) = UnixStream::pair().expect("a pair of sockets");
    let timeout = theirs.set_read_timeout(Some(patience));
    timeout.expect("a socket that is open");
    ours.write_all(first).expect("a socket that is open");
    (start_on(program, OwnedFd::from(theirs)), ours)
}

/// A call of replay and its reply, as bytes.
fn a_call() -> (Vec<u8>, Vec<u8>) {
    let call = call(0);
    (Message::from(&call).bytes(), Reply::expected(&call).bytes())
}

#[test]
fn no_input_is_refusal_3() {
    let child = start_on("skeletonize", Stdio::null());
    assert_eq!(output("skeletonize", child), b"refused 3\n");
}

#[test]
fn a_closed_standard_input_leaves_nothing_to_say() {
    for program in ["skeletonize", "replay"] {
        let closed = Command::new("sh")
            .args(["-c", "exec \"$0\" <&-"])
            .arg(path(program))
            .stdout(Stdio::piped())
            .spawn();
        assert_eq!(output(program, closed.expect("a shell")), b"", "{program}");
    }
}

#[test]
fn a_directory_leaves_nothing_to_say() {
    for program in ["skeletonize", "replay"] {
        let child = start_on(program, File::open("/").expect("a directory"));
        assert_eq!(output(program, child), b"", "{program}");
    }
}

/// A whole scan and then a read that fails: whether more was to come is not known.
#[test]
fn a_read_that_fails_after_some_bytes_leaves_nothing_to_say() {
    for len in [0, 1, 5, 6, 8, 9] {
        let (child, _socket) = start_on_a_socket("skeletonize", &BLOCK[..len], SECOND / 10);
        assert_eq!(output("skeletonize", child), b"", "{len} bytes");
    }
}

/// The calls before it are answered.
#[test]
fn a_read_that_fails_inside_a_call_ends_replay() {
    let (bytes, reply) = a_call();
    for len in [0, 1, 33, bytes.len() - 1] {
        let calls = [&bytes[..], &bytes[..len]].concat();
        let (child, _socket) = start_on_a_socket("replay", &calls, SECOND / 10);
        assert_eq!(output("replay", child), reply, "{len} bytes of a call");
    }
}

/// Each read brings one byte.
#[test]
fn input_byte_by_byte() {
    let (child, mut socket) = start_on_a_socket("skeletonize", &[], 60 * SECOND);
    for byte in BLOCK {
        asleep(&child);
        socket.write_all(&[byte]).expect("a reader");
    }
    socket.shutdown(Shutdown::Write).expect("a socket");
    assert_eq!(output("skeletonize", child), PRINTED);
}

#[test]
fn an_interrupted_read_is_made_again() {
    for seed in 0..20 {
        let input = input(seed);
        let (child, mut socket) = start_on_a_socket("skeletonize", &[], 60 * SECOND);
        // At the start, between the pieces, and at the end.
        for piece in input.chunks(input.len() / 3 + 1) {
            interrupt(&child);
            socket.write_all(piece).expect("a reader");
        }
        interrupt(&child);
        socket.shutdown(Shutdown::Write).expect("a socket");
        let printed = output("skeletonize", child);
        assert!(printed == program(&input), "seed {seed}");
    }
    let (bytes, reply) = a_call();
    let (child, mut socket) = start_on_a_socket("replay", &[], 60 * SECOND);
    for piece in bytes.chunks(bytes.len() / 5) {
        interrupt(&child);
        socket.write_all(piece).expect("a reader");
    }
    socket.shutdown(Shutdown::Write).expect("a socket");
    assert_eq!(output("replay", child), reply);
}

/// Stops a program that waits in a read, and lets it go on. On a socket with a limit to its
/// patience Linux then fails the read with EINTR, as signal(7) has it, and a program that reads
/// again has made more reads.
fn interrupt(child: &Child) {
    asleep(child);
    let before = reads(child);
    signal(child, "STOP");
    until(child, 'T');
    signal(child, "CONT");
    asleep(child);
    if let (Some(before), Some(after)) = (before, reads(child)) {
        assert!(after > before, "a read is interrupted and made again");
    }
}

fn signal(child: &Child, name: &str) {
    let kill = format!("kill -{name} {}", child.id());
    let sent = Command::new("sh").args(["-c", &kill]).status();
    assert!(sent.expect("a shell").success(), "{kill}");
}

/// Waits until a program waits in a read: once it has started, it sleeps nowhere else.
fn asleep(child: &Child) {
    until(child, 'S');
}

/// Waits until a program is in this state of proc(5).
fn until(child: &Child, state: char) {
    let began = Instant::now();
    loop {
        let stat = proc(child, "stat").expect("a program that runs");
        let (_, rest) = stat.rsplit_once(") ").expect("a name, then a state");
        if rest.starts_with(state) {
            return;
        }
        let ended = rest.starts_with('Z') || began.elapsed() > 30 * SECOND;
        assert!(!ended, "the program is not in state {state}: {rest}");
        sleep(SECOND / 1000);
    }
}

/// How many reads a program has made, where the system counts them.
fn reads(child: &Child) -> Option<u64> {
    let io = proc(child, "io")?;
    let count = io.lines().find_map(|line| line.strip_prefix("syscr: "))?;
    count.parse().ok()
}

fn proc(child: &Child, file: &str) -> Option<String> {
    read_to_string(format!("/proc/{}/{file}", child.id())).ok()
}
