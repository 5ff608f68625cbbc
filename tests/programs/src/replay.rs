//! A running `replay`, call after call, and its replies beside those of the second program.

use crate::format::{describe, Message, Reply};
use crate::start;
use reference::cases::{run, Call};
use reference::Answer;
use std::io::{stderr, BufReader, BufWriter, Read, Write};
use std::panic::resume_unwind;
use std::process::{Child, ChildStdin, ChildStdout};
use std::sync::atomic::{AtomicU64, Ordering};
use std::sync::Mutex;
use std::thread;
use std::time::{Duration, Instant};

/// How long replies gather in the pipe before they are read: a reader that waits is woken by each.
const GATHERED: Duration = Duration::from_micros(300);

/// A running `replay` and its two pipes.
pub struct Replay {
    child: Child,
    stdin: ChildStdin,
    stdout: BufReader<ChildStdout>,
}

impl Replay {
    pub fn start() -> Replay {
        let mut child = start("replay");
        Replay {
            stdin: child.stdin.take().expect("a pipe"),
            stdout: BufReader::with_capacity(1 << 16, child.stdout.take().expect("a pipe")),
            child,
        }
    }

    /// One call and its reply.
    pub fn call(&mut self, message: &Message) -> Reply {
        let written = self.stdin.write_all(&message.bytes());
        written
            .and_then(|()| self.stdin.flush())
            .and_then(|()| Reply::read(&mut self.stdout, message))
            .expect("a reply of replay")
    }

    /// One call, whose reply must be the second program's. Gives the answer and the call with
    /// every lent buffer as it is afterwards.
    pub fn agrees(&mut self, name: &str, call: &Call) -> (Answer, Call) {
        let reply = self.call(&Message::from(call));
        let (answer, after) = run(call);
        same(name, call, &reply, &Reply::new(&answer, &after)).unwrap_or_else(|m| panic!("{m}"));
        (answer, after)
    }

    /// Many calls, written by a thread while the replies are read. Each reply must be the
    /// second program's. Gives the answers.
    pub fn all_agree(&mut self, calls: &[(String, Call)]) -> Vec<Answer> {
        let (stdin, stdout) = (&mut self.stdin, &mut self.stdout);
        let mut check = |(name, call): &(String, Call)| {
            let (answer, after) = run(call);
            if stdout.buffer().is_empty() {
                thread::sleep(GATHERED);
            }
            let reply = Reply::read(stdout, &Message::from(call))
                .map_err(|error| format!("{name}: {}: {error}", describe(call)))?;
            same(name, call, &reply, &Reply::new(&answer, &after)).map(|()| answer)
        };
        let answers = thread::scope(|scope| {
            // Where the program ends early, reading says so.
            scope.spawn(|| {
                let mut stdin = BufWriter::with_capacity(1 << 16, stdin);
                let bytes = |(_, call): &(String, Call)| Message::from(call).bytes();
                let mut written = calls.iter().map(|call| stdin.write_all(&bytes(call)));
                let _ = written.try_for_each(|written| written);
                let _ = stdin.flush();
            });
            let answers = calls.iter().map(&mut check).collect::<Result<_, String>>();
            if answers.is_err() {
                // Or the thread would write to a program whose replies nobody reads.
                self.child.kill().expect("a child");
            }
            answers
        });
        answers.unwrap_or_else(|message| panic!("{message}"))
    }

    /// Closes the input: the program ends, and writes nothing more.
    pub fn end(self) {
        let Replay {
            mut child,
            stdin,
            mut stdout,
        } = self;
        drop(stdin);
        let mut rest = vec![];
        stdout.read_to_end(&mut rest).expect("a pipe");
        assert!(rest.is_empty(), "{} bytes after the replies", rest.len());
        let status = child.wait().expect("a child that ends");
        assert!(status.success(), "replay: {status}");
    }
}

/// A message where a reply is not the one that is wanted.
fn same(name: &str, call: &Call, reply: &Reply, wanted: &Reply) -> Result<(), String> {
    let difference = reply.difference(wanted);
    difference.map_or(Ok(()), |difference| {
        Err(format!("{name}: {}: {difference}", describe(call)))
    })
}

/// How many calls of all kinds go to a process before another block is taken.
const BLOCK: u64 = 200;
/// How often progress is shown.
const SHOWN: Duration = Duration::from_secs(5);

/// The calls of `count` seeds from `first` on, on all cores, each core with a process of its
/// own. `seen` is told of every call and its answer. Progress goes to standard error.
pub fn seeds_agree(
    first: u64,
    count: u64,
    call: impl Fn(u64) -> Call + Sync,
    seen: impl FnMut(&Call, &Answer) + Send,
) {
    blocks_agree(BLOCK, first, count, call, seen);
}

/// The same in blocks of so many calls: many where calls are short.
pub fn blocks_agree(
    block: u64,
    first: u64,
    count: u64,
    call: impl Fn(u64) -> Call + Sync,
    seen: impl FnMut(&Call, &Answer) + Send,
) {
    let (next, progress) = (AtomicU64::new(0), Mutex::new((seen, Progress::new(count))));
    let work = || {
        let _stop = Stop(&next);
        let mut replay = Replay::start();
        loop {
            let from = next.fetch_add(block, Ordering::Relaxed);
            if from >= count {
                return replay.end();
            }
            let seeds = first + from..first + (from + block).min(count);
            let calls: Vec<_> = seeds.map(|s| (format!("seed {s}"), call(s))).collect();
            let answers = replay.all_agree(&calls);
            let mut progress = progress.lock().expect("no other has failed");
            for ((_, call), answer) in calls.iter().zip(&answers) {
                progress.0(call, answer);
            }
            progress.1.add(calls.len());
        }
    };
    let cores = thread::available_parallelism().map_or(1, |cores| cores.get());
    thread::scope(|scope| {
        let workers: Vec<_> = (0..cores).map(|_| scope.spawn(work)).collect();
        for worker in workers {
            worker.join().unwrap_or_else(|panic| resume_unwind(panic));
        }
    });
}

/// Leaves no more work to the other cores where one has failed.
struct Stop<'a>(&'a AtomicU64);

impl Drop for Stop<'_> {
    fn drop(&mut self) {
        if thread::panicking() {
            self.0.store(u64::MAX / 2, Ordering::Relaxed);
        }
    }
}

struct Progress {
    done: usize,
    count: u64,
    began: Instant,
    shown: Instant,
}

impl Progress {
    fn new(count: u64) -> Progress {
        let now = Instant::now();
        Progress {
            done: 0,
            count,
            began: now,
            shown: now,
        }
    }

    fn add(&mut self, calls: usize) {
        self.done += calls;
        if self.shown.elapsed() >= SHOWN {
            self.shown = Instant::now();
            let (done, count, seconds) = (self.done, self.count, self.began.elapsed().as_secs());
            // Not by the macro, whose output is held back in tests.
            let _ = writeln!(stderr(), "{done} of {count} calls agree, {seconds} s");
        }
    }
}
