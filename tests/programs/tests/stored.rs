//! The stored replay is what its writer writes, and meets every operation and every refusal.

use programs::stored::{calls, stdin, stdout};
use reference::cases::{accepted, run};
use reference::Answer::Refused;
use std::collections::BTreeSet;
use std::path::Path;

#[test]
fn files_are_as_written() {
    let folder = Path::new(env!("CARGO_MANIFEST_DIR")).join("../../crates/replay");
    let file = |name| std::fs::read(folder.join(name)).unwrap_or_default();
    let hint = "`cargo run --bin stored crates/replay` writes it";
    assert!(file("stdin") == stdin(), "crates/replay/stdin: {hint}");
    assert!(file("stdout") == stdout(), "crates/replay/stdout: {hint}");
}

#[test]
fn every_operation_and_every_refusal() {
    let mut met = BTreeSet::new();
    for call in calls() {
        let row = match run(&call).0 {
            Refused(row) => row,
            _ => 0,
        };
        met.insert((call.name(), row));
    }
    for (call, rows) in accepted() {
        for row in rows.into_iter().chain([0]) {
            assert!(met.contains(&(call.name(), row)), "{}: {row}", call.name());
        }
    }
}
