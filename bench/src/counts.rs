//! The count of ones, proved, beside two in unproved Rust: by bytes, as the baseline counts an
//! area, and by whole words.

use crate::compare::{is_selected, time_all, Lent};
use bench::baseline::area;
use library::count;

const LENGTHS: [(&str, usize); 4] = [
    ("one row", 32),
    ("four rows", 128),
    ("255 by 255", 8160),
    ("1,024 by 1,024", 1024 * 128),
];

pub fn table() {
    let mut words = std::env::args().skip(1).peekable();
    if words.peek().is_some() && !words.any(|word| word == "counts") {
        return;
    }
    println!(
        "\n{:<11} {:<14} {:>7} {:>10} {:>10} {:>10} {:>6} {:>6}",
        "", "input", "bytes", "by bytes", "by words", "proved", "ratio", "ratio"
    );
    for (name, bytes) in LENGTHS {
        line(name, bytes);
    }
}

fn by_words(bytes: &[u8]) -> u32 {
    let words = bytes.chunks_exact(8);
    let rest: u32 = words.remainder().iter().map(|byte| byte.count_ones()).sum();
    let word = |bytes: &[u8]| u64::from_le_bytes(bytes.try_into().expect("eight bytes"));
    words.map(|bytes| word(bytes).count_ones()).sum::<u32>() + rest
}

fn line(name: &str, bytes: usize) {
    let columns = format!("{:<11} {name:<14} {bytes:>7}", "counts");
    if !is_selected(&columns) {
        return;
    }
    let lent = || Lent {
        image: (0..bytes).map(|i| (i * 151 % 251) as u8).collect(),
        ..Lent::default()
    };
    let [mut first, mut second, mut third] = [lent(), lent(), lent()];
    let ones = count(&first.image);
    assert_eq!(
        (area(&first.image), by_words(&first.image)),
        (ones, ones),
        "{columns}"
    );
    let lents = [&mut first, &mut second, &mut third];
    let [by_bytes, by_words, proved] = time_all(
        lents,
        [&|l| Ok(area(&l.image)), &|l| Ok(by_words(&l.image)), &|l| {
            Ok(count(&l.image))
        }],
    );
    println!(
        "{columns} {by_bytes:>10.3} {by_words:>10.3} {proved:>10.3} {:>6.2} {:>6.2}",
        proved / by_bytes,
        proved / by_words
    );
}
