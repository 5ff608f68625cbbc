//! Two sides of one call, checked against each other and timed in turns.

use bench::inputs::SIDE;
use std::hint::black_box;
use std::time::{Duration, Instant};

const ROUNDS: usize = 7;
/// The least time of a round: calls are repeated until it is reached.
const ROUND: Duration = Duration::from_millis(20);

/// The lent buffers of a call; those that it does not have are empty or left alone.
#[derive(Clone, Default, PartialEq)]
pub struct Lent {
    pub image: Vec<u8>,
    pub out: Vec<u8>,
    pub labels: Vec<u8>,
    pub work: Vec<u8>,
    pub counters: Vec<u16>,
}

/// A third side: a call that answers a number, and whether what it left is what the proved
/// function left. A call that does something else has nothing to compare.
pub struct Other {
    pub call: Box<dyn Fn() -> u32>,
    pub same: Option<Box<Same>>,
}

type Same = dyn Fn(&Lent) -> bool;

pub fn heading(leptonica: &str) {
    let cpu = std::fs::read_to_string("/proc/cpuinfo").unwrap_or_default();
    let model = cpu.lines().find(|line| line.starts_with("model name"));
    println!("{}", model.unwrap_or("model name: unknown"));
    println!("{SIDE} by {SIDE}, the ticket 255 by 80; microseconds a call, best of {ROUNDS} rounds of {ROUND:?} or more, in turns.");
    println!("All sides optimised. Lent buffers are warm and not cleared before a call.");
    println!("Leptonica: {leptonica}\n");
    let columns = columns(["operation", "input", "element", "n, cut"]);
    print!(
        "{columns} {:>10} {:>10} {:>6}",
        "baseline", "proved", "ratio"
    );
    let third = format!(" {:>10} {:>6}", "leptonica", "ratio");
    println!("{}", if cfg!(leptonica) { &third } else { "" });
}

/// Whether a line has all the words given.
pub fn is_selected(line: &str) -> bool {
    std::env::args().skip(1).all(|word| line.contains(&word))
}

fn columns([operation, input, element, n]: [&str; 4]) -> String {
    format!("{operation:<11} {input:<14} {element:<7} {n:>6}")
}

/// Sees that all sides give the same answer and the same bytes, times them and prints a line:
/// the ratios are those of the proved function to the side before them. A call that writes what
/// it reads is `in_place`.
pub fn compare(
    title: [&str; 4],
    lent: &Lent,
    in_place: bool,
    baseline: impl Fn(&mut Lent) -> Result<u32, u8>,
    proved: impl Fn(&mut Lent) -> Result<u32, u8>,
    other: impl Fn() -> Option<Other>,
) {
    let columns = columns(title);
    if !is_selected(&columns) {
        return;
    }
    let baseline = |lent: &mut Lent| baseline(lent).expect("sound arguments");
    let proved = |lent: &mut Lent| proved(lent).expect("sound arguments");
    let (mut of_proved, mut of_baseline) = (lent.clone(), lent.clone());
    let answers = (proved(&mut of_proved), baseline(&mut of_baseline));
    assert!(
        answers.0 == answers.1,
        "{columns}: the answers differ: {answers:?}"
    );
    assert!(of_proved == of_baseline, "{columns}: the lent bytes differ");
    let other = other();
    if let Some(Other {
        call,
        same: Some(same),
    }) = &other
    {
        assert!(call() == answers.0, "{columns}: Leptonica's answer differs");
        assert!(same(&of_proved), "{columns}: Leptonica's pixels differ");
    }
    let restore = in_place.then_some(lent);
    let mut time_proved = |calls| round(calls, &mut of_proved, restore, proved);
    let mut time_baseline = |calls| round(calls, &mut of_baseline, restore, baseline);
    let mut time_other = |calls| {
        let call = other.as_ref().map(|other| &other.call)?;
        Some(round(calls, &mut Lent::default(), None, |_| call()))
    };
    let sides: [&mut dyn FnMut(u32) -> Option<Duration>; 3] = [
        &mut |calls| Some(time_proved(calls)),
        &mut |calls| Some(time_baseline(calls)),
        &mut time_other,
    ];
    let [proved, baseline, other] = best(sides);
    let (proved, baseline) = (proved.unwrap_or(0.0), baseline.unwrap_or(0.0));
    print!(
        "{columns} {baseline:>10.2} {proved:>10.2} {:>6.2}",
        proved / baseline
    );
    match other {
        Some(other) => println!(" {other:>10.2} {:>6.2}", proved / other),
        None => println!(),
    }
}

/// A call to be timed; its answer is not looked at.
pub type Timed<'a> = &'a dyn Fn(&mut Lent) -> Result<u32, u8>;

/// The best times of calls that take turns, in microseconds.
pub fn time_all(lent: [&mut Lent; 3], calls: [Timed; 3]) -> [f64; 3] {
    let [mut first, mut second, mut third] = lent
        .into_iter()
        .zip(calls)
        .map(|(lent, call)| {
            let call = move |lent: &mut Lent| call(lent).expect("sound arguments");
            move |calls| Some(round(calls, lent, None, call))
        })
        .collect::<Vec<_>>()
        .try_into()
        .unwrap_or_else(|_| unreachable!());
    best([&mut first, &mut second, &mut third]).map(|time| time.unwrap_or(0.0))
}

/// The best time of a call, in microseconds.
pub fn time(lent: &mut Lent, call: impl Fn(&mut Lent) -> Result<u32, u8>) -> f64 {
    let call = |lent: &mut Lent| call(lent).expect("sound arguments");
    let [time] = best([&mut |calls| Some(round(calls, lent, None, call))]);
    time.unwrap_or(0.0)
}

/// The best time of a call of each side, in microseconds. The sides take turns.
fn best<const N: usize>(sides: [&mut dyn FnMut(u32) -> Option<Duration>; N]) -> [Option<f64>; N] {
    // Each side has as many calls in a round as it needs.
    let mut timed = sides.map(|side| {
        let mut calls = 1;
        while side(calls).is_some_and(|time| time < ROUND) {
            calls *= 2;
        }
        (side, calls, None)
    });
    for _ in 0..ROUNDS {
        for (side, calls, best) in &mut timed {
            let time = side(*calls).map(|time| time.as_secs_f64() * 1e6 / *calls as f64);
            *best = time.map(|time| best.map_or(time, |best: f64| best.min(time)));
        }
    }
    timed.map(|(_, _, best)| best)
}

/// The time of so many calls. Where they write what they read, that is put back before each,
/// outside the time.
fn round(
    calls: u32,
    lent: &mut Lent,
    restore: Option<&Lent>,
    call: impl Fn(&mut Lent) -> u32,
) -> Duration {
    let timed = |calls: u32, lent: &mut Lent| {
        let start = Instant::now();
        for _ in 0..calls {
            black_box(call(black_box(lent)));
        }
        start.elapsed()
    };
    let Some(fresh) = restore else {
        return timed(calls, lent);
    };
    let mut time = Duration::ZERO;
    for _ in 0..calls {
        lent.image.copy_from_slice(&fresh.image);
        lent.labels.copy_from_slice(&fresh.labels);
        time += timed(1, lent);
    }
    time
}
