//! How fast each side reads: the same texts in the same run, in turns, the best of several rounds.

use crate::ours;
use crate::texts;
use crate::theirs;
use std::hint::black_box;
use std::time::{Duration, Instant};

const ROUNDS: usize = 60;

/// How long one measurement takes at least.
const LEAST: Duration = Duration::from_millis(5);

pub fn run() {
    println!("| input | bytes | flags | ours, MB/s | original, MB/s | ratio |");
    println!("|---|---|---|---|---|---|");
    for (name, text) in inputs() {
        let flags = theirs::count(&text);
        assert_eq!(ours::count(&text), Some(flags), "{name}");
        let (ours, theirs) = best_of_both(&text);
        let rate = |seconds: f64| text.len() as f64 / seconds / 1e6;
        println!(
            "| {name} | {} | {flags} | {:.1} | {:.1} | {:.1} |",
            text.len(),
            rate(ours),
            rate(theirs),
            theirs / ours
        );
    }
}

fn inputs() -> Vec<(&'static str, Vec<u8>)> {
    let filled = |front: &str, filling: &str, times: usize| {
        let mut text = front.as_bytes().to_vec();
        text.extend_from_slice(filling.repeat(times).as_bytes());
        text
    };
    vec![
        ("what builds have", texts::typical()),
        ("the same, as long as it may be", texts::typical_long()),
        ("`-`, then `g` 65,000 times", filled("-", "g", 65_000)),
        (
            "`--emit=`, then `,` 32,000 times",
            filled("--emit=", ",", 32_000),
        ),
        ("separators", filled("", "\x1f", texts::LONGEST)),
        ("`--`, then `x` 65,000 times", filled("--", "x", 65_000)),
    ]
}

/// The seconds that each side takes for the text, ours first.
fn best_of_both(text: &[u8]) -> (f64, f64) {
    let mut best = (f64::INFINITY, f64::INFINITY);
    for _ in 0..ROUNDS {
        best.0 = best
            .0
            .min(seconds(|| ours::count(black_box(text)).unwrap_or(0)));
        best.1 = best.1.min(seconds(|| theirs::count(black_box(text))));
    }
    best
}

/// The seconds that a call takes, of as many calls in a row as take long enough.
fn seconds(call: impl Fn() -> usize) -> f64 {
    let start = Instant::now();
    let mut calls = 0;
    loop {
        black_box(call());
        calls += 1;
        let time = start.elapsed();
        if time >= LEAST {
            return time.as_secs_f64() / f64::from(calls);
        }
    }
}
