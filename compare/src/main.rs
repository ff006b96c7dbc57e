//! Holds the proved library against what it is to agree with, suite by suite.
//!
//! Usage: compare [--seconds N]
//!        compare --write-sample DIR
//!        compare --time
//!
//! Each suite has a part that always runs in full and a generated part. The generated part has a fixed size, or goes
//! on for N seconds where that is asked for; that of `reading`, for eight times N. The exit status is 1 where a suite
//! found an unexplained difference.
//!
//! With `--write-sample` it writes inputs and the original's answers to them into the folder of the crates: options with
//! arguments into DIR/replay, and texts into DIR/reread, each as `stdin` and `stdout`.
//!
//! With `--time` it prints a table of how fast each side reads.

#[cfg(original)]
mod arguments;
mod budget;
#[cfg(original)]
mod constructors;
#[cfg(original)]
mod known;
#[cfg(original)]
mod options;
mod ours;
mod random;
#[cfg(original)]
mod reading;
#[cfg(original)]
mod sample;
#[cfg(original)]
mod strings;
mod tally;
mod task;
#[cfg(original)]
mod texts;
#[cfg(original)]
mod theirs;
#[cfg(original)]
mod timing;
mod utf8;

use budget::Budget;
use std::env;
use std::process::ExitCode;
use std::time::Instant;
use tally::Tally;
use task::Task;

/// One comparison of the library with something else.
struct Suite {
    name: &'static str,
    /// How many times the seconds that are asked for its generated part goes on.
    share: u32,
    run: fn(&mut Tally, Budget),
}

const SUITES: &[Suite] = &[
    Suite {
        name: "utf8",
        share: 1,
        run: utf8::run,
    },
    #[cfg(original)]
    Suite {
        name: "strings",
        share: 1,
        run: strings::run,
    },
    #[cfg(original)]
    Suite {
        name: "constructors",
        share: 1,
        run: constructors::run,
    },
    #[cfg(original)]
    Suite {
        name: "reading",
        share: 8,
        run: reading::run,
    },
];

fn main() -> ExitCode {
    match Task::from_arguments(env::args().skip(1)) {
        Ok(Task::Compare(budget)) => compare(budget),
        Ok(Task::WriteSample(folder)) => write_sample(&folder),
        Ok(Task::Time) => time(),
        Err(problem) => {
            eprintln!("compare: {problem}");
            eprintln!("usage: compare [--seconds N] | compare --write-sample DIR | compare --time");
            ExitCode::from(2)
        }
    }
}

fn compare(budget: Budget) -> ExitCode {
    let mut unexplained = 0;
    for suite in SUITES {
        unexplained += run_suite(suite, budget);
    }
    if cfg!(not(original)) {
        println!(
            "strings, constructors, reading: NOT COMPARED, since the source of rustflags 0.1.7 was not at hand (see compare/build)"
        );
    }
    if unexplained == 0 {
        ExitCode::SUCCESS
    } else {
        ExitCode::FAILURE
    }
}

/// Runs the suite, prints what it found, and gives the number of unexplained differences.
fn run_suite(suite: &Suite, budget: Budget) -> u64 {
    let mut tally = Tally::new(suite.name);
    let start = Instant::now();
    (suite.run)(&mut tally, budget.times(suite.share));
    tally.report();
    println!("{}: {} seconds", suite.name, start.elapsed().as_secs());
    tally.unexplained()
}

#[cfg(original)]
fn write_sample(folder: &str) -> ExitCode {
    match sample::write(folder.as_ref()) {
        Ok(()) => ExitCode::SUCCESS,
        Err(error) => {
            eprintln!("compare: {folder}: {error}");
            ExitCode::FAILURE
        }
    }
}

#[cfg(original)]
fn time() -> ExitCode {
    timing::run();
    ExitCode::SUCCESS
}

#[cfg(not(original))]
fn write_sample(_: &str) -> ExitCode {
    without_original()
}

#[cfg(not(original))]
fn time() -> ExitCode {
    without_original()
}

#[cfg(not(original))]
fn without_original() -> ExitCode {
    eprintln!(
        "compare: the source of rustflags 0.1.7 was not at hand when this was built (see compare/build)"
    );
    ExitCode::FAILURE
}
