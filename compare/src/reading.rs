//! Whole texts, read call by call: each flag with its fields, and whether the reader has ended behind each call.

use crate::budget::Budget;
use crate::known;
use crate::ours::Reports;
use crate::random::Random;
use crate::tally::{Known, Tally};
use crate::texts;
use crate::theirs::{self, Call};
use rustflags::Flag;
use std::collections::BTreeSet;
use std::fmt;

const SEED: u64 = 0x7E57_0F7E_A71E_5EED;

const MOST_SYMBOLS: usize = 5;

pub fn run(tally: &mut Tally, budget: Budget) {
    println!("reading: seed {SEED:#018X}");
    let mut suite = Suite {
        tally,
        reports: Reports::new(),
        counts: Counts::default(),
    };
    texts::short(MOST_SYMBOLS, &mut |text| suite.hold(text));
    texts::real(&mut |text| suite.hold(text));
    texts::long(&mut |text| suite.hold(text));
    let mut random = Random::new(SEED);
    for _ in budget.rounds() {
        suite.hold(&texts::any(&mut random));
    }
    suite.counts.report();
}

struct Suite<'a> {
    tally: &'a mut Tally,
    reports: Reports,
    counts: Counts,
}

impl Suite<'_> {
    fn hold(&mut self, text: &[u8]) {
        let calls = theirs::calls(text);
        self.counts.add(&calls);
        let ours = Report(self.reports.calls(text).to_owned());
        let theirs = report(&calls, theirs::line);
        let known = difference(text, &calls);
        self.tally
            .compare(&Input(text), &ours, &theirs, known.as_ref());
    }
}

/// A line for each call of a reader.
#[derive(PartialEq)]
pub struct Report(pub String);

/// How many bytes of a text or a report are printed.
const MOST_PRINTED: usize = 2_000;

impl fmt::Debug for Report {
    fn fmt(&self, f: &mut fmt::Formatter<'_>) -> fmt::Result {
        shortened(f, self.0.as_bytes())
    }
}

struct Input<'a>(&'a [u8]);

impl fmt::Debug for Input<'_> {
    fn fmt(&self, f: &mut fmt::Formatter<'_>) -> fmt::Result {
        shortened(f, self.0)
    }
}

fn shortened(f: &mut fmt::Formatter<'_>, bytes: &[u8]) -> fmt::Result {
    match bytes.get(..MOST_PRINTED) {
        Some(front) => write!(f, "\"{}\".. ({} bytes)", front.escape_ascii(), bytes.len()),
        None => write!(f, "\"{}\"", bytes.escape_ascii()),
    }
}

/// The calls of the original's reader in the lines that our reports have, given the line of a flag.
pub fn report(calls: &[Call], line: impl Fn(&Flag) -> String) -> Report {
    let lines = calls.iter().map(|call| {
        let mark = if call.ended { "ended" } else { "on" };
        let flag = call.flag.as_ref().map_or("-".to_owned(), &line);
        format!("{mark} {flag}\n")
    });
    Report(lines.collect())
}

/// The difference that is known for a text, with both answers.
pub fn difference(text: &[u8], calls: &[Call]) -> Option<Known<Report>> {
    if text.len() > texts::LONGEST {
        return Some(Known {
            reasons: BTreeSet::from([
                "a text over 65,535 bytes is refused with 6 here, and read there",
            ]),
            ours: Report("refused 6\n".to_owned()),
            theirs: report(calls, theirs::line),
        });
    }
    let flags = calls.iter().filter_map(|call| call.flag.as_ref());
    known::difference(flags, |line| report(calls, line))
}

/// What the original told, so that a run shows that each was met.
#[derive(Default)]
struct Counts {
    empty: u64,
    flags: u64,
    ended_with_a_flag: u64,
    ended_without: u64,
}

impl Counts {
    fn add(&mut self, calls: &[Call]) {
        let flags = calls.iter().filter(|call| call.flag.is_some()).count();
        self.flags += flags as u64;
        let last = calls.iter().rev().find(|call| call.flag.is_some());
        match last {
            None => self.empty += 1,
            Some(call) if call.ended => self.ended_with_a_flag += 1,
            Some(_) => self.ended_without += 1,
        }
    }

    fn report(&self) {
        let Counts {
            empty,
            flags,
            ended_with_a_flag,
            ended_without,
        } = self;
        println!("reading: the original gives {flags} flags, and none of {empty} texts");
        println!(
            "reading: the original has ended with the last flag of {ended_with_a_flag} texts, and only behind it of {ended_without}"
        );
    }
}
