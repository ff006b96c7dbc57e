//! The constructors of flags against those of the original, which are reached by reading a text.

use crate::arguments;
use crate::budget::Budget;
use crate::known;
use crate::options::{OPTIONS, Opt};
use crate::ours;
use crate::random::Random;
use crate::tally::Tally;
use crate::theirs;
use std::fmt;

const SEED: u64 = 0x0FED_CBA9_8765_4321;

/// The numbers of the options that cut their argument, or count it up as a number.
const CUTTING: [u8; 10] = [1, 2, 3, 4, 6, 7, 20, 23, 24, 30];

/// How many symbols the short arguments have at most, of those options and of the others.
const MOST_SYMBOLS_CUT: usize = 6;
const MOST_SYMBOLS: usize = 5;

pub fn run(tally: &mut Tally, budget: Budget) {
    println!("constructors: seed {SEED:#018X}");
    let mut counts = Counts::default();
    for option in &OPTIONS {
        if option.is_bare() {
            hold(tally, &mut counts, option, b"");
        } else {
            arguments::short(option, most_symbols(option), &mut |argument| {
                hold(tally, &mut counts, option, argument);
            });
        }
    }
    let mut random = Random::new(SEED);
    for _ in budget.rounds() {
        let (option, argument) = arguments::any(&mut random);
        hold(tally, &mut counts, option, &argument);
    }
    counts.report();
}

fn most_symbols(option: &Opt) -> usize {
    if CUTTING.contains(&option.number) {
        MOST_SYMBOLS_CUT
    } else {
        MOST_SYMBOLS
    }
}

/// How often the original gave no flag, one, and more, so that a run shows that each was met.
#[derive(Default)]
struct Counts {
    none: u64,
    one: u64,
    more: u64,
}

impl Counts {
    fn add(&mut self, flags: usize) {
        match flags {
            0 => self.none += 1,
            1 => self.one += 1,
            _ => self.more += 1,
        }
    }

    fn report(&self) {
        let Counts { none, one, more } = self;
        println!(
            "constructors: the original gives no flag {none} times, one {one} times, more {more} times"
        );
    }
}

struct Input<'a> {
    option: &'a Opt,
    argument: &'a [u8],
}

impl fmt::Debug for Input<'_> {
    fn fmt(&self, f: &mut fmt::Formatter<'_>) -> fmt::Result {
        write!(
            f,
            "{} \"{}\"",
            self.option.spelling,
            self.argument.escape_ascii()
        )
    }
}

fn hold(tally: &mut Tally, counts: &mut Counts, option: &Opt, argument: &[u8]) {
    let flags = theirs::all(option, argument);
    counts.add(flags.len());
    let ours = ours::all(option.number, option.is_list(), argument);
    let theirs = flags.iter().map(theirs::line).collect();
    let known = known::difference(flags.iter(), |line| flags.iter().map(line).collect());
    tally.compare(&Input { option, argument }, &ours, &theirs, known.as_ref());
}
