//! What a suite has compared and found.

use std::collections::{BTreeMap, BTreeSet};
use std::fmt::Debug;

/// How many unexplained differences of a suite are printed, each once; all are counted.
const MOST_SHOWN: usize = 20;

/// A difference that is known: the names of its rules, and what each side answers there.
pub struct Known<A> {
    pub reasons: BTreeSet<&'static str>,
    pub ours: A,
    pub theirs: A,
}

pub struct Tally {
    name: &'static str,
    compared: u64,
    known: u64,
    reasons: BTreeMap<&'static str, u64>,
    unexplained: u64,
    shown: BTreeSet<String>,
}

impl Tally {
    pub fn new(name: &'static str) -> Tally {
        Tally {
            name,
            compared: 0,
            known: 0,
            reasons: BTreeMap::new(),
            unexplained: 0,
            shown: BTreeSet::new(),
        }
    }

    /// Compares the two answers to one input. They have to be the same or, where a difference is known for this input,
    /// the two that are known.
    pub fn compare<I, A>(&mut self, input: &I, ours: &A, theirs: &A, known: Option<&Known<A>>)
    where
        I: Debug + ?Sized,
        A: Debug + PartialEq,
    {
        self.compared += 1;
        match known {
            Some(known) if known.ours == *ours && known.theirs == *theirs => {
                self.known += 1;
                for reason in &known.reasons {
                    *self.reasons.entry(reason).or_insert(0) += 1;
                }
            }
            None if ours == theirs => (),
            _ => self.add_unexplained(input, ours, theirs),
        }
    }

    fn add_unexplained<I, A>(&mut self, input: &I, ours: &A, theirs: &A)
    where
        I: Debug + ?Sized,
        A: Debug,
    {
        self.unexplained += 1;
        if self.shown.len() == MOST_SHOWN {
            return;
        }
        let difference = format!("{input:02X?}: ours {ours:?}, theirs {theirs:?}");
        if !self.shown.contains(&difference) {
            println!("{}: difference at {difference}", self.name);
            self.shown.insert(difference);
        }
    }

    pub fn unexplained(&self) -> u64 {
        self.unexplained
    }

    /// Prints a line for each rule of known differences, and then the totals. An input may fall under two rules.
    pub fn report(&self) {
        let name = self.name;
        for (reason, count) in &self.reasons {
            println!("{name}: known: {reason}: {count}");
        }
        println!(
            "{name}: compared {}, known differences {}, unexplained {}",
            self.compared, self.known, self.unexplained
        );
    }
}
