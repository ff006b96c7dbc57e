//! The samples of the original's answers that the programs `replay` and `reread` are held against.

use crate::arguments;
use crate::known;
use crate::options::{OPTIONS, Opt};
use crate::random::Random;
use crate::reading;
use crate::texts;
use crate::theirs;
use std::collections::BTreeSet;
use std::fs;
use std::io;
use std::path::Path;

const SEED: u64 = 0x1357_9BDF_0246_8ACE;

/// How many inputs each sample has, besides those with a known difference, which are left out.
const SIZE: usize = 2_000;

/// All arguments of at most so many symbols are candidates, of which one in `STRIDE` is taken.
const MOST_SYMBOLS: usize = 2;
const STRIDE: usize = 7;

/// The same for texts, of which one in `TEXT_STRIDE` is taken.
const MOST_TEXT_SYMBOLS: usize = 3;
const TEXT_STRIDE: usize = 11;

/// Texts are longer than that only where the original's calls are compared and not stored.
const LONGEST_TEXT: usize = 120;

/// Writes the samples into the folder of the crates.
pub fn write(crates: &Path) -> io::Result<()> {
    constructors().write(crates, "replay")?;
    texts().write(crates, "reread")
}

/// Options with arguments, and the flags of each in one line.
fn constructors() -> Sample {
    let mut sample = Sample::default();
    for option in &OPTIONS {
        sample.add_fixed(option);
    }
    let mut random = Random::new(SEED);
    while sample.count < SIZE {
        let (option, argument) = arguments::any(&mut random);
        sample.add_argument(option, &argument);
    }
    sample
}

/// Texts, and a reader's calls of each in lines.
fn texts() -> Sample {
    let mut sample = Sample::default();
    let mut place = 0;
    texts::short(MOST_TEXT_SYMBOLS, &mut |text| {
        if place % TEXT_STRIDE == 0 {
            sample.add_text(text);
        }
        place += 1;
    });
    let mut random = Random::new(SEED);
    while sample.count < SIZE {
        let text = texts::any(&mut random);
        if text.len() <= LONGEST_TEXT {
            sample.add_text(&text);
        }
    }
    sample
}

#[derive(Default)]
struct Sample {
    seen: BTreeSet<String>,
    inputs: String,
    answers: String,
    count: usize,
    left_out: usize,
}

impl Sample {
    /// Adds the option's good arguments and some of the short ones.
    fn add_fixed(&mut self, option: &Opt) {
        if option.is_bare() {
            return self.add_argument(option, b"");
        }
        for argument in option.good {
            self.add_argument(option, argument);
        }
        let mut place = usize::from(option.number);
        arguments::short(option, MOST_SYMBOLS, &mut |argument| {
            if place % STRIDE == 0 {
                self.add_argument(option, argument);
            }
            place += 1;
        });
    }

    fn add_argument(&mut self, option: &Opt, argument: &[u8]) {
        let flags = theirs::all(option, argument);
        let lines: Vec<String> = flags.iter().map(theirs::line).collect();
        let known = known::difference(flags.iter(), |_| ()).is_some();
        let input = format!("{} {}\n", option.number, hex(argument));
        self.add(input, &answer(&lines), known);
    }

    fn add_text(&mut self, text: &[u8]) {
        let calls = theirs::calls(text);
        let known = reading::difference(text, &calls).is_some();
        let input = hex(text) + "\n";
        self.add(input, &reading::report(&calls, theirs::line).0, known);
    }

    /// Adds an input and its answer, unless it is there already or has a known difference.
    fn add(&mut self, input: String, answer: &str, known: bool) {
        if self.seen.contains(&input) {
            return;
        }
        if known {
            self.left_out += 1;
        } else {
            self.count += 1;
            self.inputs += &input;
            self.answers += answer;
        }
        self.seen.insert(input);
    }

    fn write(self, crates: &Path, name: &str) -> io::Result<()> {
        let folder = crates.join(name);
        fs::write(folder.join("stdin"), self.inputs)?;
        fs::write(folder.join("stdout"), self.answers)?;
        println!(
            "sample of {name}: seed {SEED:#018X}, {} inputs, {} left out for a known difference",
            self.count, self.left_out
        );
        Ok(())
    }
}

fn hex(bytes: &[u8]) -> String {
    bytes.iter().map(|byte| format!("{byte:02x}")).collect()
}

/// The flags of one input in one line.
fn answer(flags: &[String]) -> String {
    if flags.is_empty() {
        "none\n".to_owned()
    } else {
        flags.join("; ") + "\n"
    }
}
