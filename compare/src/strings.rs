//! The places of a byte and the cuts there against the original's own, which are private to it: its file is included.

use crate::budget::Budget;
use crate::ours::cuts;
use crate::random::Random;
use crate::tally::Tally;
use original::EnvString;
use std::ffi::OsStr;
use std::os::unix::ffi::{OsStrExt, OsStringExt};

#[allow(dead_code)]
mod original {
    include!(concat!(env!("RUSTFLAGS_CRATE"), "/src/string.rs"));
}

const SEED: u64 = 0x2468_ACE0_1357_9BDF;

/// The bytes at which texts are cut.
const CUTS: [u8; 6] = [0x1F, b'=', b',', b':', b'-', b'"'];

/// What short texts are made of.
const SYMBOLS: [&[u8]; 9] = [
    b"\x1f",
    b"=",
    b",",
    b":",
    b"-",
    b"\"",
    b"a",
    "\u{e9}".as_bytes(),
    b"\xff",
];

const MOST_SYMBOLS: usize = 5;
const LONGEST: usize = 40;

pub fn run(tally: &mut Tally, budget: Budget) {
    println!("strings: seed {SEED:#018X}");
    short(tally, MOST_SYMBOLS, &mut Vec::new());
    let mut random = Random::new(SEED);
    for _ in budget.rounds() {
        let text = any(&mut random);
        hold(tally, &text);
    }
}

fn short(tally: &mut Tally, more: usize, text: &mut Vec<u8>) {
    hold(tally, text);
    if more == 0 {
        return;
    }
    let length = text.len();
    for symbol in SYMBOLS {
        text.extend_from_slice(symbol);
        short(tally, more - 1, text);
        text.truncate(length);
    }
}

fn any(random: &mut Random) -> Vec<u8> {
    let length = random.below(LONGEST + 1);
    let mut text = Vec::new();
    while text.len() < length {
        match random.below(3) {
            0 => text.extend_from_slice(*random.pick(&SYMBOLS)),
            _ => text.push(random.byte_within(0, 0xFF)),
        }
    }
    text
}

/// The place of a byte, the parts on its sides, and whether it is the first and the last of the text.
type Answer = (Option<usize>, Option<(Vec<u8>, Vec<u8>)>, bool, bool);

fn hold(tally: &mut Tally, text: &[u8]) {
    let original = EnvString::new(OsStr::from_bytes(text).to_owned());
    for byte in CUTS {
        let theirs = theirs(&original, char::from(byte));
        tally.compare(&(byte, text), &ours(text, byte), &theirs, None);
    }
}

fn theirs(text: &EnvString, byte: char) -> Answer {
    let bytes = |part: &original::EnvStr| AsRef::<OsStr>::as_ref(part).to_owned().into_vec();
    let parts = text.split_once(byte);
    (
        text.find(byte),
        parts.map(|(front, back)| (bytes(front), bytes(back))),
        text.starts_with(byte),
        text.ends_with(byte),
    )
}

fn ours(text: &[u8], byte: u8) -> Answer {
    let parts = cuts::split_once(text, byte);
    (
        cuts::find(text, byte),
        parts.map(|(front, back)| (front.to_vec(), back.to_vec())),
        cuts::starts_with(text, byte),
        cuts::ends_with(text, byte),
    )
}
