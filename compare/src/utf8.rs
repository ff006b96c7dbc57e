//! `is_utf8` against the standard library's `str::from_utf8`.

use crate::budget::Budget;
use crate::ours;
use crate::random::Random;
use crate::tally::Tally;

const SEED: u64 = 0x0123_4567_89AB_CDEF;

const SHORTEST: usize = 4;
const LONGEST: usize = 64;

/// The bytes at which what may follow a first byte of a character begins or ends, and the next ones outside.
const EDGES: [u8; 8] = [0x7F, 0x80, 0x8F, 0x90, 0x9F, 0xA0, 0xBF, 0xC0];

/// Where each byte of a character lies: first and last, both included.
type Row = &'static [(u8, u8)];

/// The rows of well-formed characters, the shorter ones first.
const ROWS: [Row; 9] = [
    &[(0x00, 0x7F)],
    &[(0xC2, 0xDF), (0x80, 0xBF)],
    &[(0xE0, 0xE0), (0xA0, 0xBF), (0x80, 0xBF)],
    &[(0xE1, 0xEC), (0x80, 0xBF), (0x80, 0xBF)],
    &[(0xED, 0xED), (0x80, 0x9F), (0x80, 0xBF)],
    &[(0xEE, 0xEF), (0x80, 0xBF), (0x80, 0xBF)],
    &[(0xF0, 0xF0), (0x90, 0xBF), (0x80, 0xBF), (0x80, 0xBF)],
    &[(0xF1, 0xF3), (0x80, 0xBF), (0x80, 0xBF), (0x80, 0xBF)],
    &[(0xF4, 0xF4), (0x80, 0x8F), (0x80, 0xBF), (0x80, 0xBF)],
];

pub fn run(tally: &mut Tally, budget: Budget) {
    println!("utf8: seed {SEED:#018X}");
    let mut counts = Counts::default();
    short_texts(|text| hold(tally, &mut counts, text));
    edge_texts(|text| hold(tally, &mut counts, text));
    generated_texts(budget, |text| hold(tally, &mut counts, text));
    let Counts { accepted, refused } = counts;
    println!("utf8: the standard library accepts {accepted} and refuses {refused}");
}

/// What the standard library says, so that a run shows that both answers were met.
#[derive(Default)]
struct Counts {
    accepted: u64,
    refused: u64,
}

fn hold(tally: &mut Tally, counts: &mut Counts, text: &[u8]) {
    let theirs = std::str::from_utf8(text).is_ok();
    if theirs {
        counts.accepted += 1;
    } else {
        counts.refused += 1;
    }
    tally.compare(text, &ours::is_utf8(text), &theirs, None);
}

/// Every text of at most three bytes.
fn short_texts(mut each: impl FnMut(&[u8])) {
    each(&[]);
    for a in 0..=u8::MAX {
        each(&[a]);
        for b in 0..=u8::MAX {
            each(&[a, b]);
            for c in 0..=u8::MAX {
                each(&[a, b, c]);
            }
        }
    }
}

/// Every text of four bytes that begins as a character of four bytes does, with edges behind that.
fn edge_texts(mut each: impl FnMut(&[u8])) {
    for a in 0xF0..=0xF4 {
        for b in EDGES {
            for c in EDGES {
                for d in EDGES {
                    each(&[a, b, c, d]);
                }
            }
        }
    }
}

/// Well-formed texts, each with its damaged copies.
fn generated_texts(budget: Budget, mut each: impl FnMut(&[u8])) {
    let mut random = Random::new(SEED);
    for _ in budget.rounds() {
        let text = good_text(&mut random);
        each(&text);
        for damage in DAMAGES {
            each(&damaged(&mut random, &text, damage));
        }
    }
}

fn good_text(random: &mut Random) -> Vec<u8> {
    let length = SHORTEST + random.below(LONGEST - SHORTEST + 1);
    let mut text = Vec::with_capacity(length);
    while text.len() < length {
        let room = length - text.len();
        let fitting = ROWS.partition_point(|row| row.len() <= room);
        let row = random.pick(&ROWS[..fitting]);
        add_member(random, row, &mut text);
    }
    text
}

/// Adds the first, the last or any member of the row.
fn add_member(random: &mut Random, row: Row, text: &mut Vec<u8>) {
    match random.below(3) {
        0 => text.extend(row.iter().map(|&(first, _)| first)),
        1 => text.extend(row.iter().map(|&(_, last)| last)),
        _ => text.extend(
            row.iter()
                .map(|&(first, last)| random.byte_within(first, last)),
        ),
    }
}

/// One thing done to a byte of a text, which may be well-formed after it too.
#[derive(Clone, Copy)]
enum Damage {
    Change,
    ChangeToEdge,
    Drop,
    Double,
    SwapWithNext,
    Truncate,
}

const DAMAGES: [Damage; 6] = [
    Damage::Change,
    Damage::ChangeToEdge,
    Damage::Drop,
    Damage::Double,
    Damage::SwapWithNext,
    Damage::Truncate,
];

/// A copy of the text, which must not be empty, with the damage at any place.
fn damaged(random: &mut Random, text: &[u8], damage: Damage) -> Vec<u8> {
    let mut copy = text.to_vec();
    let at = random.below(text.len());
    match damage {
        Damage::Change => copy[at] ^= random.byte_within(1, 0xFF),
        Damage::ChangeToEdge => copy[at] = *random.pick(&EDGES),
        Damage::Drop => {
            copy.remove(at);
        }
        Damage::Double => copy.insert(at, text[at]),
        // the last byte has the first for its next
        Damage::SwapWithNext => copy.swap(at, (at + 1) % text.len()),
        Damage::Truncate => copy.truncate(at),
    }
    copy
}
