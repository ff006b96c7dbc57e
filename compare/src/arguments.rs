//! Arguments of options: all short ones over an alphabet, good ones with damage, and random ones.

use crate::options::{OPTIONS, Opt};
use crate::random::Random;

/// The byte that no argument holds, since it stands between arguments.
const SEPARATOR: u8 = 0x1F;

/// What the short arguments are made of, together with an option's own words.
const ALPHABET: [&[u8]; 11] = [
    b"=",
    b"\"",
    b":",
    b",",
    b"+",
    b"-",
    b"a",
    b"l",
    b"0",
    "\u{e9}".as_bytes(),
    b"\xff",
];

const LONGEST_RANDOM: usize = 40;

/// Every argument of at most `most` symbols of the alphabet and the option's words.
pub fn short(option: &Opt, most: usize, each: &mut impl FnMut(&[u8])) {
    let mut symbols = ALPHABET.to_vec();
    symbols.extend_from_slice(option.words);
    extend(&symbols, most, &mut Vec::new(), each);
}

/// The text, and every longer one with at most `more` symbols behind it.
pub fn extend(symbols: &[&[u8]], more: usize, text: &mut Vec<u8>, each: &mut impl FnMut(&[u8])) {
    each(text);
    if more == 0 {
        return;
    }
    let length = text.len();
    for symbol in symbols {
        text.extend_from_slice(symbol);
        extend(symbols, more - 1, text, each);
        text.truncate(length);
    }
}

/// Any option that takes an argument, and an argument: a good one, a damaged one or a random one.
pub fn any(random: &mut Random) -> (&'static Opt, Vec<u8>) {
    let option = any_option(random);
    let mut argument = match random.below(8) {
        0 => good(random, option),
        1 | 2 => random_text(random, option),
        3 => {
            let other = any_option(random);
            let (front, back) = (good(random, other), good(random, option));
            spliced(random, &front, &back)
        }
        _ => {
            let text = good(random, option);
            damaged(random, &text)
        }
    };
    argument.retain(|&byte| byte != SEPARATOR);
    (option, argument)
}

fn any_option(random: &mut Random) -> &'static Opt {
    loop {
        let option = random.pick(&OPTIONS);
        if !option.is_bare() {
            return option;
        }
    }
}

fn good(random: &mut Random, option: &Opt) -> Vec<u8> {
    random.pick(option.good).to_vec()
}

/// The front of one text and the back of another.
fn spliced(random: &mut Random, a: &[u8], b: &[u8]) -> Vec<u8> {
    let mut text = a[..random.below(a.len() + 1)].to_vec();
    text.extend_from_slice(&b[random.below(b.len() + 1)..]);
    text
}

/// The text with one to three bytes replaced, dropped or doubled, or with its end cut off.
pub fn damaged(random: &mut Random, text: &[u8]) -> Vec<u8> {
    let mut copy = text.to_vec();
    for _ in 0..=random.below(3) {
        if copy.is_empty() {
            break;
        }
        let at = random.below(copy.len());
        match random.below(5) {
            0 => copy[at] = random.byte_within(0, 0xFF),
            1 => {
                let symbol = *random.pick(&ALPHABET);
                copy.splice(at..=at, symbol.iter().copied());
            }
            2 => {
                copy.remove(at);
            }
            3 => copy.insert(at, copy[at]),
            _ => copy.truncate(at),
        }
    }
    copy
}

fn random_text(random: &mut Random, option: &Opt) -> Vec<u8> {
    let length = random.below(LONGEST_RANDOM + 1);
    let mut text = Vec::new();
    while text.len() < length {
        match random.below(8) {
            0 => text.push(random.byte_within(0, 0xFF)),
            1 | 2 => text.push(random.byte_within(b' ', b'~')),
            3 if !option.words.is_empty() => text.extend_from_slice(*random.pick(option.words)),
            _ => text.extend_from_slice(*random.pick(&ALPHABET)),
        }
    }
    text
}
