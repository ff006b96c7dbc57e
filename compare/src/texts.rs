//! Texts as CARGO_ENCODED_RUSTFLAGS has them: all short ones over an alphabet, real-looking ones, ones made of good and
//! bad pieces, and ones near the length at which a text is refused here.

use crate::arguments;
use crate::options::{OPTIONS, Opt};
use crate::random::Random;

/// The byte between arguments.
const SEPARATOR: u8 = 0x1F;

/// The bytes that a text may have here.
pub const LONGEST: usize = 65_535;

/// What short texts are made of. The last two are words that only together give a flag.
const ALPHABET: [&[u8]; 13] = [
    b"\x1f",
    b"-",
    b"=",
    b",",
    b"h",
    b"g",
    b"C",
    b"L",
    b"o",
    "\u{e9}".as_bytes(),
    b"\xff",
    b"--emit",
    b"link",
];

/// The letters of options, each with the number of its code.
const LETTERS: [(u8, u8); 14] = [
    (b'h', 0),
    (b'L', 2),
    (b'l', 3),
    (b'o', 9),
    (b'A', 14),
    (b'W', 15),
    (b'D', 17),
    (b'F', 18),
    (b'C', 20),
    (b'V', 21),
    (b'v', 22),
    (b'Z', 26),
    (b'g', 31),
    (b'O', 32),
];

/// Texts as builds have them, a blank for each separator.
const REAL: [&str; 13] = [
    "-C target-cpu=native",
    "-Ctarget-cpu=x86-64-v3 -Clink-arg=-fuse-ld=lld",
    "--cfg tokio_unstable -Dwarnings",
    "-Zsanitizer=address -Cpasses=sancov-module -Cdebug-assertions --cfg fuzzing",
    "-L native=/usr/lib/x86_64-linux-gnu -l dylib=ssl -l static:+whole-archive,-bundle=z:zlib",
    "--remap-path-prefix=/data/ci/src=/src --remap-path-prefix /data/ci/.cargo=/cargo -Cstrip=symbols",
    "-C link-arg=-Wl,-rpath,$ORIGIN -C relocation-model=pic -C prefer-dynamic",
    "--cap-lints=warn -Aunused -A clippy::all --force-warn dead_code --forbid unsafe_code",
    "--crate-type cdylib,rlib --crate-name ring --edition=2021 --emit=link,dep-info,metadata --out-dir target/debug/deps",
    "--extern serde=target/deps/libserde-1.rlib --extern std --sysroot /usr/rust -Z unstable-options --color always",
    "--target thumbv7em-none-eabihf -C linker=rust-lld -C link-arg=-Tlink.x --error-format=json --json=artifacts",
    "-gOv --print cfg --explain E0308 --test -o a.out",
    "--cfg feature=\"simd\" --cfg target_os=\"na\u{ef}ve\" --extern-location x=json:{} -Cdebuginfo=1 --version",
];

/// A text of 300 bytes, made of what builds have.
pub fn typical() -> Vec<u8> {
    let mut text = real_texts().collect::<Vec<_>>().join(&SEPARATOR);
    text.truncate(300);
    text
}

/// The longest text that is read here, made of what builds have.
pub fn typical_long() -> Vec<u8> {
    let mut text = real_texts().collect::<Vec<_>>().join(&SEPARATOR);
    text.push(SEPARATOR);
    let mut text = text.repeat(LONGEST / text.len() + 1);
    text.truncate(LONGEST);
    text
}

fn real_texts() -> impl Iterator<Item = Vec<u8>> {
    REAL.iter().map(|text| {
        let mut bytes = text.as_bytes().to_vec();
        for byte in &mut bytes {
            if *byte == b' ' {
                *byte = SEPARATOR;
            }
        }
        bytes
    })
}

/// Every text of at most `most` symbols of the alphabet.
pub fn short(most: usize, each: &mut impl FnMut(&[u8])) {
    arguments::extend(&ALPHABET, most, &mut Vec::new(), each);
}

/// The texts of builds, and every text that is one of them cut off.
pub fn real(each: &mut impl FnMut(&[u8])) {
    for text in real_texts() {
        for end in 0..=text.len() {
            each(&text[..end]);
        }
    }
}

/// Texts of one byte less than the longest, of the longest, and of one byte more.
pub fn long(each: &mut impl FnMut(&[u8])) {
    for length in [LONGEST - 1, LONGEST, LONGEST + 1] {
        for (front, filling) in [
            ("", "-"),
            ("", "\x1f"),
            ("-", "g"),
            ("--emit=", ","),
            ("--emit=", "link,"),
            ("-Cx", "y"),
            ("--", "x"),
            ("-o", "\u{e9}"),
            ("", "-C\x1flto\x1f--help\x1f"),
            ("", "x\x1f-ga\x1f--emit=asm,\x1f-"),
        ] {
            let mut text = front.as_bytes().to_vec();
            text.extend(filling.bytes().cycle().take(length - front.len()));
            each(&text);
        }
    }
}

/// A text of up to about twenty arguments.
pub fn any(random: &mut Random) -> Vec<u8> {
    match random.below(4) {
        0 => {
            let text = random.pick(&REAL).replace(' ', "\x1f").into_bytes();
            arguments::damaged(random, &text)
        }
        1 => {
            let text = of_arguments(random);
            arguments::damaged(random, &text)
        }
        _ => of_arguments(random),
    }
}

fn of_arguments(random: &mut Random) -> Vec<u8> {
    let most = *random.pick(&[1, 2, 3, 5, 20]);
    let mut text = Vec::new();
    for place in 0..=random.below(most) {
        if place > 0 {
            text.push(SEPARATOR);
        }
        add_argument(random, &mut text);
    }
    text
}

/// Adds an option in one of its spellings, with an argument or without one, or something that is no option.
fn add_argument(random: &mut Random, text: &mut Vec<u8>) {
    match random.below(16) {
        0 => text.extend_from_slice(*random.pick(&[
            b"".as_slice(),
            b"-",
            b"x",
            b"\xff",
            b"--\x1f",
            b"-\xff",
        ])),
        1 => text.extend_from_slice(*random.pick(&[
            b"--unknown".as_slice(),
            b"--emi",
            b"--=",
            b"--help=",
            b"-x",
            b"-ghx",
        ])),
        2 => add_bare_letters(random, text),
        3..=6 => {
            add_bare_letters(random, text);
            let (letter, number) = *random.pick(&LETTERS);
            text.push(letter);
            add_behind(random, text, &OPTIONS[usize::from(number)], b"");
        }
        7..=9 => {
            let option = random.pick(&OPTIONS);
            text.extend_from_slice(option.spelling.as_bytes());
            add_behind(random, text, option, b"=");
        }
        _ => {
            let (option, argument) = arguments::any(random);
            text.extend_from_slice(option.spelling.as_bytes());
            text.push(if random.below(2) == 0 {
                SEPARATOR
            } else {
                b'='
            });
            text.extend_from_slice(&argument);
        }
    }
}

/// Adds a dash, and some letters of options that take nothing.
fn add_bare_letters(random: &mut Random, text: &mut Vec<u8>) {
    text.push(b'-');
    for _ in 0..random.below(4) {
        text.push(*random.pick(b"hVvgO"));
    }
}

/// Adds one of the option's good arguments behind what ties it to the option, behind a separator, or no argument.
fn add_behind(random: &mut Random, text: &mut Vec<u8>, option: &Opt, tie: &[u8]) {
    if option.is_bare() || random.below(8) == 0 {
        return;
    }
    text.extend_from_slice(if random.below(2) == 0 { tie } else { b"\x1f" });
    text.extend_from_slice(*random.pick(option.good));
}
