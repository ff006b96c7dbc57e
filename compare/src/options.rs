//! The options by the numbers of their codes: how the original is asked for each, and good arguments.

pub enum Takes {
    Nothing,
    List,
    One,
}

pub struct Opt {
    /// The number of its code.
    pub number: u8,
    /// The spelling behind which the original reads an argument.
    pub spelling: &'static str,
    pub takes: Takes,
    /// Good arguments, each of which gives a flag.
    pub good: &'static [&'static [u8]],
    /// Short texts that mean something to this option alone.
    pub words: &'static [&'static [u8]],
}

const fn bare(number: u8, spelling: &'static str) -> Opt {
    Opt {
        number,
        spelling,
        takes: Takes::Nothing,
        good: &[],
        words: &[],
    }
}

const fn one(
    number: u8,
    spelling: &'static str,
    good: &'static [&'static [u8]],
    words: &'static [&'static [u8]],
) -> Opt {
    Opt {
        number,
        spelling,
        takes: Takes::One,
        good,
        words,
    }
}

const fn list(
    number: u8,
    spelling: &'static str,
    good: &'static [&'static [u8]],
    words: &'static [&'static [u8]],
) -> Opt {
    Opt {
        number,
        spelling,
        takes: Takes::List,
        good,
        words,
    }
}

const LINTS: &[&[u8]] = &[
    b"dead_code",
    b"clippy::all",
    b"warnings",
    "caf\u{e9}".as_bytes(),
];

pub const OPTIONS: [Opt; 33] = [
    bare(0, "--help"),
    one(
        1,
        "--cfg",
        &[
            b"tokio_unstable",
            b"feature=\"simd\"",
            b"a=\"\"",
            b"target_os=\"caf\xc3\xa9\"",
        ],
        &[],
    ),
    one(
        2,
        "-L",
        &[
            b"native=vendor/lib",
            b"dependency=a=b",
            b"all=",
            b"crate=\xff",
            b"framework=.",
            b"target/debug",
        ],
        &[b"native", b"all"],
    ),
    one(
        3,
        "-l",
        &[
            b"static:+whole-archive,-bundle=z:zlib",
            b"framework=Cocoa",
            b"dylib:+verbatim,+as-needed,-verbatim=ssl",
            b"static:-as-needed,+bundle,-whole-archive=a:",
            b"pthread",
            b"z:zlib",
        ],
        &[b"static", b"bundle"],
    ),
    list(
        4,
        "--crate-type",
        &[
            b"bin",
            b"lib,rlib",
            b"dylib,cdylib,staticlib",
            b"proc-macro,bin,zz,lib",
        ],
        &[b"bin", b"cdylib"],
    ),
    one(5, "--crate-name", &[b"serde", "na\u{ef}ve".as_bytes()], &[]),
    one(
        6,
        "--edition",
        &[
            b"2015", b"2018", b"2021", b"+02021", b"65535", b"65536", b"0",
        ],
        &[b"6553", b"6"],
    ),
    list(
        7,
        "--emit",
        &[
            b"link",
            b"asm,llvm-bc,llvm-ir",
            b"obj,metadata,link,dep-info,mir",
            b"zz,link,,asm",
        ],
        &[b"link", b"asm"],
    ),
    one(
        8,
        "--print",
        &[b"cfg", b"target-list", b"native-static-libs"],
        &[],
    ),
    one(9, "-o", &[b"a.out", b"target/x\xff.o", b"a//b"], &[]),
    one(10, "--out-dir", &[b"target/debug", b"\xfe", b"a/./b/"], &[]),
    one(11, "--explain", &[b"E0308"], &[]),
    bare(12, "--test"),
    one(
        13,
        "--target",
        &[b"x86_64-unknown-linux-gnu", b"a.json"],
        &[],
    ),
    one(14, "--allow", LINTS, &[]),
    one(15, "--warn", LINTS, &[]),
    one(16, "--force-warn", LINTS, &[]),
    one(17, "--deny", LINTS, &[]),
    one(18, "--forbid", LINTS, &[]),
    one(
        19,
        "--cap-lints",
        &[b"allow", b"warn", b"deny", b"forbid"],
        &[b"warn"],
    ),
    one(
        20,
        "--codegen",
        &[
            b"opt-level=3",
            b"target-cpu=native",
            b"link-arg=-Wl,-rpath=/x",
            b"lto",
            b"debuginfo=",
        ],
        &[],
    ),
    bare(21, "--version"),
    bare(22, "--verbose"),
    one(
        23,
        "--extern",
        &[
            b"serde=deps/libserde-\xff.rlib",
            b"std",
            b"priv:a=b=c",
            b"noprelude:x=",
        ],
        &[],
    ),
    one(
        24,
        "--extern-location",
        &[b"a=json:{\"x\":1}", b"caf\xc3\xa9=b=c", b"x=\xff"],
        &[],
    ),
    one(25, "--sysroot", &[b"/usr", b"\xff/rust"], &[]),
    one(26, "-Z", &[b"sanitizer=address", b"unstable-options"], &[]),
    one(
        27,
        "--error-format",
        &[b"human", b"json", b"short"],
        &[b"json"],
    ),
    one(28, "--json", &[b"diagnostic-short,artifacts"], &[]),
    one(29, "--color", &[b"auto", b"always", b"never"], &[b"auto"]),
    one(
        30,
        "--remap-path-prefix",
        &[
            b"src=crate",
            b"a=b=c",
            b"/data/x=/",
            b"\xff=\xfe",
            b"=",
            b"a\\b=c\"d",
        ],
        &[],
    ),
    bare(31, "-g"),
    bare(32, "-O"),
];

impl Opt {
    pub fn is_list(&self) -> bool {
        matches!(self.takes, Takes::List)
    }

    pub fn is_bare(&self) -> bool {
        matches!(self.takes, Takes::Nothing)
    }
}
