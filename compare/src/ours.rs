//! The functions of the proved library, behind safe wrappers.
//!
//! Nothing checks these declarations against the Rattle source: names, parameters and results have to be kept in step
//! with `crates/bridge_c/src` by hand. A slice there is a pointer and then a length here, and a `Global` is nothing.

// Without the original there is nothing to hold flags against.
#![cfg_attr(not(original), allow(dead_code))]

unsafe extern "C" {
    fn hakechrome_is_utf8(bytes: *const u8, length: usize) -> bool;

    fn hakechrome_make(
        number: u8,
        argument: *const u8,
        argument_length: usize,
        line: *mut u8,
        line_length: usize,
    ) -> Answer;

    fn hakechrome_calls(
        text: *const u8,
        text_length: usize,
        report: *mut u8,
        report_length: usize,
    ) -> Number;

    fn hakechrome_count(text: *const u8, length: usize) -> Number;
}

/// A number, if there is one: see `crates/bridge/src/calling.rt`.
#[repr(C)]
struct Number {
    given: bool,
    number: usize,
}

/// What became of a call: see `crates/bridge/src/making.rt`.
#[repr(C)]
struct Answer {
    status: u8,
    length: usize,
    place: usize,
}

const NO_FLAG: u8 = 0;
const FLAG: u8 = 1;

/// Enough for the line of any flag of a compared argument: an escape has four bytes.
const LONGEST_LINE: usize = 4096;

pub fn is_utf8(bytes: &[u8]) -> bool {
    // SAFETY: pointer and length are those of a slice that lives through the call, which only reads it.
    unsafe { hakechrome_is_utf8(bytes.as_ptr(), bytes.len()) }
}

/// The line of the first flag that the option with this number gives of the argument, and the place behind it.
pub fn first(number: u8, argument: &[u8]) -> Option<(String, usize)> {
    let mut line = [0; LONGEST_LINE];
    // SAFETY: pointers and lengths are those of slices that live through the call, which reads the first and writes
    // the second.
    let answer = unsafe {
        hakechrome_make(
            number,
            argument.as_ptr(),
            argument.len(),
            line.as_mut_ptr(),
            line.len(),
        )
    };
    match answer.status {
        NO_FLAG => None,
        FLAG => {
            let text = str::from_utf8(&line[..answer.length]).expect("a line is text");
            Some((text.to_owned(), answer.place))
        }
        _ => panic!("no room for the line of {argument:02X?}"),
    }
}

/// The lines of all the flags that an option gives of the argument.
pub fn all(number: u8, is_list: bool, argument: &[u8]) -> Vec<String> {
    let mut lines = Vec::new();
    let mut rest = argument;
    while let Some((line, place)) = first(number, rest) {
        lines.push(line);
        if !is_list {
            break;
        }
        rest = &rest[place..];
    }
    lines
}

/// How many flags the text gives; none where it is refused.
pub fn count(text: &[u8]) -> Option<usize> {
    // SAFETY: pointer and length are those of a slice that lives through the call, which only reads it.
    let answer = unsafe { hakechrome_count(text.as_ptr(), text.len()) };
    answer.given.then_some(answer.number)
}

/// Room for the report of a text.
pub struct Reports {
    buffer: Vec<u8>,
}

/// Enough for the report of any text that is compared, where a flag of one byte has a line of about thirty.
const LONGEST_REPORT: usize = 1 << 22;

impl Reports {
    pub fn new() -> Reports {
        Reports {
            buffer: vec![0; LONGEST_REPORT],
        }
    }

    /// What our reader tells of the text, a line for each call.
    pub fn calls(&mut self, text: &[u8]) -> &str {
        // SAFETY: pointers and lengths are those of slices that live through the call, which reads the first and writes
        // the second.
        let answer = unsafe {
            hakechrome_calls(
                text.as_ptr(),
                text.len(),
                self.buffer.as_mut_ptr(),
                self.buffer.len(),
            )
        };
        assert!(answer.given, "no room for the report of {text:02X?}");
        str::from_utf8(&self.buffer[..answer.number]).expect("a report is text")
    }
}

/// The places of a byte and the cuts there.
pub mod cuts {
    unsafe extern "C" {
        fn hakechrome_find(bytes: *const u8, length: usize, byte: u8) -> Found;
        fn hakechrome_split_once(bytes: *const u8, length: usize, byte: u8) -> Lengths;
        fn hakechrome_starts_with(bytes: *const u8, length: usize, byte: u8) -> bool;
        fn hakechrome_ends_with(bytes: *const u8, length: usize, byte: u8) -> bool;
    }

    #[repr(C)]
    struct Found {
        found: bool,
        place: usize,
    }

    #[repr(C)]
    struct Lengths {
        found: bool,
        front: usize,
        back: usize,
    }

    // SAFETY, of each call here: pointer and length are those of a slice that lives through it, and it only reads.

    pub fn find(bytes: &[u8], byte: u8) -> Option<usize> {
        let answer = unsafe { hakechrome_find(bytes.as_ptr(), bytes.len(), byte) };
        answer.found.then_some(answer.place)
    }

    pub fn split_once(bytes: &[u8], byte: u8) -> Option<(&[u8], &[u8])> {
        let answer = unsafe { hakechrome_split_once(bytes.as_ptr(), bytes.len(), byte) };
        let front = bytes.get(..answer.front)?;
        let back = bytes.get(bytes.len().checked_sub(answer.back)?..)?;
        answer.found.then_some((front, back))
    }

    pub fn starts_with(bytes: &[u8], byte: u8) -> bool {
        unsafe { hakechrome_starts_with(bytes.as_ptr(), bytes.len(), byte) }
    }

    pub fn ends_with(bytes: &[u8], byte: u8) -> bool {
        unsafe { hakechrome_ends_with(bytes.as_ptr(), bytes.len(), byte) }
    }
}
