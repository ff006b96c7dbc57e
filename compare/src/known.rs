//! The known differences between the flags of both sides, by rule: docs/DIFFERENCES.md has the reasons.

use crate::tally::Known;
use crate::theirs::{line, path_bytes, remapped};
use rustflags::{CrateType, Flag};
use std::collections::BTreeSet;

/// A flag that the two sides are known to write differently, and both lines.
struct Difference {
    reason: &'static str,
    ours: String,
    theirs: String,
}

/// The difference that is known for answers to one input, if there is one for any of its flags. `write` makes an answer
/// of the flags, given the line of each.
pub fn difference<'a, A>(
    flags: impl Iterator<Item = &'a Flag>,
    write: impl Fn(fn(&Flag) -> String) -> A,
) -> Option<Known<A>> {
    let reasons: BTreeSet<&str> = flags.filter_map(of_flag).map(|it| it.reason).collect();
    if reasons.is_empty() {
        return None;
    }
    Some(Known {
        reasons,
        ours: write(our_line),
        theirs: write(their_line),
    })
}

fn our_line(flag: &Flag) -> String {
    of_flag(flag).map_or_else(|| line(flag), |it| it.ours)
}

fn their_line(flag: &Flag) -> String {
    of_flag(flag).map_or_else(|| line(flag), |it| it.theirs)
}

fn of_flag(flag: &Flag) -> Option<Difference> {
    match flag {
        Flag::CrateType(CrateType::Cdylib) => Some(Difference {
            reason: "the crate type that is read as `cdylib` is written `cdylib` here, and `Cdylib` there",
            ours: "CrateType cdylib".to_owned(),
            theirs: "CrateType Cdylib".to_owned(),
        }),
        Flag::RemapPathPrefix { from, to } => remap(path_bytes(from), path_bytes(to)),
        _ => None,
    }
}

/// The original cuts a remap at the first `=`, so where TO has one, its argument has two.
fn remap(from: &[u8], to: &[u8]) -> Option<Difference> {
    if !to.contains(&b'=') {
        return None;
    }
    let argument = [from, b"=", to].concat();
    let first = argument.iter().position(|&byte| byte == b'=')?;
    let last = argument.iter().rposition(|&byte| byte == b'=')?;
    let cut_at = |place: usize| remapped(&argument[..place], &argument[place + 1..]);
    Some(Difference {
        reason: "a remap with two `=` is cut at the last one here, and at the first one there",
        ours: cut_at(last),
        theirs: cut_at(first),
    })
}
