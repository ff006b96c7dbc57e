//! What the original answers, and its flags in lines as ours are written.

use crate::options::Opt;
use rustflags::{Flag, LinkModifier, LinkModifierPrefix};
use std::ffi::OsStr;
use std::fmt::Display;
use std::os::unix::ffi::OsStrExt;
use std::path::Path;

const SEPARATOR: u8 = 0x1F;

/// One call of the original's reader: the flag that it gave, and whether the text is read to its end then.
pub struct Call {
    pub flag: Option<Flag>,
    pub ended: bool,
}

/// How often a reader is called after it gave no flag.
const CALLS_BEHIND_THE_END: usize = 2;

/// The calls of a reader of the text until it gives no flag, and some more.
pub fn calls(text: &[u8]) -> Vec<Call> {
    let mut reader = rustflags::from_encoded(OsStr::from_bytes(text));
    let mut calls = Vec::new();
    let mut behind = 0;
    while behind <= CALLS_BEHIND_THE_END {
        let flag = reader.next();
        if flag.is_none() || behind > 0 {
            behind += 1;
        }
        calls.push(Call {
            flag,
            ended: reader.has_ended(),
        });
    }
    calls
}

/// How many flags the original gives of a text.
pub fn count(text: &[u8]) -> usize {
    rustflags::from_encoded(OsStr::from_bytes(text)).count()
}

/// All the flags that the original gives of an argument, which holds no separator.
pub fn all(option: &Opt, argument: &[u8]) -> Vec<Flag> {
    let mut text = option.spelling.as_bytes().to_vec();
    if !option.is_bare() {
        text.push(SEPARATOR);
        text.extend_from_slice(argument);
    }
    rustflags::from_encoded(OsStr::from_bytes(&text)).collect()
}

pub fn line(flag: &Flag) -> String {
    match flag {
        Flag::Help => "Help".to_owned(),
        Flag::Cfg { name, value } => pair("Cfg", name, value.as_deref().map(str::as_bytes)),
        Flag::LibrarySearchPath { kind, path } => {
            format!("LibrarySearchPath {kind} {}", quoted(path_bytes(path)))
        }
        Flag::Link {
            kind,
            modifiers,
            name,
            rename,
        } => format!(
            "Link {kind} [{}] {} {}",
            listed(modifiers),
            quoted(name.as_bytes()),
            or_dash(rename.as_deref().map(str::as_bytes))
        ),
        Flag::CrateType(name) => word("CrateType", name),
        Flag::CrateName(text) => one("CrateName", text.as_bytes()),
        Flag::Edition(year) => word("Edition", year),
        Flag::Emit(name) => word("Emit", name),
        Flag::Print(text) => one("Print", text.as_bytes()),
        Flag::Out(path) => one("Out", path_bytes(path)),
        Flag::OutDir(path) => one("OutDir", path_bytes(path)),
        Flag::Explain(text) => one("Explain", text.as_bytes()),
        Flag::Test => "Test".to_owned(),
        Flag::Target(text) => one("Target", text.as_bytes()),
        Flag::Allow(text) => one("Allow", text.as_bytes()),
        Flag::Warn(text) => one("Warn", text.as_bytes()),
        Flag::ForceWarn(text) => one("ForceWarn", text.as_bytes()),
        Flag::Deny(text) => one("Deny", text.as_bytes()),
        Flag::Forbid(text) => one("Forbid", text.as_bytes()),
        Flag::CapLints(name) => word("CapLints", name),
        Flag::Codegen { opt, value } => pair("Codegen", opt, value.as_deref().map(str::as_bytes)),
        Flag::Version => "Version".to_owned(),
        Flag::Verbose => "Verbose".to_owned(),
        Flag::Extern { name, path } => pair("Extern", name, path.as_deref().map(path_bytes)),
        Flag::ExternLocation { name, location } => {
            pair("ExternLocation", name, Some(location.as_bytes()))
        }
        Flag::Sysroot(path) => one("Sysroot", path_bytes(path)),
        Flag::Z(text) => one("Z", text.as_bytes()),
        Flag::ErrorFormat(name) => word("ErrorFormat", name),
        Flag::Json(text) => one("Json", text.as_bytes()),
        Flag::Color(name) => word("Color", name),
        Flag::RemapPathPrefix { from, to } => remapped(path_bytes(from), path_bytes(to)),
        _ => panic!("the original has a kind that is not compared: {flag:?}"),
    }
}

pub fn remapped(from: &[u8], to: &[u8]) -> String {
    format!("RemapPathPrefix {} {}", quoted(from), quoted(to))
}

pub fn path_bytes(path: &Path) -> &[u8] {
    path.as_os_str().as_bytes()
}

fn word(kind: &str, word: impl Display) -> String {
    format!("{kind} {word}")
}

fn one(kind: &str, bytes: &[u8]) -> String {
    format!("{kind} {}", quoted(bytes))
}

fn pair(kind: &str, name: &str, other: Option<&[u8]>) -> String {
    format!("{kind} {} {}", quoted(name.as_bytes()), or_dash(other))
}

fn or_dash(bytes: Option<&[u8]>) -> String {
    bytes.map_or("-".to_owned(), quoted)
}

fn listed(modifiers: &[(LinkModifierPrefix, LinkModifier)]) -> String {
    let words: Vec<String> = modifiers
        .iter()
        .map(|(sign, name)| format!("{sign}{name}"))
        .collect();
    words.join(",")
}

fn quoted(bytes: &[u8]) -> String {
    let mut text = String::from("\"");
    for &byte in bytes {
        match byte {
            b'"' | b'\\' => {
                text.push('\\');
                text.push(char::from(byte));
            }
            b' '..=b'~' => text.push(char::from(byte)),
            _ => text.push_str(&format!("\\x{byte:02x}")),
        }
    }
    text.push('"');
    text
}
