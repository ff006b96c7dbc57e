#!/usr/bin/env python3
"""Respells this repository's own definitions and lemmas as Rattle spells names today: a type in upper camel case, any other
name in snake case, and a dash only between two names, as in length-cut_up. To be run once, at the top, behind the kit's own
script. Functions of src/, strings and comments keep their text, and so do the names that Rattle gives to goals.

usage: respell.py STD      STD is the folder of Rattle's library, whose names are told apart from ours
"""
import glob
import os
import re
import sys

# a name of antt: letters, digits, `_`, `-`, `'` and what else is no bracket, comma, dot, colon or white space
NAME = r"[^\s(){}\[\].,;:λ=|\"]+"
DECLARED = re.compile(r"^[ \t]*(?:(?:pub|abbrev|unfoldable|record|data|open|private) )*(?P<n>[A-Za-z]" + NAME[:-1] + r"*)(?= [^=\n]*: |(?: [^=\n]*)?:$)", re.M)
LIST = re.compile(r"(?:ghost )?use (?P<m>Rattle\.[\w.]+?)\.\{(?P<n>[^}]*)\}")
BINDER = re.compile(r"[({ ](?P<n>[a-z][a-z0-9]*(?:-[a-z0-9]+)+)(?= [^(){}]*: )|\bas (?P<m>[a-z]+-[a-z]+)$", re.M)
WORDS = {"length", "drop", "take", "nth", "set", "append", "cons", "map", "mapped", "pieces", "arguments", "occurrences", "holds", "joined", "utf8"}


def files(root, ends):
    found = []
    for e in ends:
        found += glob.glob(os.path.join(root, "**", "*" + e), recursive=True)
    return sorted(f for f in found if "/out/" not in f)


def read(path):
    with open(path, encoding="utf-8") as f:
        return f.read()


def declared(text):
    clean = blank(text)
    return {m["n"] for m in DECLARED.finditer(clean)} | {m["n"] or m["m"] for m in BINDER.finditer(clean)}


def blank(text):
    """The text with strings and comments blanked, at the same places."""
    return re.sub(r'"(?:\\.|[^"\\\n])*"|(?:^|(?<=\s))(?:--|//)[^\n]*', lambda m: " " * len(m[0]), text)


def goals(text):
    """The names of goals that a proof file answers: those that it takes from Goals or Given."""
    return set(re.findall(r"\b(?:goal|need|given)\.([^\s(){}\[\].,;:]+)", text))


def respelled(name, functions):
    parts = name.split("-")
    if name[0].isupper():
        return parts[0] + "".join(p[:1].upper() + p[1:] for p in parts[1:])
    out, at, behind_name = "", 0, False
    while at < len(parts):
        for n in range(len(parts) - at, 0, -1):
            word = "_".join(parts[at : at + n])
            if word in functions:
                break
        else:
            n, word = 1, parts[at]
        is_name = word in functions
        if out:
            out += "-" if is_name and behind_name else "_"
        out += word
        at += n
        behind_name = is_name
    return out


def main():
    std = sys.argv[1]
    theirs = set()
    for f in files(std, [".antt"]):
        theirs |= {n for n in declared(read(f)) if "-" in n}
    sources = files("crates", [".antt", ".rt"])
    texts = {f: read(f) for f in sources}
    owns = {}
    for f, t in texts.items():
        if f.endswith(".antt"):
            owns[f] = {n for n in declared(t) if "-" in n} - goals(t)
    specs = set()
    for f, t in texts.items():
        if "/specs/" in f:
            specs |= {n.replace("-", "_") for n in declared(t) if n[0].islower()}
    functions = WORDS | {n for n in specs if "_" in n}
    defined = {n for t in texts.values() for n in re.findall(r"^[ \t]*abbrev (?:pub )?([a-z][\w'-]*) ", t, re.M)}
    ours = set().union(*owns.values())
    mapping = {}
    for n in sorted(ours):
        plain = n in defined or any(n in owns[f] for f in owns if "/specs/" in f)
        mapping[n] = n.replace("-", "_") if plain and n[0].islower() else respelled(n, functions)
    changed = 0
    for f, t in texts.items():
        here = set(owns.get(f, ()))
        for m in LIST.finditer(t):
            crate = m["m"].split(".")[1]
            if os.path.isdir(os.path.join("crates", crate)):
                here |= {w.split(" as ")[0].strip() for w in m["n"].split(",")}
        names = {n for n in mapping if n not in theirs or n in here}
        names -= goals(t) if f.endswith(".antt") else set()
        clean = blank(t)
        out, at = [], 0
        for m in re.finditer(r"(?<![\w\-'·◌])[A-Za-z][\w'-]*(?![\w'·◌])", clean):
            if m[0] in names and mapping[m[0]] != m[0]:
                out += [t[at : m.start()], mapping[m[0]]]
                at = m.end()
        if out:
            new = "".join(out) + t[at:]
            old_words = set(re.findall(r"[A-Za-z][\w'-]*", clean))
            for n in names & old_words:
                if mapping[n] != n and mapping[n] in old_words:
                    print(f"look: {f}: '{n}' becomes '{mapping[n]}', which stands there too")
            with open(f, "w", encoding="utf-8") as w:
                w.write(new)
            changed += 1
    back = {}
    for n, m in mapping.items():
        back.setdefault(m, []).append(n)
    for m, ns in back.items():
        if len(ns) > 1:
            print(f"look: {' and '.join(ns)} fall together as '{m}'")
    print(f"respell: {sum(n != m for n, m in mapping.items())} names in {changed} files")


main()
