#!/usr/bin/env python3
"""Brings the repository's own definitions and lemmas to today's spelling: words in snake case, types in camel case.

usage: python3 tools/respell.py        at the top of the repository, right after /opt/rattle/port/port.py, once

A name is the repository's own if it has a dash and stands in a file of specs/ or in a lemma file of proofs/, and no file
imports it from the library. Strings and the answer files' own labels keep their names; Rust code has no word with a dash.
"""
import collections
import glob
import re

DASHED = r"[A-Za-z][A-Za-z0-9_']*(?:-[A-Za-z0-9_']+)+"
# what an import of the library begins with
LIBRARY = r"^use (?:Rattle\.std|lib|native|borrow|mathlib|Prim)[\w.]*\.\{([^}]*)\}"
# a name that would fall together with another one in the same scope, one without a second word, and a variable
APART = {"Multiple-elsewhere": "IsMultipleElsewhere", "summed-++": "summed_append", "Filled-in": "filled"}


def read(path):
    with open(path, encoding="utf-8") as f:
        return f.read()


def is_answer(path):
    return path.endswith(("/Answers.antt", "/Invariants.antt"))


def bare(text):
    return re.sub(r"--.*", "", text)


def own_names(antt):
    library, own = set(), set()
    for path in antt:
        text = read(path)
        for m in re.finditer(LIBRARY, text, re.M):
            library |= set(re.findall(DASHED, m.group(1)))
        if not is_answer(path):
            own |= set(re.findall(DASHED, bare(text)))
    return own - library


def respelled(name):
    if name in APART:
        return APART[name]
    if name[0].isupper():
        return "".join(w[0].upper() + w[1:] for w in name.split("-"))
    return name.replace("-", "_")


def turn(text, own):
    text = text.replace("summed-++", APART["summed-++"])
    return re.sub(r"(?<![A-Za-z0-9_'-])" + DASHED + r"(?![A-Za-z0-9_'-])", lambda m: respelled(m.group(0)) if m.group(0) in own else m.group(0), text)


def turn_source(text, own):
    """Outside strings; a dashed word in Rust code is a difference without spaces, which the layout never has."""
    return "".join(part if part.startswith('"') else turn(part, own) for part in re.split(r'("(?:[^"\\\n]|\\.)*")', text))


def main():
    antt = sorted(glob.glob("crates/*/specs/**/*.antt", recursive=True) + glob.glob("crates/*/proofs/**/*.antt", recursive=True))
    own = own_names(antt)
    new = collections.defaultdict(set)
    for name in own:
        new[respelled(name)].add(name)
    for name, old in sorted(new.items()):
        if len(old) > 1:
            raise SystemExit(f"respell: {sorted(old)} fall together as {name}")
    for path in antt:
        write(path, turn(read(path), own))
    for path in glob.glob("crates/*/src/**/*.rt", recursive=True) + glob.glob("crates/*/must-fail/*.edit"):
        write(path, turn_source(read(path), own))


def write(path, text):
    if text != read(path):
        with open(path, "w", encoding="utf-8") as f:
            f.write(text)


main()
