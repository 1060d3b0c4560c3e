#!/usr/bin/env python3
"""Counts, in src/, the places that read like an older language: `python3 tools/places.py [COMMIT]` (the working tree
where no commit is named). docs/DESIGN-PASS.md says what each kind is. With --list it prints every place."""
import re
import subprocess
import sys

ONE_LINE = {
    "1b a number of an enum compared, or indexed by":
        r"(number|code)\(\) (==|<=)|(<=|==) .*(number|code)\(\)|<= number|match .*number\(\)|SENTENCES: ",
    "1c an Option in an Option, or around a Result": r"Option<Option<|Option<Result<",
    "1d a flag beside the value that it qualifies": r"refused: bool",
    "1e a number that is returned for nothing": r"\(\) -> u8$",
    "3a while and loop": r"\bwhile\b|\bloop \{",
    "3b for over a range of places": r"for [a-z_]+ in [^{]*\.\.",
    "3c enumerate": r"\.enumerate\(\)",
    "4 equality, conversion and printing by hand":
        r"\bfn (is_same|from_code|from_number|view|bytes_of|held_name|placed|marked|done|place|take_long|take_letter"
        r"|sentence|refusal_words|kind_letter|kind_word|list_word|say_[a-z_]+|unreadable|maybe_entry|entry_text"
        r"|breach_text)\b",
    "5a a requirement on a place and its record": r"requires.*(Shows|stands \{)",
    "5b a clause or invariant on a capacity": r"vec_capacity .*[≤≡]|[≤≡<] vec_capacity",
    "6 a buffer with a length, a pair of offsets, a table by number":
        r"\[u8; (?:3[23]|MOST)\],|\[UNUSED; |room: &|\bstart: usize|\bend: usize,|\bleft: usize|: \[&str; 52\]",
    "7 a switch on what to run": r"\b(enum|const) (Part|PARTS|Known|Run|Layers)\b|match (part|layers) \{",
}
MANY_LINES = {
    "1a a bool that says whether to go on": r"-> bool\n(?:    requires[^\n]*\n)*    ensures took[^\n]*\n    ensures goes|-> bool\n        ensures took[^\n]*\n        ensures goes",
    "3d a search or count in a hand-written loop":
        r"\n( +)for [^\n]*\{\n(?:\1 [^\n]*\n)*?\1 +(?:return (?:true|Some|Ok|i|name|letter)\b|count \+=|total =)",
}


def read(commit):
    if commit is None:
        names = subprocess.run(["git", "ls-files", "crates/*/src/*.rt"], capture_output=True, text=True, check=True)
        return {n: open(n, encoding="utf-8").read() for n in names.stdout.split()}
    names = subprocess.run(["git", "ls-tree", "-r", "--name-only", commit, "crates"], capture_output=True, text=True, check=True)
    found = [n for n in names.stdout.split() if re.fullmatch(r"crates/[^/]+/src/.*\.rt", n)]
    return {n: subprocess.run(["git", "show", f"{commit}:{n}"], capture_output=True, text=True, check=True).stdout for n in found}


def places(texts, pattern):
    for name, text in sorted(texts.items()):
        for m in re.finditer(pattern, text, re.M):
            yield name, text.count("\n", 0, m.start()) + 1


def main():
    args = [a for a in sys.argv[1:] if a != "--list"]
    texts = read(args[0] if args else None)
    for title, pattern in sorted((ONE_LINE | MANY_LINES).items()):
        found = list(places(texts, pattern))
        print(f"{len(found):4}  {title}")
        if "--list" in sys.argv:
            for name, line in found:
                print(f"        {name}:{line}")


main()
