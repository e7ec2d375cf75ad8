#!/usr/bin/env python3
"""Spells the repository's own definitions and lemmas in snake case, as Rattle's library does: `areDigits` becomes `are_digits`, and a field
or definition of specs/ `none-before` becomes `none_before`. Types, modules, constructors in capitals (PR, TR), functions of src/, exported
names, strings and comments' plain words keep their spelling. Run once at the top, after the port's own script (docs/PORT.md).
The crate `either` has the name of a library of the kit, and becomes `choice`.

usage: respell.py            prints the names and what would fall together
       respell.py --write    rewrites the files
"""
import glob
import os
import re
import sys

# Where the plain spelling would be another name's, or say too little beside it.
CHOSEN = {
    "afterAll": "sheet_after",
    "byFinding": "counts_by_finding",
    "byVerdict": "counts_by_verdict",
    "byLevel": "counts_by_level",
    "firstOf": "first_record",
    "foundBelow": "is_found_below",
    "noRoom": "without_room",
    "oneOn": "one_later",
    "refusedAs": "refused_with",
    "ownSets": "sets_by_transaction",
    "sheetBytes": "sheet_size",
}

WORD = r"[^\s(){}.;,@\"«»\[\]\\:]+"
DEFINED = re.compile(r"^(\s*)(?:module |field )?((?:abbrev |unfoldable |pub )*)((?:%s )+):(?: |$)" % WORD, re.M)
PARTS = re.compile(r"[A-Z]+(?=[A-Z][a-z])|[A-Z]+|[a-z0-9']*[^A-Z]*")


def files(*patterns):
    return sorted(path for p in patterns for path in glob.glob(p, recursive=True) if "/out/" not in path)


def snake(word):
    """`beginsLF` is begins_lf, `isGRH` is_grh, `recordsInG` records_in_g; a number keeps to the word before it."""
    out = re.sub(r"(?<=[a-z0-9'])(?=[A-Z])", "_", word)
    return re.sub(r"[A-Z]+", lambda m: m.group().lower(), out)


def main(write):
    antt = files("crates/*/specs/**/*.antt", "crates/*/proofs/**/*.antt")
    texts = {path: open(path, encoding="utf-8").read() for path in antt + files("crates/*/src/*.rt", "crates/*/must-fail/*.edit")}
    foreign = set()
    for text in texts.values():
        for path, names in re.findall(r"use ([^\s{]+)\.\{([^}]*)\}", text):
            own = re.match(r"Rattle[.·]", path) and not re.match(r"Rattle[.·](std|core)[.·]", path)
            if not own:
                foreign.update(n.split(" as ")[0].strip() for n in names.split(","))
    names = {}
    for path in antt:
        spec = "/specs/" in path
        for indent, kind, group in DEFINED.findall(texts[path]):
            for name in group.split():
                if name in foreign or "◌" in name or not name[0].islower() or re.search(r"→[A-Z]|_T$", name):
                    continue
                new = CHOSEN.get(name, snake(name))
                if spec and "-" in new:
                    new = new.replace("-", "_")
                if new != name:
                    names[name] = new
    every = set()
    for text in texts.values():
        every.update(re.findall(WORD, text))
    clash = {n: new for n, new in names.items() if new in every}
    twice = {}
    for n, new in names.items():
        twice.setdefault(new, []).append(n)
    for new, old in sorted(twice.items()):
        mark = " TOGETHER" if len(old) > 1 else " IN USE" if new in every else ""
        print(new, *old, mark)
    if not write:
        return
    token = re.compile(WORD)
    for path, text in texts.items():
        def turn(line):
            code, dashes, said = line, "", ""
            at = re.search(r"(^|\s)(--|//)(\s|$)", line) if path.endswith((".antt", ".rt")) else None
            if at:
                code, said = line[: at.start()], line[at.start():]
            pieces = re.split(r'("(?:[^"\\]|\\.)*")', code)
            pieces[::2] = [token.sub(lambda m: names.get(m.group(), m.group()), p) for p in pieces[::2]]
            said = token.sub(lambda m: names.get(m.group(), m.group()) if re.search(r"[a-z][A-Z]", m.group()) else m.group(), said)
            return "".join(pieces) + said
        new = "\n".join(turn(line) for line in text.split("\n"))
        if new != text:
            open(path, "w", encoding="utf-8").write(new)
    if os.path.isdir("crates/either"):
        os.rename("crates/either", "crates/choice")
    for path in files("crates/*/src/*.rt", "crates/*/specs/**/*.antt", "crates/*/proofs/**/*.antt", "crates/*/must-fail/*.edit", "crates.txt"):
        text = open(path, encoding="utf-8").read()
        new = re.sub(r"\beither(?=::)|(?<=Rattle\.)either(?=\.)|(?<=use )either(?=;)", "choice", text)
        if path == "crates.txt":
            new = re.sub(r"\beither\b", "choice", text)
        if new != text:
            open(path, "w", encoding="utf-8").write(new)


main("--write" in sys.argv)
