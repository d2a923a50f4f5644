#!/usr/bin/env python3
"""Respells this repository's own definitions, record fields and lemmas, once, after port.py: words in snake case,
a dash only behind a word that is a name by itself, here or among std's list words. Renames crate log, which is the name of a
library of the kit, to record_log. Run at the top of the repository.

Names of src/ that are no ghost names, strings and printed text keep their spelling. Prints what falls together."""
import collections
import glob
import os
import re

NAME = r"[A-Za-z0-9_'\-]"
TOKEN = re.compile(rf"(?<!{NAME})([A-Za-z_]{NAME}*)")
CAMEL = re.compile(r"[a-z][a-z0-9']*[A-Z]")
STD_WORDS = {"length", "take", "drop", "get_or", "set", "replicate", "map", "sum"}
UNITS = {"nB", "mHz"}  # in strings and comments of src/
# definitions whose snake case would be the name of a function of src/
OWN_NAMES = {
    "blocksIn": "whole_blocks",
    "copyFor": "copy_or_split",
    "faultOf": "store_fault",
    "inTheWay": "is_in_the_way",
    "outOfRange": "address_fault",
    "reportFull": "full_fault",
    "takeAll": "all_taken",
    "takeOne": "one_taken",
    "wordAt": "big_endian_word",
}
NO_NAMES = {"use", "unfolding", "pub", "in", "let", "record", "elim"}
DECLARED = re.compile(
    r"^(  )?(?:abbrev |unfoldable )?(?:pub )?(?:abbrev |unfoldable )?(?:pub )?([a-z][A-Za-z0-9_'\-]*)\s*(?::(?!:)|$)")


def files():
    kinds = ("crates/*/specs/**/*.antt", "crates/*/proofs/**/*.antt", "crates/*/src/**/*.rt")
    return sorted(p for k in kinds for p in glob.glob(k, recursive=True))


def declared(paths):
    """The names that files of specs/ and shared files of proofs/ declare, also in a module with parameters, without the
    goals that answers name."""
    names, within = set(), set()
    for path in paths:
        if path.endswith((".rt", "Invariants.antt")):
            continue
        answers = path.endswith("Answers.antt")
        for line in open(path, encoding="utf-8"):
            found = DECLARED.match(line)
            if found and not (answers and (found.group(1) or "goal." in line)):
                (within if found.group(1) else names).add(found.group(2))
    return names - NO_NAMES, within - NO_NAMES


def snake(word):
    word = word.replace("getD", "get_or")
    return re.sub(r"(?<=[a-z0-9'])([A-Z])", lambda m: "_" + m.group(1).lower(), word)


def renaming(paths):
    names, within = declared(paths)
    tokens = collections.Counter()
    for path in paths:
        tokens.update(TOKEN.findall(open(path, encoding="utf-8").read()))
    old = {n for n in names | within if "-" in n or CAMEL.match(n)}
    old |= {t for t in tokens if t[0].islower() and CAMEL.match(t.split("-")[0]) and t not in UNITS}
    known = STD_WORDS | {snake(n) for n in names if "-" not in n}
    new = {}
    for name in sorted(old):
        parts = [snake(p) for p in name.split("-")]
        text = parts[0]
        for before, part in zip(parts, parts[1:]):
            text += ("-" if before in known else "_") + part
        new[name] = OWN_NAMES.get(name, text)
    return {a: b for a, b in new.items() if a != b}, tokens


def respell(text, new):
    return TOKEN.sub(lambda m: new.get(m.group(1), m.group(1)), text)


def rename_crate(old, name):
    if not os.path.isdir(f"crates/{old}"):
        return
    os.rename(f"crates/{old}", f"crates/{name}")
    for path in files():
        text = open(path, encoding="utf-8").read()
        out = re.sub(rf"\bRattle\.{old}\.", f"Rattle.{name}.", text)
        out = re.sub(rf"(?m)^use {old}::", f"use {name}::", out)
        if out != text:
            open(path, "w", encoding="utf-8").write(out)
    for path in ("crates.txt", "tests/run"):
        text = open(path, encoding="utf-8").read()
        open(path, "w", encoding="utf-8").write(re.sub(rf"(?<![\w.]){old}(?=[ :\n])", name, text))


def main():
    paths = files()
    new, tokens = renaming(paths)
    targets = collections.Counter(new.values())
    for old, name in sorted(new.items()):
        if targets[name] > 1 or name in tokens:
            print(f"falls together: {old} -> {name} ({tokens[name]} uses before)")
    for path in paths:
        text = open(path, encoding="utf-8").read()
        if path.endswith(".rt"):
            # clauses and ghost items, comments: everything but strings
            parts = re.split(r'("(?:[^"\\]|\\.)*")', text)
            out = "".join(p if i % 2 else respell(p, new) for i, p in enumerate(parts))
        else:
            out = respell(text, new)
        if out != text:
            open(path, "w", encoding="utf-8").write(out)
    rename_crate("log", "record_log")
    print(f"{len(new)} names respelt")


if __name__ == "__main__":
    main()
