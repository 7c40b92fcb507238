#!/usr/bin/env python3
"""Brings the repository's own definitions and lemmas to one spelling: words in snake case, facts in camel case.

usage: python3 tools/respell.py            at the top of a repository, once, right after the toolchain's own port script

It collects every name that a file of specs/ or proofs/ declares (definitions, constructors, record fields, lemmas),
and writes each one anew wherever it stands as a whole name in .antt files, in the ghost lines and clauses of .rt files,
in the edits of must-fail/, and between back quotes in README.md and docs/. Functions of src/, strings, inputs and outputs keep their names.

  set-of -> set_of          a function, a lemma, a field or a constructor
  One-reading -> OneReading  a fact
  T-left, Play-is-Run        a lemma whose dash joins a fact to a name keeps it

The answers to goals (signatures of the form 'pub x : goal.x') are the toolchain's names and stay as they are.
It stops, with nothing changed, where two names would fall together.
"""

import glob
import re
import sys

SIGNATURE = re.compile(r"^\s*(?:abbrev |unfoldable )?(?:pub )?(?:abbrev |unfoldable |data |record )?(?:pub )?([^\s(){}.;,:]+)\s*(?:\([^=]*)?:\s(.*)$")
# A name ends where neither a letter, a digit, nor a sign that names may hold stands.
PART = r"[\w\-'′·+]"
# What imports are called in one file alone, so that two of them may be called alike.
ALIASES = {"cacheOf": "cache_of", "cache-of": "cache_of", "Cells-of": "cells_of", "offset-of": "offset_of", "width_of_lem": "width_of"}


def declared():
    """Each declared name, with whether it is a fact: a name whose own type ends in Type."""
    names = {}
    for path in sorted(glob.glob("crates/*/specs/**/*.antt", recursive=True) + glob.glob("crates/*/proofs/**/*.antt", recursive=True)):
        with open(path, encoding="utf-8") as f:
            for line in f:
                found = SIGNATURE.match(line)
                if found and not line.startswith("--") and not found[2].startswith("goal."):
                    names.setdefault(found[1], []).append(bool(re.search(r"Type 0\s*(where)?\s*$", found[2])))
    return names


def respelled(name, is_fact):
    if "-" not in name:
        return name
    if name[0].isupper():
        return "".join(w[0].upper() + w[1:] for w in name.split("-")) if is_fact else name
    return name.replace("-", "_")


def pairs():
    names = declared()
    turned = {n: respelled(n, all(facts)) for n, facts in names.items()}
    new = {n: m for n, m in turned.items() if n != m}
    new.update(ALIASES)
    seen = {}
    for n, m in turned.items():
        if m in seen:
            sys.exit(f"respell: {seen[m]} and {n} would both be {m}; nothing was changed")
        seen[m] = n
    return new


def replacer(new):
    some = "|".join(re.escape(n) for n in sorted(new, key=len, reverse=True))
    one = re.compile(rf"(?<!{PART})(?:{some})(?!{PART})")
    return lambda text: one.sub(lambda m: new[m[0]], text)


def turn_source(text, turn):
    """In a .rt file only ghost lines and clauses speak of definitions: the braces behind ghost, requires and ensures."""
    out = []
    for line in text.split("\n"):
        speaks = re.match(r"\s*(pub )?(ghost|requires|ensures|//)", line) or re.search(r"\b(requires|ensures|ghost)\b.*\{", line)
        out.append(turn(line) if speaks and not line.lstrip().startswith("//") else line)
    return "\n".join(out)


def rewrite(path, change):
    with open(path, encoding="utf-8") as f:
        old = f.read()
    new = change(old)
    if new != old:
        with open(path, "w", encoding="utf-8") as f:
            f.write(new)
    return new != old


def main():
    new = pairs()
    turn = replacer(new)
    changed = 0
    for path in sorted(glob.glob("crates/**/*.antt", recursive=True)):
        changed += rewrite(path, turn)
    for path in sorted(glob.glob("crates/*/src/**/*.rt", recursive=True)):
        changed += rewrite(path, lambda t: turn_source(t, turn))
    for path in sorted(glob.glob("crates/*/must-fail/*.edit")):
        changed += rewrite(path, turn)
    for path in ["README.md", *sorted(glob.glob("docs/*.md"))]:
        changed += rewrite(path, lambda t: re.sub(r"`[^`\n]*`", lambda m: turn(m[0]), t))
    print(f"respell: {len(new)} names, {changed} files")


if __name__ == "__main__":
    main()
