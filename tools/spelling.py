#!/usr/bin/env python3
"""Brings the repository's own definitions and lemmas to today's spelling: words in snake case, a prime as an apostrophe.

usage: python3 tools/spelling.py [--list]      in the repository, after /opt/rattle/port/port.py, once

A name counts as the repository's own where a file of specs/ or proofs/ declares it and it isn't the answer to a goal
(those are declared at `goal.NAME` and take their names from the code). Types and facts, in upper camel case, keep their names;
so do the functions of src/, strings, inputs and outputs. `--list` prints what would be renamed and names that would fall together.
"""
import glob
import os
import re
import sys

# A lemma that would get the name of the definition that it speaks of gets `_lem` after it, also where port.py respelled it already.
LEMMAS = {"fresh-unit": "fresh_unit_lem", "read-in": "read_in_lem", "unit-text": "unit_text_lem"}
LEMMAS_OF_FILES = {
    "crates/file_rig/specs/Soundness.antt": {"same_kind": "same_kind_lem"},
    "crates/memory/proofs/Reading.antt": {"filled_at": "filled_at_lem"},
}
ALIASES = {"lineCode": "line_code"}

NAME = r"[A-Za-z][A-Za-z0-9_'\u2032-]*"
DECLARED = re.compile(rf"^\s*(?:abbrev\s+|unfoldable\s+)?(?:pub\s+)?(?:abbrev\s+|unfoldable\s+)?({NAME}) :(?!:)\s*(.*)$")
TOKEN = re.compile(rf"(?<![A-Za-z0-9_'\u2032-]){NAME}")


def antt_files():
    return sorted(glob.glob("crates/*/specs/**/*.antt", recursive=True) + glob.glob("crates/*/proofs/**/*.antt", recursive=True))


def rt_files():
    return sorted(glob.glob("crates/*/src/**/*.rt", recursive=True))


def snake(name):
    name = name.replace("\u2032", "'").replace("-", "_")
    return re.sub(r"(?<=[a-z0-9])([A-Z])", lambda m: "_" + m.group(1).lower(), name)


def declared():
    own = {}
    for path in antt_files():
        for line in open(path, encoding="utf-8"):
            m = DECLARED.match(line)
            if not m or m.group(2).startswith("goal."):
                continue
            name = m.group(1)
            if name[0].isupper() or snake(name) == name:
                continue
            own.setdefault(name, set()).add(path)
    return own


def main():
    own = declared()
    files = antt_files() + rt_files()
    seen = {}
    for path in files:
        for token in TOKEN.findall(open(path, encoding="utf-8").read()):
            seen.setdefault(token, set()).add(path)
    if "--list" in sys.argv:
        new = {}
        for name in own:
            new.setdefault(LEMMAS.get(name, snake(name)), []).append(name)
        for to, names in sorted(new.items()):
            if len(names) > 1:
                print("together:", to, names)
            if to in seen:
                print("stands already:", to, "from", names, "in", sorted(seen[to])[:6], "declared in", sorted(own[names[0]])[:3])
        for token in sorted(seen):
            if token not in own and not token[0].isupper() and re.search(r"[a-z][A-Z]", token):
                print("left:", token, sorted(seen[token])[:3])
        print(len(own), "names")
        return
    for path in files:
        with open(path, encoding="utf-8") as f:
            text = f.read()
        names = {name: LEMMAS.get(name, snake(name)) for name in own}
        names.update(ALIASES)
        names.update(LEMMAS_OF_FILES.get(path, {}))
        turned = TOKEN.sub(lambda m: names.get(m.group(0), m.group(0)), text)
        if turned != text:
            with open(path, "w", encoding="utf-8") as f:
                f.write(turned)


main()
