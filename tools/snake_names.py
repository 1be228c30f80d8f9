#!/usr/bin/env python3
"""Spells the definitions and lemmas of specs/ and proofs/ in snake case, wherever contracts and proofs name them.

Run once, at the top of the repository, right after /opt/rattle/port/port.py. What it renames is what specs/ and proofs/
declare in lower camel case; the goals' names that Rattle makes, and all names of src/, keep their spelling. In a .rt file
only names brought in by `ghost use` are renamed.
"""
import glob
import re
import sys

WORD = re.compile(r"[A-Za-z_][A-Za-z0-9_']*")
DECLARED = re.compile(
    r"^\s*(?:unfoldable\s+|abbrev\s+|pub\s+)*([a-z][^\s:(){}=,]*)\s*(?:\{[^}]*\}\s*|\([^)]*\)\s*)*:"
)
GOAL = re.compile(r": goal\.")
# Where the plain spelling would be the name of something else in the same files.
OTHERWISE = {}


def snake(word):
    if word in OTHERWISE:
        return OTHERWISE[word]
    return re.sub(r"(?<=[a-z0-9])([A-Z])", lambda m: "_" + m.group(1).lower(), word)


def is_camel(word):
    return word[0].islower() and snake(word) != word


def declared():
    """The camel-case words that make up names declared in specs/ and proofs/."""
    found = set()
    for path in glob.glob("crates/*/specs/**/*.antt", recursive=True) + glob.glob("crates/*/proofs/**/*.antt", recursive=True):
        with open(path, encoding="utf-8") as text:
            for line in text:
                match = DECLARED.match(line)
                if match and not GOAL.search(line):
                    found.update(word for word in match.group(1).split("-") if WORD.fullmatch(word) and is_camel(word))
    return found


def main():
    words = declared()
    renaming = {word: snake(word) for word in words}
    files = glob.glob("crates/*/specs/**/*.antt", recursive=True)
    files += glob.glob("crates/*/proofs/**/*.antt", recursive=True)
    files += glob.glob("crates/*/src/**/*.rt", recursive=True)
    clashes = 0
    changed = 0
    for path in sorted(files):
        with open(path, encoding="utf-8") as handle:
            text = handle.read()
        here = set(WORD.findall(text))
        for old in sorted(here & words):
            if renaming[old] in here:
                clashes += 1
                print(f"look: {path}: {old} becomes {renaming[old]}, which stands there already")
        new = WORD.sub(lambda m: renaming.get(m.group(0), m.group(0)), text)
        if new != text:
            changed += 1
            if "--dry" not in sys.argv:
                with open(path, "w", encoding="utf-8") as handle:
                    handle.write(new)
    print(f"{len(words)} names, {changed} files changed, {clashes} to look at")


if __name__ == "__main__":
    main()
