#!/usr/bin/env python3
"""Spells the repository's own definitions and lemmas in snake case, as today's Rattle does: `outputDuty` is `output_duty`.

usage: python3 tools/spell_names.py      at the top of the repository, once, right after the kit's port.py

It goes over specs/, proofs/, src/ and must-fail/ of every crate and over the pages, by text: a word that begins small and has a capital
after a small letter or a digit. Types and modules, which begin with a capital, words of the kit as `walk_Meets`, and what programs read
and print stay. Names that would fall together with another name in their file go by DISTINCT first.
"""
import re
import subprocess
import sys

# In files below the folder: the name as it stands, and as it is spelled so that no other name falls together with it.
DISTINCT = [
    ("crates/console_commands/proofs/", "record_of", "record_given"),
    ("crates/console_commands/proofs/", "no_record", "none_recorded"),
    ("crates/orders/proofs/", "run_on", "runs_on"),
]

WORD = re.compile(r"(?<![A-Za-z0-9_])[a-z][A-Za-z0-9_]*")
CAMEL = re.compile(r"(?<=[a-z0-9])[A-Z]")


def snake(word):
    if re.search(r"_[A-Z]", word):
        return word
    return CAMEL.sub(lambda m: "_" + m.group(0).lower(), word)


def turned(path, text):
    for folder, old, new in DISTINCT:
        if path.startswith(folder):
            text = re.sub(r"(?<![A-Za-z0-9_-])" + old + r"(?![A-Za-z0-9_-])", new, text)
    return WORD.sub(lambda m: snake(m.group(0)), text)


def main():
    paths = subprocess.run(["git", "ls-files", "-co", "--exclude-standard"], capture_output=True, text=True, check=True).stdout.split("\n")
    count = 0
    for path in paths:
        code = re.match(r"crates/[^/]*/(specs|proofs|src|must-fail)/.*\.(antt|rt|edit)$", path)
        page = path.endswith(".md")
        if not (code or page):
            continue
        try:
            with open(path, encoding="utf-8") as f:
                text = f.read()
        except FileNotFoundError:
            continue
        new = turned(path, text)
        if new != text:
            with open(path, "w", encoding="utf-8") as f:
                f.write(new)
            count += 1
    print(f"{count} files respelled")


if __name__ == "__main__":
    sys.exit(main())
