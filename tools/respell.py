#!/usr/bin/env python3
"""Brings the names of the repository's own definitions and lemmas to Rattle's spelling: words in snake case, facts and
types in upper camel case. A dash stays where every part that it joins is the name of a definition.

usage: python3 tools/respell.py [FOLDER]

Run once, after port.py, at the top of the repository (FOLDER, else the current one). respell.tsv, beside this script,
has a row for each name: old, a tab, new. What follows: specs/, proofs/, the clauses and the code spans of comments in
src/, must-fail edits, and the code spans of README.md and docs/. Functions, strings, inputs and outputs stay.
"""

import pathlib
import re
import sys

WORD = re.compile(r"[^\s(){}\[\];,.\"«»]+")


def turned(text, rows):
    return WORD.sub(lambda m: part(m.group(), rows), text)


def part(word, rows):
    if word in rows:
        return rows[word]
    m = re.fullmatch(r"([`:*]*)(.*?)([`:*'′₀₁₂₃]*)", word)
    if m.group(2) in rows:
        return m.group(1) + rows[m.group(2)] + m.group(3)
    return word


def document(text, rows):
    """Code spans alone turn."""
    return re.sub(r"`[^`\n]+`", lambda m: "`" + turned(m.group()[1:-1], rows) + "`", text)


def source(text, rows):
    """All but strings turns, and of a comment the code spans: Rust's own names are none of the table's."""

    def line(text):
        at = text.find("//")
        if at < 0:
            return turned(text, rows)
        return turned(text[:at], rows) + document(text[at:], rows)

    def quiet(text):
        parts = re.split(r"(b?\"(?:[^\"\\]|\\.)*\")", text)
        return "".join(p if i % 2 else line(p) for i, p in enumerate(parts))

    return "\n".join(quiet(l) for l in text.split("\n"))


def proof(text, rows):
    """All but strings turns, and of a comment the code spans."""
    parts = re.split(r"(--[^\n]*|\"(?:[^\"\\\n]|\\.)*\")", text)
    for i, p in enumerate(parts):
        if i % 2 == 0:
            parts[i] = turned(p, rows)
        elif p.startswith("--"):
            parts[i] = document(p, rows)
    return "".join(parts)


KINDS = {".antt": proof, ".rt": source, ".edit": proof, ".md": document}


def main(root):
    table = pathlib.Path(__file__).with_name("respell.tsv").read_text()
    rows = dict(line.split("\t") for line in table.splitlines())
    paths = [*root.glob("crates/**/*"), *root.glob("docs/**/*"), root / "README.md"]
    for path in sorted(paths):
        if path.suffix in KINDS and path.is_file() and "out" not in path.relative_to(root).parts:
            old = path.read_text()
            new = KINDS[path.suffix](old, rows)
            if new != old:
                path.write_text(new)


if __name__ == "__main__":
    main(pathlib.Path(sys.argv[1] if len(sys.argv) > 1 else "."))
