#!/usr/bin/env python3
"""Gives the definitions, lemmas, fields and constructors of this repository today's spelling.

usage: python3 tools/respell.py [FOLDER]      over the repository in FOLDER, or here

Reads tools/respell.txt, a line `OLD NEW` for each name. A name is replaced where it stands as a whole word of a definition, a proof,
a clause or a must-fail edit, and in comments and documents between backticks alone. Functions of src/, exported names, strings, inputs
and outputs are left as they are, since no name of the list is one of theirs; so is docs/PORT.md, which tells of both spellings.
"""

import os
import re
import sys

HERE = os.path.dirname(os.path.abspath(__file__))
WORD = re.compile(r"[^\s()\[\]{};,.\"«»@`]+")
QUOTED = re.compile(r"`[^`]*`")


def table():
    with open(os.path.join(HERE, "respell.txt"), encoding="utf-8") as f:
        return dict(line.split() for line in f if line.strip())


def words(names, text, steps=False):
    """With `steps`, a word behind `c.` is the name of a step in a function's proof, which comes from the function's source."""
    step = lambda m: steps and re.search(r"(?<![\w'.])c\.$", text[max(0, m.start() - 3) : m.start()])
    return WORD.sub(lambda m: m.group(0) if step(m) else names.get(m.group(0), m.group(0)), text)


def quoted(names, text):
    return QUOTED.sub(lambda m: words(names, m.group(0)), text)


def line_of(names, line, mark, steps=False):
    """Code up to the comment that `mark` begins, strings left out; of the comment what is between backticks."""
    at = re.search(mark, line)
    code, rest = (line[: at.start()], line[at.start() :]) if at else (line, "")
    parts = re.split(r'("(?:[^"\\]|\\.)*")', code)
    code = "".join(p if p.startswith('"') else words(names, p, steps) for p in parts)
    return code + quoted(names, rest)


def respelled(names, path, text):
    if path.endswith(".antt"):
        answers = os.path.basename(path) in ("Answers.antt", "Invariants.antt", "Choices.antt")
        return "".join(line_of(names, l, r"(^|(?<=\s))--(?=\s|$)", answers) for l in text.splitlines(keepends=True))
    if path.endswith(".rt"):
        return "".join(line_of(names, l, r"//") for l in text.splitlines(keepends=True))
    if path.endswith(".edit"):
        return words(names, text)
    return quoted(names, text)


def main(root):
    names = table()
    changed = 0
    for folder, dirs, files in os.walk(root):
        dirs[:] = [d for d in dirs if d not in (".git", "out", "target", "tools")]
        for f in sorted(files):
            path = os.path.join(folder, f)
            if not f.endswith((".antt", ".rt", ".edit", ".md")) or path.endswith(os.path.join("docs", "PORT.md")):
                continue
            with open(path, encoding="utf-8") as it:
                text = it.read()
            new = respelled(names, path, text)
            if new != text:
                changed += 1
                with open(path, "w", encoding="utf-8") as it:
                    it.write(new)
    print(f"{changed} files respelled")


if __name__ == "__main__":
    main(sys.argv[1] if len(sys.argv) > 1 else os.path.dirname(HERE))
