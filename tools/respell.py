#!/usr/bin/env python3
"""Respells the repository's own definitions and lemmas: words in snake case, by the table respell.tsv beside this script.

usage: python3 tools/respell.py      at the top of a checkout that port.py has turned

A row of the table is an old name, a tab, the new name. What turns: the code of .antt files; the code of .rt files, where such a name stands in
clauses and `ghost use` lines alone, since Rust's names are in snake case already; the old and new lines of must-fail edits; and code spans, in
comments and in the pages of docs/, README.md and reference/README.md (notes on landings stay as they were). Strings stay.
"""

import os
import re
import sys

HERE = os.path.dirname(os.path.abspath(__file__))
WORD = re.compile(r"[^\s(){}.;,@\"«»\[\]`]+")
QUOTED = re.compile(r'"(?:[^"\\\n]|\\.)*"')
SPAN = re.compile(r"`[^`\n]+`")


def table():
    with open(os.path.join(HERE, "respell.tsv"), encoding="utf-8") as it:
        return dict(line.rstrip("\n").split("\t") for line in it if line.strip())


NAMES = table()


# The fields of the repository's own records. In a function's Proof.antt what else stands behind a dot is a label of Rattle's.
FIELDS = set("col-on few-columns few-lines finite-radius in-or-none lat-step lon-step next-out north-out not-below south-out".split())
LABELS = False


def words(text):
    def word(m):
        behind_dot = m.start() > 0 and text[m.start() - 1] == "."
        if LABELS and behind_dot and m.group() not in FIELDS:
            return m.group()
        return NAMES.get(m.group(), m.group())

    return WORD.sub(word, text)


def spans(text):
    return SPAN.sub(lambda m: words(m.group()), text)


def code(line, comment):
    """The line's code, but for quoted text, and the code spans of its comment."""
    cut = len(line)
    for m in re.finditer(re.escape(comment) + r"|" + QUOTED.pattern, line):
        if not m.group().startswith('"'):
            cut = m.start()
            break
    out, at = "", 0
    for m in QUOTED.finditer(line[:cut]):
        out += words(line[at : m.start()]) + m.group()
        at = m.end()
    return out + words(line[at:cut]) + spans(line[cut:])


def edit(text):
    """An edit's old and new lines, by the kind of its file."""
    out, comment = [], "--"
    for line in text.split("\n"):
        if line.startswith("file:"):
            comment = "//" if line.rstrip().endswith(".rt") else "--"
        if line.startswith(("old:", "new:")):
            line = line[:4] + code(line[4:], comment)
        elif line.startswith("#"):
            line = spans(line)
        out.append(line)
    return "\n".join(out)


def turned(path, text):
    global LABELS
    LABELS = path.endswith("/Proof.antt")
    if path.endswith(".antt"):
        return "\n".join(code(line, "--") for line in text.split("\n"))
    if path.endswith(".rt"):
        return "\n".join(code(line, "//") for line in text.split("\n"))
    if path.endswith(".edit"):
        return edit(text)
    return spans(text)


def files():
    for folder, dirs, names in os.walk("crates"):
        dirs[:] = sorted(d for d in dirs if d != "out")
        for name in sorted(names):
            if name.endswith((".antt", ".rt", ".edit")):
                yield os.path.join(folder, name)
    for page in ["README.md", "reference/README.md"]:
        yield page
    for name in sorted(os.listdir("docs")):
        if name.endswith(".md") and not name.startswith("PORT"):
            yield os.path.join("docs", name)


def main():
    if not os.path.isdir("crates"):
        sys.exit("respell: run it at the top of the repository")
    changed = 0
    for path in files():
        with open(path, encoding="utf-8", newline="") as it:
            old = it.read()
        new = turned(path, old)
        if new != old:
            with open(path, "w", encoding="utf-8", newline="") as it:
                it.write(new)
            changed += 1
    print(f"respell: {changed} files changed")


main()
