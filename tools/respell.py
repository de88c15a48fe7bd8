#!/usr/bin/env python3
"""Gives this repository's definitions and lemmas the spelling of the port: run once, at the top, right after port.py.

A word is in snake case; a dash stands only between two names (as in `ahead-put_at`). `respell.txt` has a line for each name:
the old one and the new one. Names of Rust (functions of src/, modules, files) and strings stay; a lemma that would have
the name of a definition ends in `_lem`.
"""
import os
import re

HERE = os.path.dirname(os.path.realpath(__file__))
TABLE = dict(line.split() for line in open(os.path.join(HERE, "respell.txt"), encoding="utf-8"))
# A path of a module stays, but for a last part that is a definition.
PATH = re.compile(r"Rattle(?:\.[\w+'-]+)+")
WORD = re.compile(r"[^\W\d][\w'-]*")
# In Rust these two are functions of src/.
RUST = {"digit_value", "slot_turn"}


def words(text, keep):
    def one(m):
        w = m.group()
        return w if w in keep else TABLE.get(w, w)

    out, at = [], 0
    for m in PATH.finditer(text):
        module, _, last = m.group().rpartition(".")
        out += [WORD.sub(one, text[at : m.start()]), module, ".", TABLE.get(last, last)]
        at = m.end()
    return "".join(out) + WORD.sub(one, text[at:])


def source(text):
    """In a file of Rust: all but what a comment says."""
    out = []
    for line in text.split("\n"):
        code, mark, said = line.partition("//")
        out.append(words(code, RUST) + mark + said)
    return "\n".join(out)


def page(text):
    """In a page: what stands between backticks or in square brackets."""
    return re.sub(r"`[^`\n]+`|\[[^\]\n]+\]", lambda m: words(m.group(), set()), text)


def turn(path, how):
    with open(path, encoding="utf-8") as f:
        old = f.read()
    new = how(old)
    if new != old:
        with open(path, "w", encoding="utf-8") as f:
            f.write(new)


def main():
    for folder, dirs, files in os.walk("crates"):
        dirs[:] = [d for d in dirs if d != "out"]
        for name in files:
            path = os.path.join(folder, name)
            if name.endswith(".antt"):
                turn(path, lambda t: words(t, set()))
            elif name.endswith((".rt", ".edit")):
                turn(path, source)
    for name in ["README.md", *(os.path.join("docs", f) for f in os.listdir("docs"))]:
        if name.endswith(".md"):
            turn(name, page)


main()
