#!/usr/bin/env python3
"""Brings the repository's own definitions and lemmas to snake case, by respell.tsv beside this file: a row for each name, old, a tab, new.

usage: python3 tools/respell.py            at the top, once, right after /opt/rattle/port/port.py

It turns whole words: in .antt files the code, and what stands in backquotes in a comment; in .rt files the `ghost use` items, the clauses, and what
stands in backquotes in a comment; in must-fail edits the lines old: and new:; in the pages a name that stands alone in backquotes, also one that port.py
turned. A row whose old name is in snake case already is for a lemma that a definition's new name would meet: it turns in .antt files and where no dot stands before it.
Names that programs print stay: the theorems of cli/src/theorems.rs.
"""

import os
import re

HERE = os.path.dirname(os.path.realpath(__file__))
TOP = os.path.dirname(HERE)
WORD = re.compile(r"[^\s(){}.;,@\"«»`]+")
SPAN = re.compile(r"`[^`\n]*`")
RT_GHOST = re.compile(r"ghost\s+use\b[^;]*;|(?m:^\s*(?:requires|ensures)\b.*$)")
EDIT_LINE = re.compile(r"^(old|new): .*$", re.M)


def table():
    with open(os.path.join(HERE, "respell.tsv"), encoding="utf-8") as f:
        return dict(line.rstrip("\n").split("\t") for line in f)


def apart(text):
    """The pieces of an .antt or .rt text: (is a comment, text)."""
    mark = re.compile(r"(?m)(?:^|(?<=[\s(){};,]))(?:--|//)[^\n]*")
    end = 0
    for m in mark.finditer(text):
        yield False, text[end : m.start()]
        yield True, m[0]
        end = m.end()
    yield False, text[end:]


def main():
    rows = table()
    moved = {a: b for a, b in rows.items() if re.fullmatch(r"[a-z0-9_']+", a)}
    plain = {a: b for a, b in rows.items() if a not in moved}
    declared = set()

    def all_words(text):
        return WORD.sub(lambda m: plain.get(m[0], m[0]), text)

    def lemmas(text):
        def turn(m):
            behind = m.string[m.start() - 1] if m.start() else " "
            return m[0] if behind in ".«" else moved.get(m[0], m[0])

        return WORD.sub(turn, text)

    def spans(text, words):
        return SPAN.sub(lambda m: words(m[0]), text)

    def antt(text):
        words = lambda t: all_words(lemmas(t))
        return "".join(spans(t, words) if c else words(t) for c, t in apart(text))

    def rt(text):
        ghost = lambda t: RT_GHOST.sub(lambda m: all_words(m[0]), t)
        camel = lambda t: WORD.sub(lambda m: plain.get(m[0], m[0]) if re.search(r"[a-z0-9][A-Z]", m[0]) else m[0], t)
        return "".join(spans(t, all_words) if c else camel(ghost(t)) for c, t in apart(text))

    def edit(text):
        return EDIT_LINE.sub(lambda m: m[0][:5] + all_words(m[0][5:]), text)

    kept = {"quarter-any-register", "half-turn-any-register", "half-turn-monitored", "half-turn", "clip-of-written", "clip-of-turned", "clip-of-quarter"}

    def page(text):
        def turn(m):
            name = m[0][1:-1]
            if name in kept or not re.fullmatch(r"[a-z][\w'-]*", name):
                return m[0]
            new = plain.get(name) or re.sub(r"(?<=[a-z0-9])[A-Z]", lambda w: "_" + w[0].lower(), name).replace("-", "_")
            return f"`{new}`" if new in declared else m[0]

        return SPAN.sub(turn, text)

    def turn(path, how):
        with open(path, encoding="utf-8") as f:
            old = f.read()
        new = how(old)
        if new != old:
            with open(path, "w", encoding="utf-8") as f:
                f.write(new)

    for folder, _, files in os.walk(os.path.join(TOP, "crates")):
        for name in files:
            how = {".antt": antt, ".rt": rt, ".edit": edit}.get(os.path.splitext(name)[1])
            if how and "/out/" not in folder + "/":
                turn(os.path.join(folder, name), how)
    for folder, _, files in os.walk(os.path.join(TOP, "crates")):
        for name in files:
            if name.endswith(".antt"):
                with open(os.path.join(folder, name), encoding="utf-8") as f:
                    declared |= set(WORD.findall(f.read()))
    for folder, _, files in os.walk(TOP):
        if re.search(r"/(\.git|crates|target)(/|$)", folder[len(TOP) :]):
            continue
        for name in files:
            if name.endswith(".md"):
                turn(os.path.join(folder, name), page)


main()
