#!/usr/bin/env python3
"""Counts the places of docs/DESIGN-PASS.md in the sources of a checkout: tools/design_count.py [FOLDER]; with --list, each place."""
import collections
import glob
import os
import re
import sys

args = [a for a in sys.argv[1:] if a != "--list"]
root = args[0] if args else "."
files = {f: open(f).read() for f in sorted(glob.glob(os.path.join(root, "crates/*/src/*.rt")))}


def name(f):
    return os.path.relpath(f, os.path.join(root, "crates")).replace("/src/", " ")


def lines(pattern, skip=()):
    hit = re.compile(pattern)
    return [f"{name(f)}:{n}: {l.strip()}" for f, s in files.items() if not any(k in f for k in skip)
            for n, l in enumerate(s.split("\n"), 1) if hit.search(l) and not l.lstrip().startswith("//")]


# 1: enums whose variants are a value or nothing, or a value or a refusal; a flag beside a value; numbers for refusals
enums = []
for f, s in files.items():
    for m in re.finditer(r"^(?:pub )?enum (\w+) \{\n(.*?)^\}", s, re.M | re.S):
        variants = re.findall(r"^    (\w+)", m.group(2), re.M)
        if len(variants) == 2 and ("Refused" in variants or variants[1] in ("Nothing", "Nowhere")):
            enums.append(f"{name(f)}: {m.group(1)}")
flags = lines(r"^\s+(pub )?(on|found|obeys): bool")
codes = lines(r"\b(refusal|number|n): u32", skip=("/trellis/",))

# 2: functions that differ in a type, a size, a constant or a test: by name, so that old and new are counted alike
twins = lines(r"fn (pick|smaller|larger|cheaper|least|power|is_origin|same|collect_pair|collect_from|after_nines?|left|right|half_turn|quarter_turn"
              r"|read_lists|decide_by_costs|point_by_rule|widened_label|widened_lifted|own_label|or_here|or_at|place_at|put_tone|put_bits|wide)\b")

# 3: loops that count by hand
whiles = lines(r"^\s*while ")
steps = lines(r"^\s*\w+ \+= [12];")

# 4: conversion, equality and printing by hand
hand = lines(r"fn (number_of|place_of|clip_number|weight|one_if|wide|low8|state_number|state_of|is_origin|same|text|number|entry|signed|raised|word|byte"
             r"|refusal_of|done|with_byte|checked|answered|opposite|widened)\(", skip=("/clevisroot/",))
casts = lines(r" as (u8|u16|u32|u64|usize|i16|i32|f32)\b")

# 5: a fact in the `requires` of three functions or more, and parameters that travel together
facts = collections.Counter()
groups = collections.Counter()
for f, s in files.items():
    for m in re.finditer(r"^\s*(?:pub(?:\(\w+\))? )?(?:extern \"C\" )?fn (\w+).*?\n\s*\{$", s, re.M | re.S):
        head = m.group(0)
        for clause in re.findall(r"requires\s*\w*\s*\{(.*?)\}\n", head, re.S):
            for atom in re.split(r" × ", clause):
                facts[atom.strip(" ()\n").replace(".old", ".now")] += 1
        parameters = set(re.findall(r"(\w+): ", head.split(" -> ")[0].split("requires")[0]))
        for g in (("bits", "gains", "tones"), ("layouts", "entries", "places", "drawing"), ("xs", "ys"), ("k0", "k1", "k2", "k3"),
                  ("entries", "places"), ("mode", "shared_from")):
            if parameters.issuperset(g):
                groups[" ".join(g)] += 1
often = [f"{n} times: {a}" for a, n in sorted(facts.items()) if n >= 3]

for title, places in (
    ("1 own enums of the shape of Option or Result", enums),
    ("1 a flag beside a value", flags),
    ("1 numbers for refusals", codes),
    ("2 twins", twins),
    ("3 while loops", whiles),
    ("3 indices stepped by hand", steps),
    ("4 functions that convert, compare or print by hand", hand),
    ("4 lines with `as`", casts),
    ("5 facts in three `requires` or more", often),
    ("5 functions whose parameters travel together", [f"{n}: {g}" for g, n in groups.items()]),
):
    count = sum(int(p.split(":")[0]) for p in places) if "travel" in title else len(places)
    print(f"{count:4}  {title}")
    if "--list" in sys.argv:
        for p in places:
            print("      " + p)
