#!/usr/bin/env python3
"""Brings the repository's own words to the spelling of today's Rattle, once, behind the kit's port.py: words in snake case.

usage: python3 tools/respell.py        at the top of the repository, over crates/ and crates.txt

What it turns:
- a word of camel case, `mainItem`, or a part of one between dashes, `mainItems-snoc`: `main_item`, `main_items-snoc`;
- `getD` and `get_d` in names of laws: `get_or`, as the library's function is called now;
- the crate `sha2`, whose name is a library's of the kit: `sha2_common`;
- a lemma that would then have the name of the definition that it is about: `_lem` behind it (LEMMAS);
- the choice `if b then x else y` of our own, whose name is an operator of the library now, which differs from it in how far it unfolds:
  `if b then x otherwise y`.
Functions, fields and strings of src/ are in snake case and stay; types and modules, in upper camel case, stay.
"""

import os
import re
import sys

WORD = re.compile(r"[A-Za-z_][A-Za-z0-9_'₀-₉-]*")
CAMEL = re.compile(r"^[a-z][a-z0-9_'₀-₉]*[A-Z]")
# facts of the kit, which keep their capitals, and numbers
KEEP = re.compile(r"^(not_T|is_Within|row_Line|x[0-9A-F]+)$")
# file, the lemma's name, its name from now on
LEMMAS = [
    ("plan/proofs/Looking.antt", "blocks_at", "blocks_at_lem"),
    ("planning/proofs/Related.antt", "left_over", "left_over_lem"),
    ("state/proofs/Next.antt", "round_number", "round-number"),
    ("tally/proofs/Table.antt", "row_word", "row_word_lem"),
    ("model/proofs/Listing.antt", "too_large", "too_large_lem"),
    ("entries/proofs/Listed.antt", "too_large", "too_large_lem"),
    ("model/proofs/Demands.antt", "too_large", "too_large_lem"),
    ("model/proofs/Report.antt", "too_large", "too_large_lem"),
    ("exporting/proofs/Reading.antt", "value_read", "value_read_lem"),
    ("samples/proofs/SampleGrowth.antt", "one_more", "one_more_lem"),
]


def part(p):
    if p == "getD" or p == "get_d":
        return "get_or"
    if p.startswith("get_d_"):
        return "get_or-" + p[len("get_d_"):]
    if KEEP.match(p) or not CAMEL.match(p):
        return p
    return re.sub(r"(?<=[a-z0-9'₀-₉])[A-Z]", lambda m: "_" + m.group().lower(), p)


def word(w):
    return "-".join(part(p) for p in w.split("-"))


def text(t):
    return WORD.sub(lambda m: word(m.group()), t)


def crate(t):
    t = re.sub(r"\bRattle\.sha2\.", "Rattle.sha2_common.", t)
    return re.sub(r"(?<![\w:.])sha2::", "sha2_common::", t)


ELSE = re.compile(r"(?<![\w.'-])else(?![\w'-])")
CHOICE = re.compile(r"(\bif\b.*\bthen\b.*)" + ELSE.pattern)


def choice(line, is_antt):
    line = line.replace("if◌then◌else◌", "if◌then◌otherwise◌")
    code, dash, comment = line.partition("--" if is_antt else "//")
    return (ELSE.sub("otherwise", code) if is_antt else CHOICE.sub(r"\1otherwise", code)) + dash + comment


def choices(t, is_antt):
    return "\n".join(choice(line, is_antt) for line in t.split("\n"))


def main():
    if not os.path.isdir("crates"):
        sys.exit("respell: run it at the top of the repository")
    if os.path.isdir("crates/sha2"):
        os.rename("crates/sha2", "crates/sha2_common")
    with open("crates.txt", encoding="utf-8") as f:
        listed = f.read()
    with open("crates.txt", "w", encoding="utf-8") as f:
        f.write(re.sub(r"\bsha2\b", "sha2_common", listed))
    for folder, dirs, files in os.walk("crates"):
        dirs[:] = sorted(d for d in dirs if d != "out")
        for name in sorted(files):
            if not name.endswith((".antt", ".rt")):
                continue
            path = os.path.join(folder, name)
            with open(path, encoding="utf-8") as f:
                t = old = f.read()
            for file, lemma, now in LEMMAS:
                if path == os.path.join("crates", file):
                    t = re.sub(rf"(?<![\w'-]){lemma}(?![\w'-])", now, t)
            t = choices(crate(text(t)), name.endswith(".antt"))
            if t != old:
                with open(path, "w", encoding="utf-8") as f:
                    f.write(t)


if __name__ == "__main__":
    main()
