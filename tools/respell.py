#!/usr/bin/env python3
"""Brings this repository's own definitions and lemmas to today's spelling.

usage: python3 tools/respell.py        in the repository, once, after the toolchain's port.py

Words are in snake case, types and facts in camel case. A dash stays only where it joins the names of two
functions, the outer call first, as in front-octal and length-octal. Names of src/ stay as they are, and so
do those that Rattle makes. Names that fall together with one that stood there already are printed.
"""

import os
import re
import sys

# Facts and records, which become camel case.
FACTS = """
All-words Bad-report Column-of First-bad Good-column Good-report Is-word Least-turn Left-circular-bits
Left-logical-bits Read-bits Read-more Reads-back Right-algebraic-bits Right-circular-bits Right-logical-bits
Stored-bits Sum-laws Total-laws
"""

# Functions, lemmas, fields of records and names bound in proofs, which become snake case.
WORDS = """
above-all adder-reply address-past-minus-zero address-to-zero ascii-octal bad-here bad-later
by-magnitude by-signs complement-bit complement-high digit-read digit-written digits-line fill-bit filled-high
filled-low fills-equal first-line first-octal front-word full-sum gone-left good-column greatest-plus-one high-of
is-octal is-ones known-inside leading-one least-turn left-circular left-circular-moves left-logical
left-logical-moves left-more left-undone length-word line-length line-text magnitude-unsigned minus-zero-of-two
minus-zeros moved-whole never-bad none-bad nothing-before nothing-more number-after number-octal numbers-read
octal-number of-high one-count one-turned ones-on-top others-stay plain-or-less plain-sum put-before put-by-code
read-gives reading-back reads-back right-algebraic right-algebraic-fits right-algebraic-moves right-circular
right-circular-moves right-logical right-logical-moves right-six-algebraic right-six-circular right-undone
row-added row-equal same-field same-fill sign-fill sign-told stays-a-word store-leaves stored-by-code stored-fits
sum-laws taken-by-code takes-sign total-laws turn-count turn-whole turned-bits turned-by-mask turned-fits
turned-is turns-the-sign two-differ unlike-zeros upper-third utf8-word value-sum word-digits written-lines
written-words zeros-apart
"""


LETTER = r"[\w'«»-]"


def camel(name):
    return "".join(part[0].upper() + part[1:] for part in name.split("-"))


def table():
    new = {name: camel(name) for name in FACTS.split()}
    new.update({name: name.replace("-", "_") for name in WORDS.split()})
    return new


def respelled(text, new, within):
    """The text with each name of the table respelled, at the places that the pattern within takes."""
    name = re.compile(rf"(?<!{LETTER})({'|'.join(sorted(map(re.escape, new), key=len, reverse=True))})(?!{LETTER})")
    return re.sub(within, lambda m: name.sub(lambda n: new[n[1]], m[0]), text, flags=re.M)


def files(root):
    for folder, dirs, names in os.walk(root):
        dirs[:] = sorted(d for d in dirs if d not in ("out", "target", ".git", "tools"))
        for name in sorted(names):
            # That page cites the older names.
            if name != "PORT.md":
                yield os.path.join(folder, name)


# Where names are cited: in antt everywhere, in Rattle outside comments, in pages between backticks.
WITHIN = {".antt": r"^.*$", ".rt": r"^(?!\s*//).*$", ".md": r"`[^`\n]*`"}


def main():
    root = os.path.join(os.path.dirname(os.path.realpath(__file__)), "..")
    new = table()
    texts = {}
    for path in files(root):
        within = WITHIN.get(os.path.splitext(path)[1])
        if within and (path.endswith(".md") or f"{os.sep}crates{os.sep}" in path):
            with open(path, encoding="utf-8") as f:
                texts[path] = f.read(), within
    fresh = set(new.values())
    for path, (text, within) in texts.items():
        met = sorted(fresh & set(re.findall(r"[\w'-]+", re.sub(r"//.*|--.*", "", text))))
        if met and not path.endswith(".md"):
            print(f"falls together in {os.path.relpath(path, root)}: {', '.join(met)}")
    for path, (text, within) in texts.items():
        turned = respelled(text, new, within)
        if turned != text:
            with open(path, "w", encoding="utf-8") as f:
                f.write(turned)
    return 0


if __name__ == "__main__":
    sys.exit(main())
