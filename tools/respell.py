#!/usr/bin/env python3
"""Brings names of this repository's own to snake case: definitions, lemmas, fields and local names of specs/, proofs/ and clauses.

usage: python3 tools/respell.py      at the top, once, on what port.py wrote

Turned in crates/: the code and the comments of .antt and .rt files, and the text of must-fail edits.
Quoted text stays, and so do names of types, modules, Rust functions and exports.
"""

import os
import re

WORD = re.compile(r"[A-Za-z_][\w'\-]*")
# Lemmas that would take the name of the definition that they are about.
LEMMAS = ["leaves_by", "most_bytes", "found_all", "same_answer"]
# Fields and constructors of specs/ that were joined by a dash; `getD` is called `get_or` now.
DASHED = [
    "bad-pattern", "bad-set", "cannot-match", "few-conditions", "none-empty", "not-accepted", "readings-is", "refused-block",
    "refused-index", "refused-input", "refused-limit", "refused-result", "refused-slice", "set-item", "table-agrees", "used-is",
    "when-item", "within-item",
]
NAMES = {w: w + "_lem" for w in LEMMAS} | {w: w.replace("-", "_") for w in DASHED}
QUOTED = re.compile(r'b?"(?:[^"\\\n]|\\.)*"')


def snake(word):
    """The new spelling of a word of code."""
    if word in NAMES:
        return NAMES[word]
    parts = re.split(r"(-)", word)
    for k, part in enumerate(parts):
        if part and (part[0].islower() or part[0] == "_"):
            part = "get_or" if part == "getD" else part
            parts[k] = re.sub(r"(?<=[a-z0-9])([A-Z])", lambda m: "_" + m.group(1).lower(), part)
    return "".join(parts)


def turned(text):
    """The text with its words turned, but for quoted ones."""
    out, at = [], 0
    for q in QUOTED.finditer(text):
        out.append(WORD.sub(lambda m: snake(m.group()), text[at : q.start()]))
        out.append(q.group())
        at = q.end()
    out.append(WORD.sub(lambda m: snake(m.group()), text[at:]))
    return "".join(out)


for folder, dirs, files in os.walk("crates"):
    dirs[:] = [d for d in dirs if d != "out"]
    for name in sorted(files):
        if not name.endswith((".antt", ".rt", ".edit")):
            continue
        path = os.path.join(folder, name)
        with open(path, encoding="utf-8") as f:
            old = f.read()
        new = turned(old)
        if new != old:
            with open(path, "w", encoding="utf-8") as f:
                f.write(new)
