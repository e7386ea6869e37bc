#!/usr/bin/env python3
"""Clauses name what a lent buffer holds as today's references have it: `lent`, `before` and `after` are given the three lists.

Usage: tools/lend.py     once, at the top, behind tools/respell.py

A buffer behind & holds b.now throughout; one behind &mut holds b.old when the call begins and b.new when it is over. In lemmas, over
the arguments of a call, it is .now of each.
"""

import os
import re

NEW = """-- The three lent buffers as one pool: when a call begins, and when it is over. Assumes nothing.
use Rattle.std.specs.Prelude.{List, ℕ}
use Rattle.records.specs.Pool.{Pool, pool}

-- what a lent buffer of numbers holds, and what one that was passed to a call holds at one end of it: as a clause of a contract names them
abbrev pub Buffer : Type 0
Buffer = List ℕ

abbrev pub Passed : Type 0
Passed = Buffer

-- page bits, page words and slot bits as they are: in a `requires`
abbrev pub lent : Buffer → Buffer → Buffer → Pool
lent bits words slots = pool bits words slots

-- in an `ensures`: as the call found them
abbrev pub before : Passed → Passed → Passed → Pool
before bits words slots = lent bits words slots

-- and as it leaves them
abbrev pub after : Passed → Passed → Passed → Pool
after bits words slots = lent bits words slots
"""


def source(text):
    out = []
    at = 0
    # each function's head runs to the line that opens its body
    for m in re.finditer(r"(?m)^(?:pub )?(?:extern \"C\" )?fn .*?^\{", text, re.S):
        out.append(text[at:m.start()])
        head = m.group(0)
        mut = {n: k is not None for n, k in re.findall(r"(\w+): &(?:'\w+ )?(mut )?\[", head)}
        mut = {n: "&mut [" in mm for n, mm in re.findall(r"(\w+): (&(?:'\w+ )?(?:mut )?\[)", head)}

        def put(w):
            word = w.group(1)
            end = {"lent": ".old", "before": ".old", "after": ".new"}[word]
            return word + "".join(" " + n + (end if mut.get(n) else ".now") for n in ("bits", "words", "slots"))

        out.append(re.sub(r"\b(lent|before|after) bits words slots\b", put, head))
        at = m.end()
    out.append(text[at:])
    return "".join(out)


for folder, dirs, names in os.walk("crates"):
    dirs[:] = sorted(d for d in dirs if d != "out")
    for name in sorted(names):
        path = os.path.join(folder, name)
        if path == "crates/records/specs/Lent.antt":
            new = NEW
        elif name.endswith((".rt", ".antt")):
            with open(path, encoding="utf-8") as f:
                text = f.read()
            new = source(text) if name.endswith(".rt") else re.sub(
                r"\blent ([\w.]*args)\.bits \1\.words \1\.slots\b", r"lent \1.bits.now \1.words.now \1.slots.now", text)
            if new == text:
                continue
        else:
            continue
        with open(path, "w", encoding="utf-8") as f:
            f.write(new)
