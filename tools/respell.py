#!/usr/bin/env python3
"""Brings the repository's own definitions and lemmas to the spelling of today's Rattle: words in snake case, types and modules in
camel case.

Usage: tools/respell.py [--dry]     once, at the top, right behind port.py

Own names are those that crates/*/specs and crates/*/proofs declare, constructors and fields too. A name that a file takes from
another library stays as that library has it. Names of functions, of exported symbols, of steps and goals, strings and comments of
the sources stay. Names that would fall together with another are told, and OTHER gives them another name.
"""

import os
import re
import sys

# Names that would fall together with one that is there already, or that name what the library calls otherwise today.
OTHER = {
    # a lemma that would have its function's name
    **{n: n.replace("-", "_") + "_lem" for n in (
        "bad-line class-word edge-word flat-as in-class in-front is-edge is-inner large-word line-turn lines-room page-room plan-large "
        "put-slot run-pages slot-page sound-from top-at found-at next-from row-of bit-and bit-or bit-xor").split()},
    "spot_in": "spot_in_lem",
    # a rule of the demands that would have its refusal's name
    "no_room": "finds_no_room",
    "no-block": "block_nowhere",
    "too-big": "size_too_big",
}

WORD = r"[A-Za-z_][A-Za-z0-9_'₀-₉ₓ]*(?:-[A-Za-z0-9_'₀-₉≤≢≡]+)*'*"
TOKEN = re.compile(WORD)
DECLARED = re.compile(r"^\s*((?:pub |abbrev |unfoldable |private |opaque )*)((?:" + WORD + r" )+): ")
TYPE = re.compile(r"^\s*(?:pub |abbrev |unfoldable )*(?:data|record|module) ")


def files(end):
    for folder, dirs, names in os.walk("crates"):
        dirs[:] = sorted(d for d in dirs if d not in ("out", "target"))
        for name in sorted(names):
            if name.endswith(end):
                yield os.path.join(folder, name)


def of_function(path):
    """Whether a file belongs to the proof of one function."""
    parts = path.split("/")
    return parts[2] == "proofs" and len(parts) > 4


def snake(name):
    """A name in snake case. A type keeps its capital: IsSet-here is IsSet_here."""
    parts = []
    for part in name.split("-"):
        if part and part[0].isupper():
            parts.append(part)
            continue
        part = part.replace("getD", "get_or")
        part = re.sub(r"(?<=[a-z0-9])([A-Z])", lambda m: "_" + m.group(1).lower(), part)
        parts.append(part)
    return "_".join(parts)


def foreign(text, own):
    """The names that a file takes from libraries that are not the repository's."""
    found = set()
    for m in re.finditer(r"^(?:ghost )?use ([^\s{;]+?)\.?\{([^}]*)\}", text, re.M):
        where = m.group(1).split(".")
        if where[0] == "Rattle" and len(where) > 1 and where[1] in own:
            continue
        for name in m.group(2).split(","):
            found.update(name.split())
    return found


def code_of(line, rust):
    """The line without its comment."""
    mark = "//" if rust else "--"
    at = -1
    for m in re.finditer(re.escape(mark), line):
        at = m.start()
        if rust or at == 0 or line[at - 1] == " ":
            return line[:at], line[at:]
    return line, ""


def main(argv):
    dry = "--dry" in argv
    own = {d for d in os.listdir("crates") if os.path.isdir(os.path.join("crates", d))}
    declared = set()
    texts = {}
    for path in files((".antt", ".rt")):
        with open(path, encoding="utf-8") as f:
            texts[path] = f.read()
    for path, text in texts.items():
        if path.endswith(".rt") or of_function(path):
            continue
        for line in text.split("\n"):
            line = code_of(line, False)[0]
            m = DECLARED.match(line)
            if m:
                declared.update(m.group(2).split())
    names = {n: OTHER.get(n, snake(n)) for n in declared}
    names = {n: m for n, m in names.items() if n != m}
    # a parameter or a variable of a source would hide a word of its clauses
    for path, text in sorted(texts.items()):
        if path.endswith(".rt"):
            for n, m in sorted(names.items()):
                if re.search(r"(?<![\w-])" + re.escape(n) + r"(?![\w-])", text) and re.search(r"(?<![\w.])" + m + r"\s*:(?!:)|let (mut )?" + m + r"\b", text):
                    print("a variable:", path, n, m)
    # what falls together
    made = {}
    for n, m in sorted(names.items()):
        made.setdefault(m, []).append(n)
    for m, ns in sorted(made.items()):
        if len(ns) > 1:
            print("together:", m, ns)
        if m in declared:
            print("there already:", m, ns)
    for path, text in sorted(texts.items()):
        theirs = foreign(text, own)
        rust = path.endswith(".rt")
        body = "\n".join(code_of(l, rust)[0] for l in text.split("\n"))
        words = set(TOKEN.findall(body))
        here = {n: m for n, m in names.items() if n in words and n not in theirs}
        for n, m in sorted(here.items()):
            if m in words and m not in declared:
                print("hidden:", path, n, m)
        lines = []
        for line in text.split("\n"):
            code, comment = code_of(line, rust)

            def put(m):
                word = m.group(0)
                if word not in here:
                    return word
                return here[word]

            lines.append(TOKEN.sub(put, code) + comment)
        new = "\n".join(lines)
        if new != text and not dry:
            with open(path, "w", encoding="utf-8") as f:
                f.write(new)
    if "--names" in argv:
        for n, m in sorted(names.items()):
            print(n, m)


if __name__ == "__main__":
    main(sys.argv[1:])
