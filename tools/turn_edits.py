#!/usr/bin/env python3
"""Brings the must-fail edits to the spelling that the sources and definitions have today.

Usage: tools/turn_edits.py LANDED [--dry]     LANDED is a folder with the repository as the edits know it

For each pair of an edit whose old text does not stand in today's file: the line of the landed file that holds it is respelled, and
so is that line with the new text in it. Where the first is a line of today's file, the edit gets both, cut down to the text that the
pair had where that stands once. What is not found so is listed, and left as it is.
"""

import glob
import os
import re
import subprocess
import sys

WORD = r"[A-Za-z_][A-Za-z0-9_'′₀-₉ₓ]*(?:-[A-Za-z0-9_'′₀-₉≤≢≡]+)*'*"
PIECE = re.compile(r"\"(?:[^\"\\]|\\.)*\"|\.(?:" + WORD + r"|[0-9]+)|" + WORD + r"|[0-9]+|\s+|[(){}\[\],]|[^\s(){}\[\],\w\"]+|.")
OPEN = {"(": ")", "{": "}", "[": "]"}
# the library's words that have another name, and paths
LIBRARY = {"List·Memᴰ": "Memᴰ", "bitAnd": "bit_and", "bitOr": "bit_or", "the-variants": "TheVariants"}


def names(landed):
    here = os.path.dirname(os.path.abspath(__file__))
    out = subprocess.run([sys.executable, os.path.join(here, "respell.py"), "--dry", "--names"], cwd=landed, capture_output=True, text=True).stdout
    found = {}
    for line in out.split("\n"):
        parts = line.split(" ")
        if len(parts) == 2 and ":" not in line:
            found[parts[0]] = parts[1]
    return found


def group(tokens, at, end):
    """The tokens up to the bracket `end`, as a list of strings and lists [open, inner, close]."""
    out = []
    while at < len(tokens):
        t = tokens[at]
        if t == end:
            return out, at
        if t in OPEN:
            inner, at = group(tokens, at + 1, OPEN[t])
            out.append([t, inner, OPEN[t] if at < len(tokens) else ""])
        else:
            out.append(t)
        at += 1
    return out, at


def is_atom(t):
    return isinstance(t, list) or t[0] == '"' or t[0].isdigit() or re.fullmatch(WORD, t) is not None


def words(items, own):
    """Turned text of a group; `x .f` is x.f, and `f x .g` is (f x).g."""
    out = []
    run = None
    for t in items:
        if isinstance(t, str) and t.isspace():
            out.append(t)
            continue
        if isinstance(t, str) and re.fullmatch(r"\.(?:" + WORD + r"|[0-9]+)", t) and run is not None:
            # the run of atoms before it
            while out and out[-1].isspace():
                out.pop()
            f = "." + own.get(t[1:], t[1:])
            atoms = [o for o in out[run:] if not o.isspace()]
            if len(atoms) == 1:
                out[run:] = [atoms[0] + f]
            else:
                out[run:] = ["(" + "".join(out[run:]) + ")" + f]
            continue
        if isinstance(t, str) and t in ("in", "let", "λ", "→", ":"):
            run = None
            out.append(t)
            continue
        if is_atom(t):
            if run is None:
                run = len(out)
            if isinstance(t, list):
                inner = words(t[1], own)
                if t[0] == "(" and t[2] == ")" and any(isinstance(u, str) and u.startswith(".") and len(u) > 1 for u in t[1]) and plain(inner):
                    out.append(inner)
                else:
                    out.append(t[0] + inner + t[2])
            else:
                out.append(own.get(t, LIBRARY.get(t, t)).replace("′", "'"))
        else:
            run = None
            out.append(t)
    return "".join(out)


def plain(text):
    """Whether a text is one word with its fields, so that brackets around it say nothing."""
    depth = 0
    for i, ch in enumerate(text):
        if ch == "(":
            depth += 1
        elif ch == ")":
            depth -= 1
        elif ch.isspace() and depth == 0:
            return False
    return True


def turn(text, own):
    tokens = PIECE.findall(text)
    items, at = group(tokens, 0, None)
    out = words(items, own)
    while at < len(tokens):
        out += tokens[at]
        at += 1
    return out


def equal(text):
    """`eqb a b` is a == b, and `leb a b` is a ≤ b, where the line has it so."""
    atom = r"([\w'.]+|\([^()]*(?:\([^()]*\)[^()]*)*\)[\w.]*)"
    return re.sub(r"\(eqb " + atom + " " + atom + r"\)", lambda m: "(" + bare(m.group(1)) + " == " + bare(m.group(2)) + ")", text)


def bare(text):
    return text[1:-1] if re.fullmatch(r"\([^()]*(?:\([^()]*\)[^()]*)*\)", text) and not re.search(r"[≡<≤=]", text) else text


def main(argv):
    landed = argv[0]
    dry = "--dry" in argv
    own = names(landed)
    turned = kept = 0
    for path in sorted(glob.glob("crates/*/must-fail/*.edit")):
        crate = path.split("/")[1]
        lines = open(path, encoding="utf-8").read().split("\n")
        old_texts, new_texts = {}, {}
        out = []
        file = old = None
        fell = []
        for line in lines:
            if line.startswith("file: "):
                file = line[6:]
                with open(os.path.join(landed, "crates", crate, file), encoding="utf-8") as f:
                    old_texts.setdefault(file, f.read())
                with open(os.path.join("crates", crate, file), encoding="utf-8") as f:
                    new_texts.setdefault(file, f.read())
            elif line.startswith("old: "):
                old = line[5:]
                continue
            elif line.startswith("new: "):
                new = line[5:]
                was, now = old_texts[file], new_texts[file]
                old_texts[file] = was.replace(old, new, 1)
                if now.count(old) == 1:
                    a, b = old, turn(new, own) if file.endswith(".antt") and turn(old, own) == old else new
                else:
                    row = next((l for l in was.split("\n") if old in l), None)
                    a = b = None
                    if row is not None:
                        for more in (lambda t: t, equal):
                            x, y = more(turn(row, own)), more(turn(row.replace(old, new, 1), own))
                            if now.split("\n").count(x) == 1:
                                a, b = more(turn(old, own)), more(turn(new, own))
                                if now.count(a) != 1 or x.replace(a, b, 1) != y:
                                    a, b = x, y
                                break
                    if a is None:
                        fell.append((file, old, row and turn(row, own)))
                        a, b = old, new
                new_texts[file] = now.replace(a, b, 1)
                out += ["old: " + a, "new: " + b]
                continue
            out.append(line)
        text = "\n".join(out)
        for f in fell:
            print("by hand:", path, *f, sep="\n    ")
        if text != "\n".join(lines):
            turned += 1
            if not dry:
                with open(path, "w", encoding="utf-8") as f:
                    f.write(text)
        elif not fell:
            kept += 1
    print("turned", turned, "as they were", kept)


if __name__ == "__main__":
    main(sys.argv[1:])
