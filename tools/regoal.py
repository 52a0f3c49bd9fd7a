#!/usr/bin/env python3
"""Respells the names that Rattle makes for goals and steps, in the proofs of functions: source names keep their underscores.

usage: python3 tools/regoal.py [CRATE..]     at the top of the repository, after port.py and respell.py

An older Rattle wrote every name of a goal with dashes alone, as in-ok-words-at; today's keeps a name of the source as it is, as
in_ok-words_at. Names imported from Rattle's library stay.
"""
import os
import re
import sys

TOKEN = re.compile(r"[A-Za-z][\w'+]*(?:-[\w'+]+)+")
OUTSIDE = re.compile(r"use ((?:Rattle\.std|lib|borrow|Prim|mathlib|native|denote|logic|base|seplogic)(?:\.[\w'-]+)*)\.\{([^}]*)\}")
MADE = ["offset_bounds", "type_inv", "overflow_shr", "overflow_mul", "overflow_add", "overflow_sub", "overflow_cast", "overflow_shl", "overflow_step", "slice_bounds", "in_ok", "in_err", "in_default", "from_residual", "invariant_of", "is_true", "is_false", "enum_known", "known_told", "In_ok", "In_err", "In_default"]


def vocabulary(crate):
    words = set(MADE)
    for folder, _, names in os.walk(os.path.join(crate, "src")):
        for f in names:
            with open(os.path.join(folder, f), encoding="utf-8") as it:
                text = it.read()
            code = "\n".join(l for l in text.split("\n") if not l.strip().startswith(("//", "ghost use")))
            words |= {w for w in re.findall(r"[A-Za-z][A-Za-z0-9]*(?:_[A-Za-z0-9]+)+", code)}
    return words


def join(token, words):
    plus = token.split("+")
    if len(plus) > 1:
        return "+".join(join(p, words) for p in plus)
    parts, out, i = token.split("-"), [], 0
    while i < len(parts):
        for k in range(len(parts), i + 1, -1):
            if "_".join(parts[i:k]) in words:
                out.append("_".join(parts[i:k]))
                i = k
                break
        else:
            out.append(parts[i])
            i += 1
    return "-".join(out)


def main(argv):
    changed = 0
    for c in argv or sorted(os.listdir("crates")):
        crate = os.path.join("crates", c)
        words = vocabulary(crate)
        for folder, dirs, names in os.walk(os.path.join(crate, "proofs")):
            if folder == os.path.join(crate, "proofs"):
                continue
            for f in names:
                if f not in ("Answers.antt", "Invariants.antt", "Choices.antt"):
                    continue
                path = os.path.join(folder, f)
                with open(path, encoding="utf-8") as it:
                    text = it.read()
                outside = set()
                for _, items in OUTSIDE.findall(text):
                    outside |= {i.strip().split(" as ")[-1].strip() for i in items.split(",")}

                def put(m):
                    before = text[: m.start()][-1:]
                    if before != "." and m.group(0) in outside:
                        return m.group(0)
                    return join(m.group(0), words)

                new = TOKEN.sub(put, text)
                if new != text:
                    changed += 1
                    with open(path, "w", encoding="utf-8") as it:
                        it.write(new)
    print(f"{changed} files")
    return 0


if __name__ == "__main__":
    raise SystemExit(main(sys.argv[1:]))
