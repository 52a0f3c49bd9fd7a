#!/usr/bin/env python3
"""Respells the repository's own definitions and lemmas: words in snake case, types and facts in upper camel case.

usage: python3 tools/respell.py [--dry]      at the top of the repository, once, after port.py

It turns what the files of specs/ and proofs/ define: definitions, lemmas, fields and constructors of theirs, and in files of
lemmas also bound variables. Names that Rattle makes (goals, steps), names of its library, functions of src/, strings and comments stay.
It prints `clash:` where two names of one file would fall together, and writes nothing then.
"""
import collections
import os
import re
import sys

ID = re.compile(r"[A-Za-z][\w'?]*(?:-[\w'?]+)*")
# names that would fall together with another, and values that were spelled as types
SPELLED = {
    "Conditions": "conditions_grammar",
    "Unruled-conditions": "unruled_conditions_grammar",
    "Commands": "commands_grammar",
    "Comparisons": "comparisons_grammar",
    "Nonassociative": "nonassociative_grammar",
    "Left-and-right": "left_and_right_grammar",
    "Any-pairs": "any_pairs_grammar",
    "Left-pairs": "left_pairs_grammar",
    "Pairs": "pairs_grammar",
    "Detour": "detour_grammar",
    "Taken-back": "TakenFromEnd",
    "bit-or": "bit_of_or",
    "bit-and": "bit_of_and",
    "conditions-seen": "conditions_answers",
    "run-word": "word_of_run",
}
OUTSIDE = re.compile(r"use ((?:Rattle\.std|lib|borrow|Prim|mathlib|native|denote|logic|base|seplogic)(?:\.[\w']+)*)\.\{([^}]*)\}")
INNER = re.compile(r"(?m)^[ \t]+pub (?:abbrev )?([A-Za-z][\w'?-]*)\s*(?=[:({])")
TOP = re.compile(r"(?m)^(?:(?:abbrev|unfoldable|pub|record|data|ruleset)\s+)*([A-Za-z][\w'?-]*)\s*(?=[:({])")
BLOCK = re.compile(r"(?m)^(?:pub )?(?:record|data) [^\n]*where\n((?:[ \t]+[^\n]*\n|\n)*)")
FIELD = re.compile(r"(?m)^\s+(?:pub )?([A-Za-z][\w'?-]*)\s*:")


def spelled(name, text):
    if name == "Between" and re.search(r"abbrev pub Between : Grammar|small_grammars\.specs\.Grammars\.\{[^}]*\bBetween\b", text):
        return "between_grammar"
    if name in SPELLED:
        return SPELLED[name]
    if name[0].isupper():
        parts = [p for p in re.split(r"[-_]", name) if p]
        return "".join(p[0].upper() + p[1:] for p in parts)
    return name.replace("-", "_")


def files(top):
    for folder, dirs, names in os.walk(os.path.join(top, "crates")):
        dirs[:] = sorted(d for d in dirs if d != "out")
        for f in sorted(names):
            if f.endswith((".antt", ".rt", ".edit")):
                yield os.path.join(folder, f)


def is_lemmas(path):
    """A file of definitions or lemmas, not the proof of one function."""
    folder = os.path.basename(os.path.dirname(path))
    return path.endswith(".antt") and folder in ("specs", "proofs")


def code_parts(text, path):
    """The text in pieces, each with whether it may be respelled: not comments, not strings."""
    mark = "--" if path.endswith(".antt") else "//"
    pattern = re.compile(r'(?:(?<=\s)|^)' + re.escape(mark) + r'[^\n]*|b?"(?:\\.|[^"\\\n])*"', re.M)
    at = 0
    for m in pattern.finditer(text):
        yield text[at:m.start()], True
        yield m.group(0), False
        at = m.end()
    yield text[at:], True


def collect(texts):
    defined, fields = set(), set()
    for path, text in texts.items():
        if not is_lemmas(path):
            continue
        defined |= set(TOP.findall(text)) | set(INNER.findall(text))
        for block in BLOCK.findall(text):
            fields |= set(FIELD.findall(block))
    return defined, fields


def outside_names(text):
    names = set()
    for _, items in OUTSIDE.findall(text):
        for item in items.split(","):
            names.add(item.strip().split(" as ")[-1].strip())
    return names


def turn(path, text, defined, fields):
    outside = outside_names(text)
    goals = set(re.findall(r"goal\.([A-Za-z][\w'?+-]*)", text))
    lemmas = is_lemmas(path)
    here = set() if lemmas or path.endswith(".rt") else set(TOP.findall(text))
    ghost_uses = set(ID.findall(" ".join(re.findall(r"ghost use [^;]*\{([^}]*)\}", text))))
    used = "\n".join(re.findall(r"(?m)^(?:ghost )?use [^\n]*", text))
    aliases = set(re.findall(r" as ([A-Za-z][\w'?]*(?:-[\w'?]+)+)", used))
    turned, kept = {}, set()

    def new_name(piece, m):
        name = m.group(0)
        before = piece[: m.start()][-1:]
        after = piece[m.end():][:1]
        if before == "+" or after == "+":
            return name
        if "-" not in name and (re.search(r"\bmod $", piece[: m.start()]) or after == "." and re.search(r"\.(proofs|specs)\.$", piece[: m.start()])):
            return name
        if "-" not in name and path.endswith(".rt") and name not in ghost_uses:
            return name
        if before == ".":
            # a field of a value; after a module's path it is a definition
            path_before = re.search(r"[\w.'+-]*\.$", piece[: m.start()])
            if name in fields or (re.match(r"Rattle\.", path_before.group(0)) and name in defined):
                pass
            else:
                return name
        elif name in aliases:
            pass
        elif name in outside or name in goals:
            return name
        elif not (name in defined or name in fields or name in here or ("-" in name and (lemmas or spelled(name, text) in defined))):
            return name
        return spelled(name, text)

    out = []
    for piece, free in code_parts(text, path):
        if not free:
            out.append(piece)
            continue

        def put(m):
            new = new_name(piece, m)
            if new != m.group(0):
                turned[m.group(0)] = new
            elif piece[: m.start()][-1:] != ".":
                kept.add(new)
            return new

        out.append(ID.sub(put, piece))
    seen = collections.defaultdict(set)
    for old, new in turned.items():
        seen[new].add(old)
        if new in kept:
            seen[new].add(new)
    clashes = {new: olds for new, olds in seen.items() if len(olds) > 1}
    return "".join(out), turned, clashes, outside


def main(argv):
    dry = "--dry" in argv
    texts = {}
    for path in files("."):
        with open(path, encoding="utf-8") as f:
            texts[path] = f.read()
    defined, fields = collect(texts)
    renamed, clashed, results = {}, 0, {}
    for path, text in texts.items():
        new, turned, clashes, outside = turn(path, text, defined, fields)
        for name, olds in sorted(clashes.items()):
            clashed += 1
            print(f"clash: {path}: {sorted(olds)} become {name}")
        for old, name in turned.items():
            if name in outside:
                clashed += 1
                print(f"clash: {path}: {old} becomes {name}, which is imported")
        renamed.update(turned)
        results[path] = new
    if "--list" in argv:
        for old in sorted(renamed):
            print(f"{old} -> {renamed[old]}")
    print(f"{len(renamed)} names, {sum(results[p] != texts[p] for p in texts)} files, {clashed} clashes")
    if dry or clashed:
        return 1 if clashed else 0
    for path, new in results.items():
        if new != texts[path]:
            with open(path, "w", encoding="utf-8") as f:
                f.write(new)
    return 0


if __name__ == "__main__":
    raise SystemExit(main(sys.argv[1:]))
