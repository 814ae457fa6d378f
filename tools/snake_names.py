#!/usr/bin/env python3
"""Brings the repository's own definitions and lemmas to today's spelling: words in snake case, types and modules in camel case.

usage: snake_names.py [--check] [ROOT]

Run once, at the top, after port.py and before any proof is mended, since a renaming proves everything again.
It renames what specs/ and proofs/ declare, wherever the name stands as a word: in .antt and .rt files (in comments only in backticks) and in
must-fail/*.edit. A dash or a capital inside a word becomes _, but a dash beside an operator's sign or after a capitalised name stays, as in
moved-⊕ and In-append. What a proof of a function declares for Rattle's own goals keeps its name. It stops where two names would fall together.
"""
import collections
import glob
import os
import re
import sys

WORD = re.compile(r"[^\s(){}.;,@\"«»\[\]\\`]+")
MODS = r"(?:(?:abbrev|pub|unfoldable|opaque)\s+)*"
DECLARED = re.compile(r"^ *" + MODS + r"(?:(record|data)\s+)?([^\s(){}.;,@\"«»:\[\]]+)((?: \([^\n]*\)| \{[^\n]*\})*) :(?= |$)([^\n]*)", re.M)
SIGN = re.compile(r"[^\w'-]")
# Lemmas that port.py respelled already, whose name a definition takes now.
LEMMAS = "first_bit last_row too_far from_start held_place read_as second_at told_of".split()
# A lemma that joins two names, as the library's of that name does.
KEPT = {"eq-eqb"}
# Words of the library that lemmas would take.
LIBRARY = {"bit_and", "bit_or", "bit_xor"}
# Private definitions of files that never name one another.
APART = {"one_cell"}


def respelled(name, is_type):
    if is_type:
        return "".join(part[:1].upper() + part[1:] for part in name.split("-"))
    parts = name.split("-")
    parts = [re.sub(r"(?<=[a-z0-9])([A-Z])", lambda it: "_" + it[1].lower(), p) if p[:1].islower() else p for p in parts]
    new = parts[0]
    for before, part in zip(parts, parts[1:]):
        # the last sign of what is before, or the first of what follows
        keeps = (SIGN.search(part) and SIGN.search(before + "x") is None) or (part in ("⊕", "⊖")) or (before[:1].isupper() and before != "T")
        new += ("-" if keeps else "_") + part
    return new


def collected(root):
    found = collections.defaultdict(set)
    for path in glob.glob(root + "/crates/*/specs/**/*.antt", recursive=True) + glob.glob(root + "/crates/*/proofs/**/*.antt", recursive=True):
        with open(path, encoding="utf-8") as f:
            text = re.sub(r"--[^\n]*", "", f.read())
        for it in DECLARED.finditer(text):
            kind, name, _, rest = it.groups()
            if rest.strip().startswith("tie.") or name.endswith("-spec") and path.endswith("/Proof.antt"):
                continue
            found[name].add((os.path.relpath(path, root), bool(kind) or bool(re.search(r"(?:^|→)\s*Type \d\s*$", rest))))
    return found


def table(root):
    found, names = collected(root), {}
    for name, places in found.items():
        if name.startswith("◌") or name in KEPT or not ("-" in name or (name[0].islower() and re.search(r"[a-z0-9][A-Z]", name))):
            continue
        new = respelled(name, name[0].isupper() and any(it[1] for it in places))
        if new != name:
            names[name] = new
    taken = {new for name, new in names.items() if "-" not in name} | set(found) | LIBRARY
    for name, new in names.items():
        if "-" in name and new in taken:
            names[name] = new + "_lem"
    names.update((it, it + "_lem") for it in LEMMAS)
    by_new = collections.defaultdict(list)
    for name, new in names.items():
        by_new[new].append(name)
    clashes = [f"{' and '.join(olds)} would be {new}" for new, olds in by_new.items() if len(olds) > 1]
    clashes += [f"{olds[0]} would be {new}, which is declared" for new, olds in by_new.items() if new in found and new not in LEMMAS and new not in APART]
    return names, clashes


def turned(text, names, antt):
    word = lambda it: names.get(it[0], it[0])
    out = []
    comment = "--" if antt else "//"
    for line in text.split("\n"):
        at = re.search(r"(?<![^\s])" + comment + r"(?=\s|$|-|/)", line)
        code, rest = (line[: at.start()], line[at.start() :]) if at else (line, "")
        pieces = re.split(r'("(?:[^"\\]|\\.)*")', code) if not antt else [code]
        code = "".join(p if k % 2 else WORD.sub(word, p) for k, p in enumerate(pieces))
        rest = re.sub(r"`[^`]*`", lambda it: WORD.sub(word, it[0]), rest)
        out.append(code + rest)
    return "\n".join(out)


def main(argv):
    check = "--check" in argv
    argv = [it for it in argv if it != "--check"]
    root = argv[0] if argv else "."
    names, clashes = table(root)
    if clashes:
        print("\n".join(clashes))
    if check:
        for name, new in sorted(names.items()):
            print(f"{name} {new}")
        return 1 if clashes else 0
    if clashes:
        return 1
    changed = 0
    for path in sorted(glob.glob(root + "/crates/**/*", recursive=True)):
        if not path.endswith((".antt", ".rt", ".edit")) or "/out/" in path:
            continue
        with open(path, encoding="utf-8", newline="") as f:
            text = f.read()
        if path.endswith(".edit"):
            target = re.search(r"(?m)^file: (\S+)", text)[1]
            antt = target.endswith(".antt")
        else:
            antt = path.endswith(".antt")
        # a function of src/ may have the name of such a lemma, and keeps it
        new = turned(text, names if antt else {a: b for a, b in names.items() if a not in LEMMAS}, antt)
        if new != text:
            with open(path, "w", encoding="utf-8", newline="") as f:
                f.write(new)
            changed += 1
    print(f"{len(names)} names, {changed} files")
    return 0


if __name__ == "__main__":
    raise SystemExit(main(sys.argv[1:]))
