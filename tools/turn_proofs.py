#!/usr/bin/env python3
"""Turns a proof by Tie and Needs, proofs/F/Proof.antt, into Invariants.antt and Answers.antt.

usage: turn_proofs.py NAMES CRATE [F..]

NAMES is the names.json that 'rattle check --generated DIR --old-names' writes for the crate, and CRATE its folder. A file of another
form stays. What only says `search rules` goes, since the check tries that by itself. It goes by text: the check decides.
"""
import glob
import json
import os
import re
import sys

ID = r"[^\s(){}.;,@\"«»\[\]\\]+"


def plain(it):
    return re.sub("-+", "-", it.replace("_", "-"))


def chunks(text):
    """Top declarations: a comment above belongs to what follows."""
    out, now = [], []
    for line in text.split("\n"):
        if line and not line[0].isspace() and now and any(l.strip() for l in now):
            head = re.match(rf"(?:(?:abbrev|pub|unfoldable)\s+)*({ID})\s*(:|=| )", line)
            prev = [l for l in now if l.strip()]
            same = False
            if prev[-1].startswith("--"):
                same = True
            elif line.startswith("unfolding "):
                same = True
            elif head:
                names = [m[1] for l in prev for m in [re.match(rf"(?:(?:abbrev|pub|unfoldable)\s+)*({ID})(?:$|\s)", l)] if m and not l[0].isspace() and not l.startswith("--")]
                first = [n for n in names if n not in ("unfolding",)]
                if first and first[0] == head[1] and not line.startswith("use "):
                    same = True
            if line.startswith("use ") or prev[-1].startswith("use "):
                same = False
            if prev and all(l.startswith("--") for l in prev):
                same = True
            if not same:
                out.append("\n".join(now).strip("\n"))
                now = []
        now.append(line)
    if any(l.strip() for l in now):
        out.append("\n".join(now).strip("\n"))
    return out


class Names:
    def __init__(self, of, path):
        self.of, self.path = of, path
        self.needs = {}
        for old, new in of["needs"]:
            self.needs.setdefault(plain(old), new)
        self.steps, self.places, self.arms = {}, {}, {}
        for it, new in zip(of["places"], of["places_by_name"]):
            old, _, (step, name) = it[0], it[1], it[2]
            self.places[plain(old)] = new
            if step:
                self.steps.setdefault(plain(step), name)
        for (old, new) in [tuple(x[0]) for x in of["loops"]]:
            self.steps[plain(old)] = new
        self.index = {plain(it[0]): k for k, it in enumerate(of["places"])}
        self.at = {}
        for (old, _), (place, _) in zip(of["needs"], of["asked_at"]):
            self.at.setdefault(plain(old), place)
        self.args = {}
        for old, new in of["args"]:
            if old.startswith(".args "):
                self.args[old.split(".")[-1]] = new.split(".")[-1]
        self.loops = {plain(x[0][0]): (x[0][1], x[1], ch) for x, ch in zip(of["loops"], of["changed"])}

    def stand(self, place):
        """Notes which arms lie on the way to a place: their fields stand for the steps that they hold."""
        self.arms = {}
        while place is not None and plain(place) in self.index:
            k = self.index[plain(place)]
            arm = self.of["arms"][k]
            levels = 1
            if arm:
                name, levels, fields = arm
                for field, step, below in fields:
                    self.arms.setdefault((plain(step), tuple(below)), (name, field))
            for _ in range(levels):
                parent = self.of["places"][self.index[plain(place)]][1] if place is not None else None
                place = parent


PATH = re.compile(rf"(?<![^\s(){{}};,\[\]])({ID})((?:\.{ID})+)(?![^\s(){{}};,\[\].])")


def turn_body(text, n, roots, aliases):
    """roots: variables that are places; aliases: variables that are steps."""

    def path(it):
        root, rest = it[1], it[2].split(".")[1:]
        if root not in roots:
            if root in aliases:
                rest2 = [n.args.get(x, x) for x in rest] if aliases[root] == "args" else rest
                return ".".join([root] + rest2)
            return it[0]
        while rest and rest[0] == "before":
            rest = rest[1:]
        if not rest:
            return root
        step, fields = rest[0], rest[1:]
        key = plain(step)
        for (old, below), (arm, field) in n.arms.items():
            if old == key and list(below) == fields[: len(below)]:
                return ".".join([root, arm, field] + fields[len(below):])
        new = n.steps.get(key, step)
        if step == "args":
            fields = [n.args.get(f, f) if k == 0 else f for k, f in enumerate(fields)]
        if re.match(r"if\d", step) and fields[:1] in (["left"], ["right"]):
            fields[0] = {"left": "false", "right": "true"}[fields[0]]
        return ".".join([root, new] + fields)

    return PATH.sub(path, text)


def turn_let(text, n, roots, aliases):
    """Notes what a let binds to a place or a step, and drops a let of a place."""
    for it in re.finditer(rf"\blet ({ID}) = ({ID})((?:\.{ID})*) in", text):
        name, root, rest = it[1], it[2], it[3].split(".")[1:]
        if root in roots:
            left = [x for x in rest if x != "before"]
            if not left:
                roots.add(name)
            elif len(left) == 1:
                aliases[name] = left[0]
    return text


def turned(path, crate, f, n):
    with open(path, encoding="utf-8") as it:
        text = it.read()
    if "tie.close" not in text:
        return None
    module = f"Rattle.{crate}.proofs.{f.replace('/', '.')}"
    parts = chunks(text)
    uses, head, answers, invariants, kept = [], "", [], [], []
    shortcuts = {}
    for p in parts:
        lines = p.split("\n")
        code = [l for l in lines if not l.startswith("--")]
        if all(l.startswith("--") for l in lines):
            head += p + "\n"
            continue
        if code[0].startswith("use "):
            com = [l for l in lines if l.startswith("--")]
            if com and not uses:
                head += "\n".join(com) + "\n"
            for l in code:
                if ".Statement.{statement}" in l or re.search(r"\.Tie as tie$", l):
                    continue
                uses.append(l)
            continue
        if "tie.close" in p:
            continue
        m = re.match(rf"(?:abbrev )?(?:pub )?({ID}) : tie\.(invariant|decreases)-({ID})", code[0])
        if m:
            name = m[1]
            old = m[3]
            loop = None
            for (a, b), vs, ch in [(x[0], x[1], c) for x, c in zip(n.of["loops"], n.of["changed"])]:
                if plain(a) == plain(old):
                    loop = (b, vs, ch)
            if not loop:
                kept.append(p)
                continue
            new, vs, ch = loop
            body = "\n".join(code[1:])
            unf = ""
            if body.startswith("unfolding"):
                unf, body = body.split("\n", 1)
                unf += "\n"
            lhs, rhs = re.match(rf"{re.escape(name)}([^=]*?) =(.*)", body, re.S).groups()
            params = lhs.split()
            values = [("l.initial." if c else "l.") + v for v, c in zip(vs, ch)] + ["l." + v for v, c in zip(vs, ch) if c]
            if len(params) == len(values):
                table = {p_: v for p_, v in zip(params, values) if p_ != "_"}
                rhs = re.sub(rf"(?<![^\s(){{}};,\[\]])({ID})(?=[\s(){{}};,\[\].]|$)", lambda it: table.get(it[1], it[1]), rhs)
                invariants.append(f"abbrev pub {m[2]}-{new} : goal.{m[2]}-{new}\n{unf}{m[2]}-{new} l ={rhs}")
            else:
                invariants.append(f"-- TODO params {params} values {values}\nabbrev pub {m[2]}-{new} : goal.{m[2]}-{new}\n{unf}{m[2]}-{new}{lhs} ={rhs}")
            continue
        m = re.match(rf"(?:pub )?({ID}) : tie\.Need-({ID})", code[0])
        if m:
            name, old = m[1], m[2]
            new, key = None, plain(old)
            for key in (key, re.sub("^overflow-", "", key), re.sub("^(slice-bounds)-", "", key), re.sub("^slice-bounds-", "part-", key)):
                new = new or n.needs.get(key)
                if new:
                    old = key
                    break
            body = "\n".join(code[1:])
            if re.fullmatch(rf"{re.escape(name)}( {ID})* =\s*search rules\s*", body):
                continue
            if new is None:
                kept.append("-- TODO no goal for " + old + "\n" + p)
                continue
            com = [l for l in lines if l.startswith("--")]
            answers.append(("\n".join(com) + "\n" if com else "", new, name, body, n.at.get(plain(old))))
            continue
        m = re.match(rf"(?:abbrev )?({ID}) : tie\.({ID}) → tie\.({ID})$", code[0])
        if m and len(code) > 1 and re.fullmatch(rf"{re.escape(m[1])} ({ID}) = \1(\.before)+|{re.escape(m[1])} ({ID}) = \3", code[1]):
            shortcuts[m[1]] = True
            continue
        kept.append(p)
    # what stands for a place by a function: the place itself
    def shorten(t):
        for s in shortcuts:
            t = re.sub(rf"\({re.escape(s)} ((?:{ID})(?:\.{ID})*)\)", r"\1", t)
            t = re.sub(rf"(?<![^\s(){{}};,\[\]]){re.escape(s)} ((?:{ID})(?:\.{ID})*)", r"\1", t)
        return t

    out = []
    for p in kept:
        p = shorten(p)
        roots, aliases = set(), {}
        spoken = re.search(rf"tie\.({ID})", p)
        n.stand(spoken and spoken[1])
        for it in re.finditer(rf"\(({ID}) : tie\.({ID})\)", p):
            roots.add(it[1])
        if re.search(r": tie\.|→ tie\.", p):
            roots.add("c")
        turn_let(p, n, roots, aliases)
        p = turn_body(p, n, roots, aliases)
        p = re.sub(rf"tie\.({ID})(( invariant-{ID}| decreases-{ID})*)", lambda it: "goal." + n.places.get(plain(it[1]), it[1]), p)
        p = re.sub(r"\blet (\S+) = \1 in\s*", "", p)
        out.append(p)
    renamed = {}
    for com, new, name, body, _ in answers:
        renamed[name] = new
    for com, new, name, body, place in answers:
        n.stand(place)
        unf = ""
        if body.startswith("unfolding"):
            unf, body = body.split("\n", 1)
            unf += "\n"
        body = shorten(body)
        m = re.match(rf"{re.escape(name)}((?: (?!=){ID})*) =(.*)", body, re.S)
        if not m:
            out.append(f"{com}-- TODO form\npub {new} : goal.{new}\n{unf}{body}")
            continue
        params, rhs = m[1].split(), m[2]
        params = [p for p in params if p != "κs"]
        roots, aliases = {params[-1]} if params else set(), {}
        turn_let(rhs, n, roots, aliases)
        rhs = turn_body(rhs, n, roots, aliases)
        rhs = re.sub(r"\blet (\S+) = \1 in\s*", "", rhs)
        out.append(f"{com}pub {new} : goal.{new}\n{unf}{new} {' '.join(params)} ={rhs}")
    folder = os.path.dirname(path)
    res = []
    if invariants:
        res.append(("Invariants.antt", head + "\n".join(uses + [f"use {module}.Given as goal"]) + "\n\n" + "\n\n".join(invariants) + "\n"))
        head = ""
    if out:
        res.append(("Answers.antt", head + "\n".join(uses + [f"use {module}.Goals as goal"]) + "\n\n" + "\n\n".join(out) + "\n"))
    return folder, res


def main(argv):
    names, crate, *only = argv
    with open(names, encoding="utf-8") as f:
        listed = json.load(f)
    name = os.path.basename(os.path.abspath(crate))
    for path in sorted(glob.glob(glob.escape(crate) + "/proofs/**/Proof.antt", recursive=True)):
        f = os.path.relpath(os.path.dirname(path), crate + "/proofs")
        if only and f not in only:
            continue
        key = f"Rattle-{name}-proofs.{f.replace('/', '.')}.Lts"
        if key not in listed:
            print(f"left: {path}: no names")
            continue
        got = turned(path, name, f, Names(listed[key], key))
        if got is None:
            print(f"left: {path}: another form")
            continue
        folder, res = got
        for file, text in res:
            with open(os.path.join(folder, file), "w", encoding="utf-8") as it:
                it.write(text)
            if "TODO" in text:
                print(f"look: {os.path.join(folder, file)}")
        os.remove(path)
        if not os.listdir(folder):
            os.rmdir(folder)
    return 0


if __name__ == "__main__":
    raise SystemExit(main(sys.argv[1:]))
