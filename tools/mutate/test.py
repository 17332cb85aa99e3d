#!/usr/bin/env python3
"""test.py: holds the interpreter of tools/mutate to the checker. Run it from the repository's root, as `python3 tools/mutate/test.py`.

A wrong interpreter must not say "refused". So: every row that the checker proves is true here, and every row of a table is decided;
every must-fail edit of a table, which the checker refuses, makes a row false here; with a function of the toolkit wrong, a row is
false; and each wrong rule that was once found by hand is refused."""
import ast, glob, os, sys

sys.dont_write_bytecode = True

from changes import Change, compiled
from tables import collect, coverage
from world import World, deep

# a function of the toolkit, and a wrong one in its place
WRONG = {
    "sub": lambda a, b: abs(a - b),
    "div": lambda a, b: -(-a // b) if b else 0,
    "mod": lambda a, b: a % b if b else 0,
    "take": lambda n, l: l[: n + 1],
    "drop": lambda n, l: l[n + 1 :],
    "getD": lambda l, n, d: l[n] if n < len(l) else 1,
    "setl": lambda l, n, x: l[:n] + (x,) + l[n + 1 :],
    "sets": lambda l, at, xs: l[:at] + xs + l[at + len(xs) :],
    "replicate": lambda n, x: (x,) * (n + 1),
    "mapl": lambda f, l: tuple(f(x) for x in reversed(l)),
    "toZ": lambda w, v: v,
    "ofZ": lambda w, z: abs(z),
    "eqp": lambda a, b: False,
    "power": lambda a, b: a * b,
    "unwrap_or": lambda o, d: d,
    "is_none": lambda o: o[0] == "Some",
}


def wrong_toolkit(w, rows):
    bad = []
    for name, f in WRONG.items():
        w.ns[name], right = f, w.ns[name]
        w.cache.clear()
        if not any(r.run() is False for r in rows):
            bad.append(f"{name} may be wrong, and every row is true")
        w.ns[name] = right
    w.cache.clear()
    return bad


def edits(path):
    """the pairs of old and new text of a must-fail edit, by file"""
    out, name, old = {}, None, None
    for line in open(path, encoding="utf-8"):
        word, _, rest = line.rstrip("\n").partition(": ")
        if word == "file":
            name = rest
        elif word == "old":
            old = rest
        elif word in ("new", "new:"):
            out.setdefault(name, []).append((old, rest))
    return out


def must_fail(w, tables):
    """edits of the tables: a row is false"""
    bad, tried = [], 0
    for rel in sorted(tables):
        crate, kind, file = rel.split("/")
        for path in sorted(glob.glob(f"crates/{crate}/must-fail/*.edit")):
            pairs = edits(path).get(f"{kind}/{file}.antt")
            if not pairs:
                continue
            tried += 1
            text = w.mods[rel].text
            for old, new in pairs:
                text = text.replace(old, new)
            right = w.mods[rel].text
            w.replace(rel, text)
            if not collect(w, rel)[1]:
                bad.append(f"{path}: every row is true")
            w.replace(rel, right)
    return bad, tried


def by_hand(w, rows):
    """the wrong rules of tools/mutate/wrong: each is refused"""
    bad, tried = [], 0
    by = coverage(w, rows)
    here = os.path.dirname(os.path.abspath(__file__))
    for part in open(os.path.join(here, "wrong"), encoding="utf-8").read().split("\n\n"):
        lines = [l for l in part.split("\n") if l and not l.startswith("#")]
        if not lines:
            continue
        path, name = lines[0].split(" | ")
        old, new = (ast.literal_eval(l[5:]) for l in lines[1:3])
        rel = path[len("crates/") : -len(".antt")]
        m = w.mods[rel]
        d = m.defs[name]
        at = m.text.find(old, min(c[2] for c in d.clauses))
        if at < 0:
            bad.append(f"{path} {name}: it has no {old}")
            continue
        tried += 1
        i = w.ids[rel, name]
        right = w.ns[i]
        exec(compiled(w, Change(m, d, [(at, at + len(old), new)], "by hand", old, new)), w.ns)
        w.cache.clear()
        if not any(r.run() is False for r in by[i]):
            bad.append(f"{path} {name}: {new} is refused by no row")
        w.ns[i] = right
        w.cache.clear()
    return bad, tried


def main():
    w = World(".")
    rows, false, unknown = collect(w)
    bad = [f"{m.rel}: not read: {why}" for m in w.mods.values() if "/specs/" in m.rel for _, _, why in m.bad]
    bad += [f"false: {x}" for x in false] + [f"not decided: {x}" for x in unknown if x.endswith("]")]
    tables = {r.path for r in rows if r.label.endswith("]")}
    found, edited = must_fail(w, tables)
    bad += found
    found, wrong = by_hand(w, rows)
    bad += found + wrong_toolkit(w, rows)
    for x in bad:
        print(x)
    print(f"{len(rows)} rows, {edited} must-fail edits, {wrong} wrong rules, {len(WRONG)} wrong functions: {len(bad)} faults")
    return 1 if bad else 0


if __name__ == "__main__":
    deep(main)
