#!/usr/bin/env python3
"""mutate [--list] [CRATE ..]: changes each definition a little, and says which changes no computed row refuses.

Run it from the repository's root, as `python3 tools/mutate`. A definition and its code that are wrong alike pass every proof, so only
rows that are computed hold the definition to the papers. An interpreter (reader.py, world.py) runs the definitions; test.py holds it to
what the checker proves. Only definitions that can be seen count (contracts.py): those that lead from a contract of a function for C, or
of one that a program calls. Any other is tied to one of these by a proof.

A change that no row refuses has a line in tools/mutate/same: file | definition | change | why it changes nothing that can be seen.
`*` stands for every change of a definition; a reason that begins with `open` is not judged yet. It fails on a change with no line, on
one that has no value, and on a line that is not needed. --list prints the lines that are missing. The score by crate, as in docs/promises/mutants.md."""
import os, sys, time
from collections import Counter, defaultdict

sys.dont_write_bytecode = True

from changes import changed, changes, compiled, descends, ty
from contracts import seen
from reader import result
from tables import collect, coverage
from world import UNK, Unread, World, deep

SAME = os.path.join(os.path.dirname(os.path.abspath(__file__)), "same")


def tried(row):
    try:
        return row.run()
    except (IndexError, RecursionError, MemoryError, OverflowError):
        return UNK


def judged(w, x, rows):
    """refused: a row is false; endless: it calls itself without end, and the checker takes no such definition; broken: it has no value; else
    survives"""
    i = w.ids[x.m.rel, x.d.name]
    old, unknown = w.ns[i], False
    try:
        exec(compiled(w, x), w.ns)
        w.cache.clear()
        for r in rows:
            v = tried(r)
            if v is False:
                return "refused"
            unknown = unknown or v is UNK
    except (Unread, SyntaxError):
        unknown = True
    finally:
        w.ns[i] = old
        w.cache.clear()
    if not unknown:
        return "survives"
    return "broken" if descends(x.d.name, changed(x)) else "endless"


def all_changes(w, root, wanted):
    """the changes of every definition that can be seen, but for statements"""
    visible = seen(w, root)
    for m in w.mods.values():
        crate, kind, _ = m.rel.split("/")
        if kind != "specs" or wanted and crate not in wanted:
            continue
        for name in m.order:
            d = m.defs[name]
            if (m.rel, name) in visible and d.clauses and (m.rel, name) not in w.unread and not ty(m, result(d.sig)).startswith("Type"):
                yield from changes(w, m, d)


def listed():
    """(file, definition, change) to the reason"""
    out = {}
    for line in open(SAME, encoding="utf-8"):
        if line.strip() and not line.startswith("#"):
            path, name, change, why = line.rstrip("\n").split(" | ")
            out[path, name, change] = why
    return out


def score(all_, reasons):
    """prints the score by crate; the changes with no line, and the lines that are not needed"""
    table, missing, used = defaultdict(Counter), [], set()
    for x in all_:
        crate = x.m.rel.split("/")[0]
        kind = x.status
        if kind == "broken":
            missing.append(x)
        if kind == "survives":
            key = next((k for k in ((x.path(), x.d.name, x.text()), (x.path(), x.d.name, "*")) if k in reasons), None)
            if key is None:
                missing.append(x)
            used.add(key)
            kind = "open" if key is None or reasons[key].startswith("open") else "same"
        table[crate][kind] += 1
    print("| crate | changes | refused by a row | no difference | open | endless | broken |\n|---|---|---|---|---|---|---|")
    total = Counter()
    for crate, c in sorted(table.items()):
        total.update(c)
        print(f"| {crate} | {sum(c.values())} | {c['refused']} | {c['same']} | {c['open']} | {c['endless']} | {c['broken']} |")
    print(f"| all | {sum(total.values())} | {total['refused']} | {total['same']} | {total['open']} | {total['endless']} | {total['broken']} |")
    return missing, set(reasons) - used


def main():
    words = [a for a in sys.argv[1:] if a != "--list"]
    began = time.time()
    w = World(".")
    rows, false, unknown = collect(w)
    if false:
        return f"false: {', '.join(false)}"
    by = coverage(w, rows)
    all_ = list(all_changes(w, ".", set(words)))
    for x in all_:
        x.status = judged(w, x, by.get(w.ids[x.m.rel, x.d.name], []))
    if "--list" in sys.argv:
        for x in all_:
            if x.status == "survives":
                print(x.show())
        return 0
    missing, needless = score(all_, listed())
    print(f"\n{len(rows)} rows, {len(all_)} changes, {time.time() - began:.0f} s")
    for x in missing:
        print("no row refuses, no line explains:", x.show())
    for k in [] if words else sorted(needless):
        print("a line that is not needed:", " | ".join(k))
    return 1 if missing or needless and not words else 0


if __name__ == "__main__":
    deep(main)
