"""What can be seen: the definitions that lead from the contracts of the functions for C, and of those that the programs call."""
import glob, os, re

from reader import strip_rt
from tables import names

FN = re.compile(r'\bfn (\w+)\s*(?:<[^>]*>)?\s*\(')


def functions(text):
    """(name, what stands before it, contract, body) of each function"""
    found = list(FN.finditer(text))
    for i, q in enumerate(found):
        end = found[i + 1].start() if i + 1 < len(found) else len(text)
        part = text[q.start():end]
        body = re.search(r"\n[ ]*\{(\}|\n)", part)
        if body:
            yield q[1], text[text.rfind("\n", 0, q.start()) + 1:q.start()], part[:body.start()], body[1] != "}"


def sources(crate):
    for f in sorted(glob.glob(f"{crate}/src/**/*.rt", recursive=True)):
        yield strip_rt(open(f, encoding="utf-8").read())


def cited(w, text, contract):
    """the definitions that a contract names"""
    here = {}
    for q in re.finditer(r"ghost use (\S+?)\.\{(.*?)\};", text, re.S):
        for x in q[2].split(","):
            a, _, b = x.strip().partition(" as ")
            here[b or a] = (q[1], a)
    for word in re.findall(r"[^\s(){}⌜⌝,.]+", contract):
        if word in here:
            r = w.inmod(*here[word])
            if r and r[0] in ("def", "rec"):
                yield r[1:3]


def seen(w, root):
    """the definitions that lead from these contracts"""
    crates = sorted(glob.glob(root + "/crates/*"))
    called = set()
    for c in crates:
        if os.path.exists(c + "/src/main.rt"):
            for text in sources(c):
                called |= {(q[1], q[2]) for q in re.finditer(r"\b(\w+)::(?:\w+::)*(\w+)[;(]", text)}
                for q in re.finditer(r"\b(\w+)::(?:\w+::)*\{([^}]*)\}", text):
                    called |= {(q[1], re.split(r"::| as ", name.strip())[0]) for name in q[2].split(",")}
    todo = []
    for c in crates:
        for text in sources(c):
            for name, before, contract, does in functions(text):
                if does and ('extern "C"' in before or (os.path.basename(c), name) in called):
                    todo += cited(w, text, contract)
    found = set()
    while todo:
        k = todo.pop()
        if k in found:
            continue
        found.add(k)
        m = w.mods[k[0]]
        terms = [(b, p) for p, b, _, _ in m.defs[k[1]].clauses] if k[1] in m.defs else [t for _, t, _ in m.recs[k[1]][1]]
        for name in set(names(terms)):
            r = w.resolve(m, name)
            if r and r[0] in ("def", "rec"):
                todo.append(r[1:3])
    return found
