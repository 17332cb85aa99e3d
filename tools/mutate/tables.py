"""The computed rows of a tree: every closed statement of specs/ and proofs/ that is decided by computation.

A table (`map f rows ≡ map g rows`, or a rule for each member of `rows`) counts row by row, and where it is stated, not where it is proved.
What is not decided is no row."""
import time
from collections import defaultdict

from reader import bare
from world import UNK, Unread, tri


class Row:
    __slots__ = ("path", "label", "run", "value", "cost", "uses")

    def __init__(self, path, label, run):
        self.path, self.label, self.run = path, label, run
        self.value, self.cost, self.uses = UNK, 0, frozenset()


def elements(w, m, node):
    """the file and the nodes of a list that is named, or None"""
    node = bare(node)
    if node.k != "var":
        return None
    r = w.resolve(m, node.a)
    if not r or r[0] != "def":
        return None
    m = w.mods[r[1]]
    d = m.defs[r[2]]
    if not d.clauses or d.clauses[0][0]:
        return None
    out, n = [], bare(d.clauses[0][1])
    while n.k == "op" and n.a == "∷":
        out.append(n.b)
        n = bare(n.c)
    return (m, out) if n.k == "var" and n.a == "[]" else None


def thunk(w, code):
    f = eval(compile("lambda: " + code, "row", "eval"), w.ns)
    return lambda: tri(f)


def is_map(n):
    return n.k == "app" and bare(n.a).k == "var" and bare(n.a).a == "map" and len(n.b) == 2


def rule(n):
    """the variable, the list and the statement of a rule for each member of a list"""
    if n.k != "pi" or len(n.a) != 1 or len(n.a[0][0]) != 1 or n.b.k != "arr" or n.b.a.k != "app":
        return None
    f = bare(n.b.a.a)
    return (n.a[0][0][0], n.b.a.b[1], n.b.b) if f.k == "var" and f.a == "Memᴰ" else None


def statements(w, m, n, label, env=frozenset()):
    """(label, thunk) for each row of a statement"""
    n = bare(n)
    if n.k == "op" and n.a == "×":
        yield from statements(w, m, n.b, label, env)
        yield from statements(w, m, n.c, label, env)
        return
    found = None
    if n.k == "op" and n.a == "≡" and is_map(bare(n.b)) and is_map(bare(n.c)):
        l, r = bare(n.b), bare(n.c)
        found = elements(w, m, l.b[1])
        if found and "/proofs/" in m.rel and "/specs/" in found[0].rel:
            return
        if found:
            name = bare(l.b[1]).a
            f, g = w.code(m, l.b[0], env), w.code(m, r.b[0], env)
            for i, x in enumerate(found[1]):
                code = w.code(found[0], x, frozenset())
                yield f"{label}.{name}[{i + 1}]", thunk(w, f"(lambda x: eqp(({f})(x), ({g})(x)))({code})")
            return
    q = rule(n)
    if q:
        found = elements(w, m, q[1])
        if found:
            body = w.code(m, q[2], env | {q[0]})
            for i, x in enumerate(found[1]):
                yield f"{label}[{i + 1}]", thunk(w, f"(lambda {w.lv(q[0])}: {body})({w.code(found[0], x, frozenset())})")
            return
    code = w.code(m, n, env)
    if code != "UNK":
        yield label, thunk(w, code)


def candidates(w, m):
    kind = m.rel.split("/")[1]
    for name, (params, fields) in m.recs.items():
        if params or kind != "specs":
            continue
        before = set()
        for f, ty, _ in fields:
            if not before & set(names(ty)):
                yield f"{name}.{f}", ty
            before.add(f)
    for name, d in m.defs.items():
        if kind == "specs" and d.sigtext in ("Type 0", "Type₀") and d.clauses and not d.clauses[0][0]:
            yield name, d.clauses[0][1]
        elif kind == "proofs" and d.sig is not None and d.sig.k not in ("pi", "sig") and bare(d.sig).k != "var":
            yield name, d.sig


def names(n):
    """every name in a term"""
    if n is None or isinstance(n, (str, int)):
        return
    if isinstance(n, (list, tuple)):
        for x in n:
            yield from names(x)
        return
    if n.k == "var":
        yield n.a
    for x in (n.a, n.b, n.c):
        yield from names(x)


def collect(w, only=None):
    """(rows that are true, labels of those that are false, labels of those that are not decided), of all files or of one"""
    rows, false, unknown = [], [], []
    for m in [w.mods[only]] if only else w.mods.values():
        for label, node in candidates(w, m):
            try:
                found = list(statements(w, m, node, label))
            except (Unread, SyntaxError, TypeError, AttributeError):
                continue
            for label, run in found:
                w.cache.clear()
                row = Row(m.rel, f"{m.rel}.{label}", run)
                row.value = run()
                if row.value is UNK:
                    unknown.append(row.label)
                else:
                    (rows if row.value else false).append(row if row.value else row.label)
    return rows, false, unknown


def coverage(w, rows):
    """which definitions each row calls, and what it takes"""
    saved, hit = {}, set()
    for i in w.back:
        f = w.ns.get(i)
        if callable(f):
            saved[i] = f
            w.ns[i] = (lambda f, i: lambda *a: (hit.add(i), f(*a))[1])(f, i)
    for r in rows:
        w.cache.clear()
        hit.clear()
        began = time.perf_counter()
        r.run()
        r.cost, r.uses = time.perf_counter() - began, frozenset(hit)
    w.ns.update(saved)
    w.cache.clear()
    by = defaultdict(list)
    for r in sorted(rows, key=lambda r: r.cost):
        for i in r.uses:
            by[i].append(r)
    return by
