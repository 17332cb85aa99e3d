"""The wrong definitions: each is one change of the text of one definition, and keeps its types.

A number one more or one less; a comparison turned, let through one more or one less; lines of a table exchanged or left out; a truth
turned; one side of `and`, `or`, `++`; a condition's branches; arguments, fields, variables and constructors of one type exchanged;
a guard left out, or two exchanged; a named number for another of its file; a call left out for an argument of its type, where that is no
number; `None` for `Some` of a value."""
import re

from reader import argtypes, bare, clause, result
from tables import names
from world import STD, Unread

NUM = {"u8", "u16", "u32", "u64", "usize"}


def rust_type(t):
    t = t.strip().lstrip("&").replace("mut ", "").strip()
    if t in NUM:
        return "ℕ"
    if t == "bool":
        return "Bool"
    if t in ("i32", "i64"):
        return "ℤ"
    q = re.match("\\[(.*?)(;.*)?\\]$", t)
    if q:
        return "List " + rust_type(q[1])
    return t.rsplit("::", 1)[-1]


def norm(t):
    t = " ".join(t.split())
    while t.startswith("(") and t.endswith(")") and balanced(t[1:-1]):
        t = t[1:-1]
    return t.rsplit(".", 1)[-1] if " " not in t else t


def balanced(s):
    d = 0
    for c in s:
        d += (c == "(") - (c == ")")
        if d < 0:
            return False
    return d == 0


def ty(m, n):
    return norm(m.text[n.s : n.e])


class Change:
    __slots__ = ("m", "d", "edits", "op", "old", "new", "nth", "status")

    def __init__(self, m, d, edits, op, old, new):
        self.m, self.d, self.edits, self.op, self.old, self.new = (m, d, edits, op, old, new)
        self.nth, self.status = 1, None

    def path(self):
        return f"crates/{self.m.rel}.antt"

    def text(self):
        """the change in one line; where a definition has it more than once, with which it is"""
        return f"{self.op}: {self.old} -> {self.new}" + (f" ({self.nth})" if self.nth > 1 else "")

    def show(self):
        return f"{self.path()} | {self.d.name} | {self.text()}"


def record_fields(w, names=None, typename=None):
    """the fields with their types of the records with exactly these names, or of this name"""
    out = []
    for m in w.mods.values():
        if "/specs/" not in m.rel:
            continue
        for n, (ps, fs) in m.recs.items():
            if names and {f for f, _, _ in fs} == names or (typename and n == typename):
                out.append([(f, norm(tx)) for f, _, tx in fs])
    for k, fs in w.structs.items():
        ff = [(f, rust_type(t)) for f, t in fs]
        n = re.split("[./]", k)[-1]
        if names and {f for f, _ in ff} == names or (typename and n == typename):
            out.append(ff)
    return out


def ctor_types(w, m, r):
    if ":" in r[1] and "/specs/" in r[1] or "/proofs/" in r[1]:
        rel, t = r[1].split(":")
        mm = w.mods[rel]
        return [ty(mm, x) for x in mm.ctors[r[2]][1]]
    return [rust_type(x) for x in dict(w.enums[r[1]])[r[2]]]


def held(w, m, r, t):
    """the types of what a constructor holds, where the whole has the type t: those of the Prelude hold an argument of it"""
    if r[1] not in STD:
        return ctor_types(w, m, r)
    at = 1 if r[2] == "Err" else 0
    args = arguments(t)
    return [norm(args[at]) if at < len(args) else "?"]


def arguments(t):
    """the arguments of a type, as they are written"""
    out, d = [], 0
    for word in t.split(" "):
        if d:
            out[-1] += " " + word
        else:
            out.append(word)
        d += word.count("(") - word.count(")")
    return out[1:]


def siblings(w, r):
    """constructors of the same type with the same arguments"""
    if ":" in r[1]:
        rel, t = r[1].split(":")
        mm = w.mods[rel]
        mine = [ty(mm, x) for x in mm.ctors[r[2]][1]]
        return [c for c in mm.datas[t][1] if c != r[2] and [ty(mm, x) for x in mm.ctors[c][1]] == mine]
    vs = dict(w.enums[r[1]])
    return [c for c in vs if c != r[2] and [rust_type(x) for x in vs[c]] == [rust_type(x) for x in vs[r[2]]]]


def local_name(w, m, r, name):
    """how a file names a constructor or definition"""
    for b, (p, a) in m.imports.items():
        if a == name:
            try:
                q = w.resolve(m, b)
            except Unread:
                continue
            if q and q[:2] == r[:2] and (q[2] == name):
                return b
    if name in m.ctors and r[1].startswith(m.rel + ":"):
        return name
    for al, path in m.alias.items():
        k = w.module(path)
        if k and k[0] == "variants" and (k[1] == r[1]):
            return f"{al}.{name}"
        if k and k[0] == "mod" and r[1].startswith(k[1] + ":"):
            return f"{al}.{name}"
        if path.endswith(".Prelude") and r[1] in STD:
            return f"{al}.{name}"
    for b, (path, a) in m.imports.items():
        if w.module(path) == ("type", r[1]):
            return f"{b}.{name}"
    return None


def pattern_env(w, m, p, t, env):
    p = bare(p)
    if p.k == "var":
        if p.a in ("_", "zero", "[]", "true", "false", "none"):
            return
        try:
            r = w.resolve(m, p.a)
        except Unread:
            r = None
        if r and r[0] == "ctor" and (r[3] == 0):
            return
        env[p.a] = t
    elif p.k == "op" and p.a == "∷":
        e = norm(t[5:]) if t.startswith("List ") else "?"
        pattern_env(w, m, p.b, e, env)
        pattern_env(w, m, p.c, t, env)
    elif p.k == "app":
        f = bare(p.a)
        if f.a == "suc":
            return pattern_env(w, m, p.b[0], "ℕ", env)
        try:
            r = w.resolve(m, f.a)
        except Unread:
            r = None
        if r and r[0] == "ctor":
            for x, tt in zip(p.b, held(w, m, r, t)):
                pattern_env(w, m, x, tt, env)


def value(w, rel, name):
    try:
        return w.get(rel, name)()
    except Exception:
        return None


def changes(w, m, d):
    text = m.text
    out = []
    T = lambda n: text[n.s : n.e]

    def add(op, old, new, *edits):
        edits = [e for e in edits]
        out.append(Change(m, d, edits, op, " ".join(old.split()), " ".join(new.split())))

    def paren(s):
        return s if re.fullmatch("[^\\s()]+", s) or (s.startswith("(") and balanced(s[1:-1])) else "(" + s + ")"

    def repl(op, n, new, show=None):
        add(op, show or T(n), new, (n.s, n.e, new))

    sig = [ty(m, x) for x in argtypes(d.sig)]
    res = ty(m, result(d.sig))

    def chain(n):
        if bare(n).k == "op" and bare(n).a == "∷":
            b = bare(n)
            c = chain(b.c)
            return None if c is None else [b.b] + c
        if bare(n).k == "var" and bare(n).a == "[]":
            return []
        return None

    def guard(n, env):
        """a call of a definition whose last argument is what it gives where nothing is refused"""
        if n.k != "app":
            return False
        f = bare(n.a)
        if f.k != "var" or f.a in env:
            return False
        try:
            r = w.resolve(m, f.a)
        except Unread:
            return False
        if not r or r[0] != "def":
            return False
        mm = w.mods[r[1]]
        dd = mm.defs[r[2]]
        if dd.sig is None:
            return False
        ts = [ty(mm, x) for x in argtypes(dd.sig)]
        return len(ts) >= 2 and len(n.b) == len(ts) and (ts[-1] == ty(mm, result(dd.sig))) and (ts[-1] not in ("ℕ", "Bool", "List ℕ"))

    def carried(name, count):
        """the arguments of a whole call that have the type of what it gives"""
        try:
            r = w.resolve(m, name)
        except Unread:
            return []
        if r and r[0] == "builtin":
            return {"take": [1], "drop": [1], "set": [0], "sets": [0]}.get(name, []) if count == {"take": 2, "drop": 2}.get(name, 3) else []
        if not r or r[0] != "def" or w.mods[r[1]].defs[r[2]].sig is None:
            return []
        mm = w.mods[r[1]]
        sig = mm.defs[r[2]].sig
        ts = [ty(mm, x) for x in argtypes(sig)]
        return [i for i, t in enumerate(ts) if t == ty(mm, result(sig)) and t != "ℕ"] if len(ts) == count else []

    def walk(n, env, inchain=False, head=False):
        k = n.k
        if k == "par":
            return walk(n.a, env, inchain)
        if k == "num":
            repl("number", n, str(n.a + 1))
            if n.a > 0:
                repl("number", n, str(n.a - 1))
            return
        if k == "var":
            name = n.a
            if name == "true":
                repl("bool", n, "false")
                return
            if name == "false":
                repl("bool", n, "true")
                return
            if name == "zero":
                repl("number", n, "1")
                return
            if name in env:
                if not head:
                    for o, t in env.items():
                        if o != name and t == env[name] and (t != "?"):
                            repl("variable", n, o)
                return
            try:
                r = w.resolve(m, name)
            except Unread:
                return
            if r and r[0] == "ctor":
                for s in siblings(w, r):
                    ln = local_name(w, m, r, s)
                    if ln:
                        repl("constructor", n, ln)
            if r and r[0] == "builtin" and (name in ("take", "drop")):
                repl("take/drop", n, "drop" if name == "take" else "take")
            if r and r[0] == "def":
                mm = w.mods[r[1]]
                dd = mm.defs[r[2]]
                if not argtypes(dd.sig) and ty(mm, dd.sig) == "ℕ":
                    c = 0
                    for o in mm.order:
                        od = mm.defs[o]
                        if (
                            o != r[2]
                            and o != d.name
                            and (od.sig is not None)
                            and (not argtypes(od.sig))
                            and (ty(mm, od.sig) == "ℕ")
                            and (c < 4)
                        ):
                            ln = (
                                o
                                if mm is m
                                else next((b for b, (p, a) in m.imports.items() if a == o and w.resolve(m, b) == ("def", r[1], o)), None)
                            )
                            if ln and value(w, r[1], r[2]) != value(w, r[1], o):
                                repl("constant", n, ln)
                                c += 1
            return
        if k == "app":
            f = bare(n.a)
            a = n.b
            name = f.a if f.k == "var" else None
            if name == "cond" and len(a) >= 3 and (name not in env):
                rest = "".join((" " + T(x) for x in a[3:]))
                add("cond swapped", T(n), f"cond {T(a[0])} {T(a[2])} {T(a[1])}", (a[1].s, a[1].e, T(a[2])), (a[2].s, a[2].e, T(a[1])))
                if len(a) == 3:
                    repl(
                        "cond first",
                        n,
                        T(a[1]) if T(a[1]).startswith("(") or " " not in T(a[1]) else paren(T(a[1])),
                    )
                    repl("cond second", n, T(a[2]) if T(a[2]).startswith("(") or " " not in T(a[2]) else paren(T(a[2])))
            if name in ("ltb", "leb", "eqb") and len(a) == 2 and (name not in env):
                x, y = (T(a[0]), T(a[1]))
                if name == "ltb":
                    add("comparison", T(n), f"leb {x} {y}", (f.s, f.e, "leb"))
                    add("comparison", T(n), f"ltb {y} {x}", (a[0].s, a[0].e, y), (a[1].s, a[1].e, x))
                if name == "leb":
                    add("comparison", T(n), f"ltb {x} {y}", (f.s, f.e, "ltb"))
                    add("comparison", T(n), f"leb {y} {x}", (a[0].s, a[0].e, y), (a[1].s, a[1].e, x))
                if name == "eqb":
                    if y != "0":
                        add("comparison", T(n), f"leb {x} {y}", (f.s, f.e, "leb"))
                    if x != "0":
                        add("comparison", T(n), f"leb {y} {x}", (f.s, f.e, "leb"), (a[0].s, a[0].e, y), (a[1].s, a[1].e, x))
            if name in ("ltb", "leb", "eqb") and len(a) == 2 and (name not in env):
                b = pl(a[1])
                if name == "eqb":
                    add("off by one", T(n), f"leb {T(a[0])} ({b} + 1)", (f.s, f.e, "leb"), (a[1].s, a[1].e, f"({b} + 1)"))
                else:
                    add("off by one", T(n), f"{name} {T(a[0])} ({b} + 1)", (a[1].s, a[1].e, f"({b} + 1)"))
                    add("off by one", T(n), f"{name} ({T(a[0])} + 1) {T(a[1])}", (a[0].s, a[0].e, f"({pl(a[0])} + 1)"))
            g1 = guard(n, env)
            if g1:
                repl("guard dropped", n, pl(a[-1]))
                g2 = guard(bare(a[-1]), env)
                if g2:
                    x, y = (n, bare(a[-1]))
                    fx = T(x.a) + "".join((" " + T(q) for q in x.b[:-1]))
                    fy = T(y.a) + "".join((" " + T(q) for q in y.b[:-1]))
                    add("guards exchanged", fx + " ..", fy + " ..", (n.s, n.e, f"({fy} ({fx} {pl(y.b[-1])}))"))
            if name == "not" and len(a) == 1 and (name not in env):
                repl("not dropped", n, T(a[0]) if T(a[0]).startswith("(") or " " not in T(a[0]) else paren(T(a[0])))
            if name and name not in env:
                try:
                    r = w.resolve(m, name)
                except Unread:
                    r = None
                ts = None
                if r and r[0] == "def":
                    mm = w.mods[r[1]]
                    ts = [ty(mm, x) for x in argtypes(mm.defs[r[2]].sig)] if mm.defs[r[2]].sig is not None else None
                elif r and r[0] == "ctor":
                    ts = ctor_types(w, m, r)
                    ln = local_name(w, m, (r[0], r[1], "None"), "None") if r[1:3] == ("std/Option", "Some") else None
                    if ln and len(a) == 1:
                        repl("constructor", n, ln)
                if ts:
                    for i in range(min(len(a), len(ts))):
                        for j in range(i + 1, min(len(a), len(ts))):
                            if ts[i] == ts[j] and " ".join(T(a[i]).split()) != " ".join(T(a[j]).split()):
                                add("arguments", T(n), f"{T(a[i])} <-> {T(a[j])}", (a[i].s, a[i].e, T(a[j])), (a[j].s, a[j].e, T(a[i])))
            if name and name not in env:
                for i in carried(name, len(a)):
                    repl("call dropped", n, pl(a[i]))
            walk(n.a, env, head=True)
            for x in a:
                walk(x, env)
            return
        if k == "proj":
            x = bare(n.a)
            if x.k == "var" and x.a in env:
                for fs in record_fields(w, typename=env[x.a].split()[0])[:1]:
                    t = dict(fs).get(n.b)
                    for f2, t2 in fs:
                        if t and f2 != n.b and (t2 == t):
                            add("field", T(n), f"{T(n.a)}.{f2}", (n.c[0], n.c[1], "." + f2))
            walk(n.a, env, head=True)
            return
        if k == "rec":
            rf = record_fields(w, names={f for f, _ in n.a})
            if rf:
                t = dict(rf[0])
                for i in range(len(n.a)):
                    for j in range(i + 1, len(n.a)):
                        (f1, e1), (f2, e2) = (n.a[i], n.a[j])
                        if t.get(f1) == t.get(f2) and T(e1) != T(e2):
                            add(
                                "record",
                                f"{f1} = {T(e1)}; {f2} = {T(e2)}",
                                f"{f1} = {T(e2)}; {f2} = {T(e1)}",
                                (e1.s, e1.e, T(e2)),
                                (e2.s, e2.e, T(e1)),
                            )
            for f, e in n.a:
                walk(e, env)
            return
        if k == "pair":
            for x in n.a:
                walk(x, env)
            return
        if k == "lam":
            walk(n.b, {**env, **{p: "?" for p in n.a}})
            return
        if k == "let":
            walk(n.b, env)
            walk(n.c, {**env, n.a: "?"})
            return
        if k == "op":
            o = n.a
            l, r = (n.b, n.c)
            if o == "∷" and (not inchain):
                c = chain(n)
                if c is not None:
                    for i, x in enumerate(c):
                        if len(c) >= 1:
                            b = n
                            for _ in range(i):
                                b = bare(b.c)
                            b = bare(b)
                            add("element dropped", T(x), "(nothing)", (x.s, b.c.s, ""))
                    for i in range(len(c) - 1):
                        x, y = (c[i], c[i + 1])
                        if T(x) != T(y):
                            add("order", f"{T(x)} ∷ {T(y)}", f"{T(y)} ∷ {T(x)}", (x.s, x.e, T(y)), (y.s, y.e, T(x)))
                        bx, by = (bare(x), bare(y))
                        if bx.k == by.k == "app" and bare(bx.a).a == bare(by.a).a == "line":
                            p, q = (bx.b[0], by.b[0])
                            add(
                                "numbers",
                                f"line {T(p)} .. ∷ line {T(q)} ..",
                                f"line {T(q)} .. ∷ line {T(p)} ..",
                                (p.s, p.e, T(q)),
                                (q.s, q.e, T(p)),
                            )
            s = n.d
            if o == "==":
                x, y = pl(l), pl(r)
                if y != "0":
                    repl("comparison", n, f"leb {x} {y}")
                if x != "0":
                    repl("comparison", n, f"leb {y} {x}")
                repl("off by one", n, f"leb {x} ({y} + 1)")
            if o in ("&&", "||"):
                new = "||" if o == "&&" else "&&"
                add("and/or", T(n), f"{T(l)} {new} {T(r)}", (n.s, n.e, f"({pl(l)} {new} {pl(r)})"))
                repl("operand", n, "(" + T(l) + ")")
                repl("operand", n, "(" + T(r) + ")")
            if o == "+":
                add("plus", T(n), f"{T(l)} - {T(r)}", (n.s, n.e, f"({pl(l)} - {pl(r)})"))
            if o == "-":
                add("minus", T(n), f"{T(l)} + {T(r)}", (n.s, n.e, f"({pl(l)} + {pl(r)})"))
            if o == "*":
                add("times", T(n), f"{T(l)} + {T(r)}", (n.s, n.e, f"({pl(l)} + {pl(r)})"))
            if o == "/":
                add("divide", T(n), f"{T(l)} % {T(r)}", (s[0], s[1], "%"))
            if o == "%":
                add("modulo", T(n), f"{T(l)} / {T(r)}", (s[0], s[1], "/"))
                repl("operand", n, "(" + T(l) + ")")
            if o == "++":
                add("order", T(n), f"{T(r)} ++ {T(l)}", (n.s, n.e, f"({pl(r)} ++ {pl(l)})"))
                repl("operand", n, "(" + T(l) + ")")
                repl("operand", n, "(" + T(r) + ")")
            if o in ("+", "-", "++", "*"):
                pass
            walk(l, env)
            walk(r, env, inchain=o == "∷")
            return

    def pl(x):
        return T(x) if x.k in ("par", "num", "var", "rec", "pair", "proj") else "(" + T(x) + ")"

    for pats, body, s, e in d.clauses:
        env = {}
        for p, t in zip(pats, sig):
            pattern_env(w, m, p, t, env)
        walk(body, env)
    seen, uniq = (set(), [])
    for x in out:
        key = tuple(sorted(x.edits))
        if key not in seen:
            seen.add(key)
            uniq.append(x)
    met = {}
    for x in uniq:
        met[x.text()] = x.nth = met.get(x.text(), 0) + 1
    return uniq


def edited(text, edits, lo, hi):
    """the part lo..hi of a text with edits in it"""
    s, pos = ("", lo)
    for a, b, t in sorted(edits):
        if a < pos:
            raise Unread("overlap")
        s += text[pos:a] + t
        pos = b
    return s + text[pos:hi]


def changed(x):
    """the clauses of a definition with a change"""
    out = []
    for pats, body, s, e in x.d.clauses:
        mine = [q for q in x.edits if s <= q[0] < e]
        out.append(clause(edited(x.m.text, mine, s, e), s, x.m.alias) if mine else (pats, body, s, e))
    return out


def compiled(w, x):
    return compile(w.python(x.m, x.d, changed(x)), f"{x.m.rel}.{x.d.name}*", "exec")


def calls_of(name, n):
    """the arguments of each place where a term names a definition"""
    if n is None or isinstance(n, (str, int)):
        return
    if isinstance(n, (list, tuple)):
        for x in n:
            yield from calls_of(name, x)
        return
    if n.k == "var":
        if n.a == name:
            yield []
        return
    if n.k == "app" and bare(n.a).k == "var" and bare(n.a).a == name:
        yield n.b
        yield from calls_of(name, n.b)
        return
    for x in (n.a, n.b, n.c):
        yield from calls_of(name, x)


def descends(name, clauses):
    """whether one argument is a part of its own pattern wherever a definition calls itself: the checker takes no other"""

    def lower(place, pats, args):
        return place < len(args) and bare(pats[place]).k != "var" and bare(args[place]).k == "var" and bare(args[place]).a in set(names(pats[place]))

    every = [(pats, args) for pats, body, _, _ in clauses for args in calls_of(name, body)]
    return not every or any(all(lower(k, pats, args) for pats, args in every) for k in range(len(clauses[0][0])))
