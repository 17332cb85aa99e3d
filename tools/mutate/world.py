"""The definitions of a tree as Python functions."""
import glob, os, re, sys, threading

from reader import bare, declared, load


def deep(f):
    """runs f with a deep stack; exits with what it returns"""
    out = []
    sys.setrecursionlimit(20000)
    threading.stack_size(512 * 1024 * 1024)
    t = threading.Thread(target=lambda: out.append(f()))
    t.start()
    t.join()
    sys.exit(out[0] if out else 1)


class Unknown:
    def __repr__(self):
        return "?"

    def __bool__(self):
        raise TypeError("unknown")

    def __eq__(self, o):
        raise TypeError("unknown")

    __hash__ = None


UNK = Unknown()


def part(f, n, *args):
    def go(args):
        def one(x):
            a = args + (x,)
            return f(*a) if len(a) == n else go(a)

        return one

    return go(args)


def hasfun(x):
    if callable(x) or x is UNK:
        return True
    if isinstance(x, tuple):
        return any((hasfun(y) for y in x)) if len(x) < 50 else False
    if isinstance(x, dict):
        return any((hasfun(y) for y in x.values()))
    return False


def tri(f):
    try:
        v = f()
    except (TypeError, KeyError, IndexError, AttributeError, NameError, ValueError):
        return UNK
    return v if v is True or v is False else UNK


def conj(f, g):
    a = tri(f)
    if a is False:
        return False
    b = tri(g)
    if b is False:
        return False
    return True if a is True and b is True else UNK


def disj(f, g):
    a = tri(f)
    if a is True:
        return True
    b = tri(g)
    if b is True:
        return True
    return False if a is False and b is False else UNK


def imp(f, g):
    a = tri(f)
    if a is False:
        return True
    b = tri(g)
    if b is True:
        return True
    return b if a is True else UNK


def iff(f, g):
    a, b = (tri(f), tri(g))
    return a == b if a is not UNK and b is not UNK else UNK


def neg(f):
    a = tri(f)
    return not a if a is not UNK else UNK


def eqp(a, b):
    if hasfun(a) or hasfun(b):
        return UNK
    return a == b


def member(l, f):
    out = True
    for x in l:
        v = tri(lambda: f(x))
        if v is False:
            return False
        if v is UNK:
            out = UNK
    return out


def allof(*fs):
    out = True
    for f in fs:
        v = tri(f)
        if v is False:
            return False
        if v is UNK:
            out = UNK
    return out


def sub(a, b):
    return a - b if a > b else 0


def div(a, b):
    return a // b if b else 0


def mod(a, b):
    return a % b if b else a


def take(n, l):
    return l[:n]


def drop(n, l):
    return l[n:]


def getD(l, n, d):
    return l[n] if n < len(l) else d


def setl(l, n, x):
    return l[:n] + (x,) + l[n + 1 :] if n < len(l) else l


def sets(l, at, xs):
    n = len(l)
    if at >= n:
        return l
    xs = xs[: n - at]
    return l[:at] + xs + l[at + len(xs) :]


def replicate(n, x):
    if n > 4000000:
        raise MemoryError
    return (x,) * n


def mapl(f, l):
    return tuple([f(x) for x in l])


def power(a, b):
    if b > 4096:
        raise MemoryError
    return a**b


def toZ(w, v):
    return v - (1 << w) if v >= 1 << w - 1 else v


def ofZ(w, z):
    return z % (1 << w)


def sfits(w, z):
    return -(1 << w - 1) <= z < 1 << w - 1


def unwrap_or(o, d):
    return o[1] if o[0] == "Some" else d


# the types of the Prelude with their constructors
STD = {
    "std/Option": [("None", []), ("Some", ["T"])],
    "std/Result": [("Ok", ["T"]), ("Err", ["E"])],
}
BUILTIN = {
    "length": ("len", 1),
    "take": ("take", 2),
    "drop": ("drop", 2),
    "get_or": ("getD", 3),
    "slice_index": ("at", 2),
    "set": ("setl", 3),
    "sets": ("sets", 3),
    "replicate": ("replicate", 2),
    "map": ("mapl", 2),
    "eqb": ("eqb", 2),
    "ltb": ("ltb", 2),
    "leb": ("leb", 2),
    "not": ("bnot", 1),
    "cond": ("condf", 3),
    "suc": ("suc", 1),
    "zero": ("0", 0),
    "true": ("True", 0),
    "false": ("False", 0),
    "[]": ("()", 0),
    "none": ("('none',)", 0),
    "some": ("some", 1),
    "pos": ("pos", 1),
    "negsuc": ("negsuc", 1),
    "neg_ℤ": ("negz", 1),
    "to_z": ("toZ", 2),
    "of_z": ("ofZ", 2),
    "w32": ("32", 0),
    "w64": ("64", 0),
    "SFits": ("sfits", 2),
    "unwrap_or": ("unwrap_or", 2),
    "is_none": ("is_none", 1),
    "is_ok": ("is_ok", 1),
    "tt": ("('tt',)", 0),
    "⊥": ("False", 0),
    "Unit": ("True", 0),
    "◌+◌": ("addf", 2),
    "◌*◌": ("mulf", 2),
    "◌&&◌": ("andf", 2),
    "◌||◌": ("orf", 2),
    "◌∷◌": ("consf", 2),
    "◌++◌": ("catf", 2),
    "◌-◌": ("sub", 2),
    "◌%◌": ("mod", 2),
    "◌/◌": ("div", 2),
    "◌==◌": ("eqb", 2),
}
NS0 = dict(
    take=take,
    drop=drop,
    getD=getD,
    at=lambda l, n: getD(l, n, 0),
    setl=setl,
    sets=sets,
    replicate=replicate,
    mapl=mapl,
    eqb=lambda a, b: a == b,
    ltb=lambda a, b: a < b,
    leb=lambda a, b: a <= b,
    bnot=lambda a: not a,
    condf=lambda a, b, c: b if a else c,
    suc=lambda a: a + 1,
    some=lambda x: ("some", x),
    pos=lambda n: n,
    negsuc=lambda n: -n - 1,
    negz=lambda z: -z,
    toZ=toZ,
    ofZ=ofZ,
    sfits=sfits,
    unwrap_or=unwrap_or,
    is_none=lambda o: o[0] == "None",
    is_ok=lambda r: r[0] == "Ok",
    part=part,
    conj=conj,
    disj=disj,
    imp=imp,
    iff=iff,
    neg=neg,
    eqp=eqp,
    member=member,
    allof=allof,
    sub=sub,
    div=div,
    mod=mod,
    power=power,
    UNK=UNK,
    addf=lambda a, b: a + b,
    mulf=lambda a, b: a * b,
    andf=lambda a, b: a and b,
    orf=lambda a, b: a or b,
    consf=lambda a, b: (a,) + b,
    catf=lambda a, b: a + b,
)


class Unread(Exception):
    pass


class World:
    def __init__(self, root):
        self.root = root
        self.mods = {}
        self.enums, self.structs = (dict(STD), {})
        for d in sorted(glob.glob(root + "/crates/*")):
            c = os.path.basename(d)
            e, s = declared(d)
            for k, v in e.items():
                self.enums[c + "/" + k] = v
            for k, v in s.items():
                self.structs[c + "/" + k] = v
            for f in sorted(glob.glob(d + "/specs/*.antt")):
                if f.endswith("/Lib.antt"):
                    continue
                rel = f"{c}/specs/{os.path.basename(f)[:-5]}"
                self.mods[rel] = load(f, rel)
            for f in sorted(glob.glob(d + "/proofs/*.antt")):
                if f.endswith("/Lib.antt"):
                    continue
                rel = f"{c}/proofs/{os.path.basename(f)[:-5]}"
                self.mods[rel] = load(f, rel)
        self.ns = dict(NS0)
        self.ids = {}
        self.cache = {}
        self.names = {}
        self.unread = {}
        self.src = {}
        for m in self.mods.values():
            for n, d in m.defs.items():
                self.ids[m.rel, n] = f"g{len(self.ids)}"
            for n in m.recs:
                self.ids[m.rel, n] = f"g{len(self.ids)}"
        self.back = {v: k for k, v in self.ids.items()}
        for m in self.mods.values():
            self.install_all(m)

    def install_all(self, m):
        for n, d in m.defs.items():
            self.install(m, d)
        for n in m.recs:
            self.install_rec(m, n)

    def replace(self, rel, text):
        """the same file with another text"""
        self.mods[rel] = load(self.mods[rel].path, rel, text)
        self.install_all(self.mods[rel])
        self.cache.clear()

    def module(self, path):
        q = re.match("Rattle\\.([^.]+)\\.(specs|proofs)\\.(.*)$", path)
        if not q or q[1] == "std":
            return None
        c, kind, rest = (q[1], q[2], q[3])
        if rest.startswith("declared."):
            rest = rest[9:]
            if rest.endswith(".TheVariants"):
                return ("variants", c + "/" + rest[: -len(".TheVariants")])
            return ("type", c + "/" + rest)
        return ("mod", f"{c}/{kind}/{rest}")

    def resolve(self, m, name):
        """('def', rel, name) | ('ctor', type, name, arity) | ('rec', rel, name) | ('type',) | ('builtin', name)"""
        if name in m.defs:
            return ("def", m.rel, name)
        if name in m.recs:
            return ("rec", m.rel, name)
        if name in m.ctors:
            return ("ctor", m.rel + ":" + m.ctors[name][0], name, len(m.ctors[name][1]))
        if name in m.datas:
            return ("type",)
        if name in m.imports:
            return self.inmod(*m.imports[name])
        if "." in name and name not in BUILTIN:
            a, x = name.rsplit(".", 1)
            if a in m.alias:
                return self.inmod(m.alias[a], x)
            if a in m.imports:
                k = self.module(m.imports[a][0])
                if k and k[0] == "type":
                    vs = dict(self.enums.get(k[1], []))
                    if x in vs:
                        return ("ctor", k[1], x, len(vs[x]))
        if name in BUILTIN:
            return ("builtin", name)
        return None

    def inmod(self, path, x):
        k = self.module(path)
        if k is None:
            for t, vs in STD.items():
                if path.startswith("Rattle.std.") and x in dict(vs):
                    return ("ctor", t, x, len(dict(vs)[x]))
            return ("builtin", x) if x in BUILTIN else ("type",)
        if k[0] == "variants":
            vs = dict(self.enums.get(k[1], []))
            if x not in vs:
                raise Unread(f"variant {k[1]} {x}")
            return ("ctor", k[1], x, len(vs[x]))
        if k[0] == "type":
            return ("type",)
        mm = self.mods.get(k[1])
        if mm is None:
            return ("type",)
        if x in mm.imports and x not in mm.defs and (x not in mm.recs) and (x not in mm.ctors):
            return self.inmod(*mm.imports[x])
        r = self.resolve(mm, x)
        return r if r else ("type",)

    def lv(self, name):
        if name not in self.names:
            self.names[name] = f"v{len(self.names)}"
        return self.names[name]

    def arity(self, rel, name):
        d = self.mods[rel].defs[name]
        return len(d.clauses[0][0]) if d.clauses else 0

    def call(self, m, f, args, env):
        """args: python texts"""
        f = bare(f)
        if f.k == "var" and f.a not in env:
            r = self.resolve(m, f.a)
            if r is None:
                if f.a in ("Type", "Type₁"):
                    return "UNK"
                if f.a == "¬":
                    return f"neg(lambda: {args[0]})"
                raise Unread("name " + f.a)
            if r[0] == "builtin":
                py, n = BUILTIN[r[1]]
                if n == 0:
                    return py if not args else "UNK"
                if len(args) >= n:
                    a = args[:n]
                    if r[1] == "cond":
                        t = f"({a[1]} if {a[0]} else {a[2]})"
                    elif r[1] == "eqb":
                        t = f"({a[0]} == {a[1]})"
                    elif r[1] == "ltb":
                        t = f"({a[0]} < {a[1]})"
                    elif r[1] == "leb":
                        t = f"({a[0]} <= {a[1]})"
                    elif r[1] == "not":
                        t = f"(not {a[0]})"
                    elif r[1] == "suc":
                        t = f"({a[0]} + 1)"
                    elif r[1] == "pos":
                        t = a[0]
                    else:
                        t = f"{py}({', '.join(a)})"
                    return t + "".join((f"({x})" for x in args[n:]))
                return f"part({py}, {n}{''.join((', ' + x for x in args))})"
            if r[0] == "type":
                return "UNK"
            if r[0] == "ctor":
                n = r[3]
                if len(args) == n:
                    return f"({r[2]!r}, {''.join((x + ', ' for x in args))})"
                if len(args) > n:
                    raise Unread("ctor " + r[2])
                return f"part(lambda *a: ({r[2]!r},) + a, {n}{''.join((', ' + x for x in args))})"
            if r[0] == "rec":
                n = len(self.mods[r[1]].recs[r[2]][0])
                i = self.ids[r[1], r[2]]
                return f"{i}({', '.join(args)})" if len(args) == n else "UNK"
            d = self.mods[r[1]].defs[r[2]]
            i = self.ids[r[1], r[2]]
            if not d.clauses:
                raise Unread("no clause " + r[2])
            n = len(d.clauses[0][0])
            if len(args) >= n:
                return f"{i}({', '.join(args[:n])})" + "".join((f"({x})" for x in args[n:]))
            return f"part({i}, {n}{''.join((', ' + x for x in args))})"
        t = self.code(m, f, env)
        return t + "".join((f"({x})" for x in args))

    def code(self, m, n, env):
        k = n.k
        C = lambda x: self.code(m, x, env)
        if k == "par":
            return C(n.a)
        if k == "num":
            return str(n.a)
        if k == "var":
            if n.a in env:
                return self.lv(n.a)
            return self.call(m, n, [], env)
        if k == "app":
            f = bare(n.a)
            if f.k == "var" and f.a == "Memᴰ":
                return "UNK"
            if f.k == "app":
                return self.call(m, f.a, [C(x) for x in f.b] + [C(x) for x in n.b], env)
            return self.call(m, f, [C(x) for x in n.b], env)
        if k == "proj":
            t = C(n.a)
            return f"{t}[{n.b}]" if n.b.isdigit() else f"{t}[{n.b!r}]"
        if k == "rec":
            return "{" + ", ".join((f"{a!r}: {C(b)}" for a, b in n.a)) + "}"
        if k == "pair":
            if len(n.a) == 2:
                return f"({C(n.a[0])}, {C(n.a[1])})"
            return "(" + ", ".join((C(x) for x in n.a)) + ")"
        if k == "lam":
            e = env | {p for p in n.a}
            t = self.code(m, n.b, e)
            for p in reversed(n.a):
                t = f"(lambda {self.lv(p)}: {t})"
            return t
        if k == "let":
            t = self.code(m, n.c, env | {n.a})
            return f"(lambda {self.lv(n.a)}: {t})({C(n.b)})"
        if k == "op":
            o = n.a
            if o == "∷":
                return f"(({C(n.b)},) + {C(n.c)})"
            if o in ("+", "*"):
                return f"({C(n.b)} {o} {C(n.c)})"
            if o == "++":
                return f"({C(n.b)} + {C(n.c)})"
            if o == "-":
                return f"sub({C(n.b)}, {C(n.c)})"
            if o == "/":
                return f"div({C(n.b)}, {C(n.c)})"
            if o == "%":
                return f"mod({C(n.b)}, {C(n.c)})"
            if o == "^":
                return f"power({C(n.b)}, {C(n.c)})"
            if o == "&&":
                return f"({C(n.b)} and {C(n.c)})"
            if o == "||":
                return f"({C(n.b)} or {C(n.c)})"
            if o == "==":
                return f"({C(n.b)} == {C(n.c)})"
            if o == "≡":
                return f"eqp({C(n.b)}, {C(n.c)})"
            if o == "≢":
                return f"neg(lambda: eqp({C(n.b)}, {C(n.c)}))"
            if o == "≤":
                return f"({C(n.b)} <= {C(n.c)})"
            if o == "<":
                return f"({C(n.b)} < {C(n.c)})"
            if o == "×":
                return f"conj(lambda: {C(n.b)}, lambda: {C(n.c)})"
            if o == "⊎":
                return f"disj(lambda: {C(n.b)}, lambda: {C(n.c)})"
            if o == "↔":
                return f"iff(lambda: {C(n.b)}, lambda: {C(n.c)})"
            raise Unread("op " + o)
        if k == "arr":
            return f"imp(lambda: {C(n.a)}, lambda: {C(n.b)})"
        if k == "pi":
            if len(n.a) == 1 and len(n.a[0][0]) == 1 and (n.b.k == "arr") and (n.b.a.k == "app"):
                f = bare(n.b.a.a)
                x = n.a[0][0][0]
                if (
                    f.k == "var"
                    and f.a == "Memᴰ"
                    and (len(n.b.a.b) == 2)
                    and (bare(n.b.a.b[0]).k == "var")
                    and (bare(n.b.a.b[0]).a == x)
                ):
                    return f"member({C(n.b.a.b[1])}, lambda {self.lv(x)}: {self.code(m, n.b.b, env | {x})})"
            return "UNK"
        if k == "sig":
            return "UNK"
        raise Unread("kind " + k)

    def pattern(self, m, p, at, conds, binds, env):
        p = bare(p)
        if p.k == "var":
            n = p.a
            if n == "_":
                return
            r = self.resolve(m, n) if n in ("zero", "true", "false", "[]", "none") or n in m.ctors or n in m.imports or ("." in n) else None
            if r and r[0] == "ctor" and (r[3] == 0):
                conds.append(f"{at}[0] == {r[2]!r}")
                return
            if r and r[0] == "builtin":
                if n == "zero":
                    conds.append(f"{at} == 0")
                    return
                if n == "true":
                    conds.append(f"{at}")
                    return
                if n == "false":
                    conds.append(f"not {at}")
                    return
                if n == "[]":
                    conds.append(f"not {at}")
                    return
                if n == "none":
                    conds.append(f"{at}[0] == 'none'")
                    return
            if n == "tt":
                return
            binds.append((n, at))
            env.add(n)
            return
        if p.k == "num":
            conds.append(f"{at} == {p.a}")
            return
        if p.k == "op" and p.a == "∷":
            conds.append(f"{at}")
            self.pattern(m, p.b, f"{at}[0]", conds, binds, env)
            self.pattern(m, p.c, f"{at}[1:]", conds, binds, env)
            return
        if p.k == "pair":
            for i, x in enumerate(p.a):
                self.pattern(m, x, f"{at}[{i}]", conds, binds, env)
            return
        if p.k == "app":
            f = bare(p.a)
            if f.a == "suc":
                conds.append(f"{at} > 0")
                self.pattern(m, p.b[0], f"({at} - 1)", conds, binds, env)
                return
            if f.a == "pos":
                conds.append(f"{at} >= 0")
                self.pattern(m, p.b[0], at, conds, binds, env)
                return
            if f.a == "negsuc":
                conds.append(f"{at} < 0")
                self.pattern(m, p.b[0], f"(-{at} - 1)", conds, binds, env)
                return
            if f.a == "some":
                conds.append(f"{at}[0] == 'some'")
                self.pattern(m, p.b[0], f"{at}[1]", conds, binds, env)
                return
            r = self.resolve(m, f.a)
            if r and r[0] == "ctor":
                conds.append(f"{at}[0] == {r[2]!r}")
                for i, x in enumerate(p.b):
                    self.pattern(m, x, f"{at}[{i + 1}]", conds, binds, env)
                return
        raise Unread("pattern " + p.k)

    def python(self, m, d, clauses=None):
        clauses = clauses or d.clauses
        if not clauses:
            raise Unread("no clause")
        n = len(clauses[0][0])
        i = self.ids[m.rel, d.name]
        out = [f"def {i}({', '.join(('a%d' % j for j in range(n)))}):"]
        if n == 0:
            t = self.code(m, clauses[0][1], frozenset())
            return out[0] + f"\n  if {i!r} not in cache: cache[{i!r}] = {t}\n  return cache[{i!r}]\n"
        for pats, body, s, e in clauses:
            conds, binds, env = ([], [], set())
            for j, p in enumerate(pats):
                self.pattern(m, p, f"a{j}", conds, binds, env)
            t = self.code(m, body, frozenset(env))
            ind = "  "
            if conds:
                out.append(f"  if {' and '.join(conds)}:")
                ind = "    "
            for v, at in binds:
                out.append(f"{ind}{self.lv(v)} = {at}")
            out.append(f"{ind}return {t}")
        out.append('  raise KeyError("clause")')
        return "\n".join(out) + "\n"

    def install(self, m, d):
        i = self.ids[m.rel, d.name]
        try:
            if getattr(d, "broken", False):
                raise Unread("unread clause")
            t = self.python(m, d)
            self.src[i] = t
            self.ns["cache"] = self.cache
            exec(compile(t, f"{m.rel}.{d.name}", "exec"), self.ns)
        except Unread as x:
            self.unread[m.rel, d.name] = str(x)
            self.ns[i] = self.missing(m, d.name)
        except (SyntaxError, RecursionError, MemoryError) as x:
            self.unread[m.rel, d.name] = "python " + str(x)[:80]
            self.ns[i] = self.missing(m, d.name)

    def missing(self, m, name):
        def f(*a):
            raise TypeError(f"unread {m.rel}.{name}")

        return f

    def field_thunks(self, m, name):
        ps, fs = m.recs[name]
        env = {p for p, _ in ps}
        out = []
        for f, ty, tx in fs:
            try:
                t = self.code(m, ty, frozenset(env))
            except Unread:
                t = "UNK"
            out.append((f, t))
            env = env | {f}
        return (ps, out)

    def install_rec(self, m, name):
        i = self.ids[m.rel, name]
        ps, out = self.field_thunks(m, name)
        a = ", ".join((self.lv(p) for p, _ in ps))
        t = f"def {i}({a}):\n"
        for f, _ in out:
            if f not in {p for p, _ in ps}:
                t += f"  {self.lv(f)} = UNK\n"
        t += "  return allof(" + ", ".join((f"lambda: {x}" for _, x in out)) + ")\n"
        try:
            exec(compile(t, f"{m.rel}.{name}", "exec"), self.ns)
        except (SyntaxError, RecursionError, MemoryError):
            self.ns[i] = lambda *a: UNK

    def get(self, rel, name):
        return self.ns[self.ids[rel, name]]
