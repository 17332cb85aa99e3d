"""Reads the executable part of the .antt definitions (specs/, and the closed statements of proofs/) and runs it in Python.

What is read: definitions by clauses, records, data, let, lambda, cond, lists, naturals, integers; statements as far as they are
decided by computation (equations, order, pairs, records of these, `every row of a table`).  All else is `unknown`, never true or false.
"""
import re, sys, os, glob


class N:
    __slots__ = ("k", "s", "e", "a", "b", "c", "d")

    def __init__(self, k, s, e, a=None, b=None, c=None, d=None):
        self.k, self.s, self.e, self.a, self.b, self.c, self.d = (k, s, e, a, b, c, d)

    def __repr__(self):
        return f"<{self.k} {self.a!r} {self.b!r}>"


TOK = re.compile("[ \\t\\n]+|--[^\\n]*|([(){};,])|((?:«[^»]*»|[^\\s(){};,«])+)")


def tokens(text, at, heads=()):
    """the words of a text with their places; a projection is a word of its own (`f.size`: `f`, `.size`), a qualified name is one word: its
    head is a type or a module (in capitals), or one of the names that the file gave a module (`heads`)"""
    out, i, n = ([], 0, len(text))
    while i < n:
        m = TOK.match(text, i)
        if not m:
            raise SyntaxError("token")
        t = m.group(1) or m.group(2)
        if t and t.startswith("--"):
            t = None
        if t:
            s, e = (at + m.start(), at + m.end())
            if len(t) > 1 and t.endswith(".") and (not t.endswith("..")):
                out.append((t[:-1], s, e - 1))
                out.append((".", e - 1, e))
            elif len(t) > 1 and t[0] == "λ":
                out.append(("λ", s, s + 1))
                out.append((t[1:], s + 1, e))
            else:
                out += projections(t, s, heads)
        i = m.end()
    return out


def projections(t, s, heads):
    first, dot, _ = t.partition(".")
    if not dot or set(t) == {"."} or first and (first in heads or first[0].isupper() or first.isdigit()):
        return [(t, s, s + len(t))]
    out, at = [], s
    for i, part in enumerate(t.split(".")):
        word = part if i == 0 else "." + part
        if word:
            out.append((word, at, at + len(word)))
        at += len(word)
    return out


OPS = {
    "↔": (1, "n"),
    "×": (2, "r"),
    "⊎": (2, "r"),
    "≡": (4, "n"),
    "≢": (4, "n"),
    "==": (50, "n"),
    "||": (30, "l"),
    "&&": (35, "l"),
    "≤": (50, "n"),
    "<": (50, "n"),
    "+": (65, "l"),
    "-": (65, "l"),
    "++": (65, "l"),
    "∷": (67, "r"),
    "*": (70, "l"),
    "/": (70, "l"),
    "%": (70, "l"),
    "^": (75, "r"),
}
STOP = {")", "}", ";", ",", "in", "→", "=", ".", ":"}


class P:
    def __init__(self, toks):
        self.t, self.i = (toks, 0)

    def peek(self, k=0):
        return self.t[self.i + k][0] if self.i + k < len(self.t) else None

    def next(self):
        x = self.t[self.i]
        self.i += 1
        return x

    def want(self, s):
        x = self.next()
        if x[0] != s:
            raise SyntaxError(f"want {s} got {x}")
        return x

    def binder_ahead(self):
        if self.peek() not in ("(", "{"):
            return False
        j = self.i + 1
        n = 0
        while (
            j < len(self.t)
            and self.t[j][0] not in ("(", ")", "{", "}", ":", ";", ",")
            and (self.t[j][0] not in OPS)
            and (self.t[j][0] not in ("let", "λ", "record"))
        ):
            j += 1
            n += 1
        return n > 0 and j < len(self.t) and (self.t[j][0] == ":")

    def binder(self):
        o = self.next()[0]
        names = []
        while self.peek() != ":":
            names.append(self.next()[0])
        self.next()
        ty = self.expr()
        self.want(")" if o == "(" else "}")
        return (names, ty, o == "{")

    def expr(self):
        t = self.peek()
        if t is None:
            raise SyntaxError("end")
        s = self.t[self.i][1]
        if t == "λ":
            self.next()
            ps = []
            while self.peek() != ".":
                if self.peek() == "(":
                    self.next()
                    while self.peek() != ":":
                        ps.append(self.next()[0])
                    self.next()
                    self.expr()
                    self.want(")")
                else:
                    ps.append(self.next()[0])
            self.next()
            b = self.expr()
            return N("lam", s, b.e, ps, b)
        if t == "let":
            self.next()
            name = self.next()[0]
            if self.peek() == ":":
                self.next()
                self.expr()
            self.want("=")
            e = self.expr()
            self.want("in")
            b = self.expr()
            return N("let", s, b.e, name, e, b)
        if self.binder_ahead():
            bs = [self.binder()]
            while self.binder_ahead():
                bs.append(self.binder())
            if self.peek() == "→":
                self.next()
                b = self.expr()
                return N("pi", s, b.e, bs, b)
            if self.peek() == "×":
                self.next()
                b = self.expr()
                return N("sig", s, b.e, bs, b)
            b = self.expr()
            return N("pi", s, b.e, bs, b)
        l = self.op(0)
        if self.peek() == "→":
            self.next()
            r = self.expr()
            return N("arr", s, r.e, l, r)
        return l

    def op(self, least):
        l = self.app()
        while True:
            t = self.peek()
            if t not in OPS:
                return l
            p, a = OPS[t]
            if p < least:
                return l
            o = self.next()
            if self.peek() in ("λ", "let") or self.binder_ahead():
                r = self.expr()
            else:
                r = self.op(p if a == "r" else p + 1)
            l = N("op", l.s, r.e, o[0], l, r, (o[1], o[2]))

    def app(self):
        s = self.t[self.i][1] if self.i < len(self.t) else 0
        f = self.atom()
        args = []

        def close(f, args):
            return N("app", f.s, args[-1].e, f, args) if args else f

        while True:
            t = self.peek()
            if t is None or t in STOP or t in OPS:
                return close(f, args)
            if t == "{":
                d = 0
                while True:
                    x = self.next()[0]
                    d += (x == "{") - (x == "}")
                    if d == 0:
                        break
                continue
            if t in ("λ", "let"):
                args.append(self.expr())
                return close(f, args)
            if t[0] == "." and len(t) > 1:
                x = self.next()
                g = close(f, args)
                f, args = (N("proj", g.s, x[2], g, t[1:], (x[1], x[2])), [])
                continue
            args.append(self.atom())

    def atom(self):
        x = self.simple()
        # A projection stands right behind what it is of.
        while self.i < len(self.t) and self.t[self.i][0][0] == "." and len(self.t[self.i][0]) > 1 and self.t[self.i][1] == x.e:
            t, s, e = self.next()
            x = N("proj", x.s, e, x, t[1:], (s, e))
        return x

    def simple(self):
        t, s, e = self.next()
        if t == "(":
            if self.peek() == ")":
                raise SyntaxError("unit")
            x = self.expr()
            items = [x]
            while self.peek() == ",":
                self.next()
                if self.peek() != ")":
                    items.append(self.expr())
            c = self.want(")")
            if len(items) == 1:
                return N("par", s, c[2], x)
            return N("pair", s, c[2], items)
        if t == "record":
            self.want("{")
            fs = []
            while self.peek() != "}":
                n = self.next()[0]
                self.want("=")
                fs.append((n, self.expr()))
                if self.peek() == ";":
                    self.next()
            c = self.want("}")
            return N("rec", s, c[2], fs)
        if t in STOP or t in OPS or t in ("}", "{"):
            raise SyntaxError(f"atom {t}")
        if re.fullmatch("0x[0-9A-Fa-f]+|[0-9]+", t):
            return N("num", s, e, int(t, 0))
        return N("var", s, e, t)


def bare(n):
    while n.k == "par":
        n = n.a
    return n


class Def:
    def __init__(self, mod, name):
        self.mod, self.name, self.sig, self.clauses, self.sigtext, self.span, self.kind = (mod, name, None, [], "", None, "def")


class Mod:
    def __init__(self, path, rel, text=None):
        self.path, self.rel = (path, rel)
        self.text = open(path, encoding="utf8").read() if text is None else text
        self.defs, self.recs, self.datas, self.ctors, self.imports, self.alias, self.bad = ({}, {}, {}, {}, {}, {}, [])
        self.order = []


def items(text):
    """top-level items: (start, end)"""
    out, pos, start, last = ([], 0, None, 0)
    for l in text.splitlines(keepends=True):
        if l.strip() and (not l.startswith("--")) and (l[0] not in " \t})"):
            if start is not None:
                out.append((start, last))
            start = pos
        pos += len(l)
        if l.strip() and (not l.lstrip().startswith("--")):
            last = pos
    if start is not None:
        out.append((start, last))
    return out


HEAD = re.compile("((?:abbrev |unfoldable |pub )*)(\\S+) :\\s")


def load(path, rel, text=None):
    m = Mod(path, rel, text)
    text = m.text
    for s, e in items(text):
        it = text[s:e]
        w = it.split(None, 1)[0]
        if w == "use" or it.startswith("pub use "):
            it = it.removeprefix("pub ")
            u = re.match("use (\\S+?)\\.\\{(.*?)\\}\\s*$", it.strip(), re.S)
            if u:
                for x in u[2].split(","):
                    x = x.strip()
                    q = re.match("(\\S+) as (\\S+)$", x)
                    a, b = (q[1], q[2]) if q else (x, x)
                    m.imports[b] = (u[1], a)
            else:
                u = re.match("use (\\S+) as (\\S+)\\s*$", it.strip())
                if u:
                    m.alias[u[2]] = u[1]
            continue
        if w in ("module", "unfolding", "mutual", "infix", "infixl", "infixr", "ruleset"):
            continue
        if it.startswith("pub mod "):
            continue
        try:
            q = re.match("(pub )?(record|data) ", it)
            if q:
                declaration(m, it, s, q[2])
                continue
            q = HEAD.match(it)
            if q and "=" not in it[: q.end()]:
                d = Def(m, q[2])
                d.span = (s, e)
                d.flags = q[1]
                body = it[q.end() :]
                d.sigtext = " ".join(body.split())
                m.defs[q[2]] = d
                m.order.append(q[2])
                d.sig = P(tokens(body, s + q.end(), m.alias))
                d.sig = d.sig.expr()
                continue
            name = w
            if name in m.defs:
                c = clause(it, s, m.alias)
                m.defs[name].clauses.append(c)
        except (SyntaxError, IndexError) as x:
            m.bad.append((s, str(x), it[:60]))
            if w in m.defs:
                m.defs[w].broken = True
    return m


def clause(it, s, heads=()):
    t = tokens(it, s, heads)
    d = 0
    for i, x in enumerate(t):
        d += (x[0] in "({") - (x[0] in ")}") if len(x[0]) == 1 else 0
        if d == 0 and x[0] == "=":
            break
    else:
        raise SyntaxError("no =")
    p = P(t[1:i])
    pats = []
    while p.i < len(p.t):
        if p.peek() == "{":
            raise SyntaxError("implicit")
        pats.append(p.atom())
    p = P(t[i + 1 :])
    b = p.expr()
    if p.i != len(p.t):
        raise SyntaxError(f"rest {p.t[p.i]}")
    return (pats, b, s, s + len(it))


def params(p):
    out = []
    while p.binder_ahead():
        names, ty, imp = p.binder()
        out += [(n, ty) for n in names]
    return out


def declaration(m, it, s, kind):
    t = tokens(it, s, m.alias)
    i = next((i for i, x in enumerate(t) if x[0] == kind))
    name = t[i + 1][0]
    p = P(t[i + 2 :])
    ps = params(p)
    while p.peek() not in ("where", None):
        p.next()
    if p.peek() == "where":
        p.next()
    lines = []
    pos = s
    seen = False
    for l in it.splitlines(keepends=True):
        if seen and re.match("  \\S", l) and (not l.strip().startswith("--")):
            lines.append([pos, l])
        elif seen and lines and (not l.strip().startswith("--")):
            lines[-1][1] += l
        elif seen and lines:
            pass
        if re.search("\\bwhere\\s*$", l):
            seen = True
        pos += len(l)
    fields = []
    for pos, l in lines:
        q = re.match("  (?:pub )?(.*?) :\\s", l, re.S)
        body = l[q.end() :]
        pp = P(tokens(body, pos + q.end(), m.alias))
        ty = pp.expr()
        for f in q[1].split():
            fields.append((f, ty, " ".join(body.split())))
    if kind == "record":
        m.recs[name] = (ps, fields)
    else:
        m.datas[name] = (ps, [f for f, _, _ in fields])
        for f, ty, tx in fields:
            m.ctors[f] = (name, argtypes(ty))


def argtypes(ty):
    out = []
    while True:
        ty0 = ty
        if ty.k == "arr":
            out.append(ty.a)
            ty = ty.b
        elif ty.k == "pi":
            for names, t, imp in ty.a:
                if not imp:
                    out += [t] * len(names)
            ty = ty.b
        else:
            return out


def result(ty):
    while ty.k in ("arr", "pi"):
        ty = ty.b
    return ty


def strip_rt(t):
    return re.sub("//[^\\n]*", "", t)


def declared(crate_dir):
    enums, structs = ({}, {})
    for f in glob.glob(crate_dir + "/src/**/*.rt", recursive=True):
        rel = os.path.relpath(f, crate_dir + "/src")[:-3].replace("/", ".")
        mod = "" if rel == "lib" else rel + "."
        t = strip_rt(open(f, encoding="utf8").read())
        for q in re.finditer("\\b(enum|struct) (\\w+)\\s*(?:<[^>]*>)?\\s*\\{", t):
            i, d = (q.end(), 1)
            while d:
                d += (t[i] == "{") - (t[i] == "}")
                i += 1
            body = t[q.end() : i - 1]
            parts, cur, d = ([], "", 0)
            for ch in body:
                if ch in "({[<":
                    d += 1
                if ch in ")}]>":
                    d -= 1
                if ch == "," and d == 0:
                    parts.append(cur)
                    cur = ""
                else:
                    cur += ch
            parts.append(cur)
            parts = [re.sub(r"^(?:#\[[^\]]*\]\s*)*", "", x.strip()) for x in parts]
            parts = [x for x in parts if x and not re.match(r"(?:pub(?:\([a-z]*\))? )?ghost ", x)]
            if q[1] == "struct":
                structs[mod + q[2]] = [
                    (re.sub("^pub(\\([a-z]*\\))? ", "", x).split(":", 1)[0].strip(), x.split(":", 1)[1].strip()) for x in parts
                ]
            else:
                vs = []
                for x in parts:
                    n = re.match("\\w+", x)[0]
                    rest = x[len(n) :].strip()
                    if not rest:
                        vs.append((n, []))
                    else:
                        inner = rest[1:-1]
                        ps, cur, d = ([], "", 0)
                        for ch in inner:
                            if ch in "({[<":
                                d += 1
                            if ch in ")}]>":
                                d -= 1
                            if ch == "," and d == 0:
                                ps.append(cur)
                                cur = ""
                            else:
                                cur += ch
                        ps.append(cur)
                        ps = [y.strip() for y in ps if y.strip()]
                        if rest[0] == "{":
                            ps = [y.split(":", 1)[1].strip() for y in ps]
                        vs.append((n, ps))
                enums[mod + q[2]] = vs
        for q in re.finditer("\\bstruct (\\w+)\\s*\\(((?:[^;\\[]|\\[[^\\]]*\\])*)\\);", t):
            structs[mod + q[1]] = [(str(n), re.sub("^pub ", "", x.strip())) for n, x in enumerate(re.split(",(?![^\\[]*\\])", q[2]))]
    return (enums, structs)
