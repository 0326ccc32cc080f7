"""Units at random, mostly within their bounds and now and then past them by one, and their texts.

Trees are tuples: ("lit", 3), ("var", "i"), ("field", "Cfg.n"), ("stride", "x", 0), ("+", a, b), ("/", a, 8), ..
"""
import random
from types import SimpleNamespace

CONFIG = {"Cfg.n": "size", "Cfg.k": "index", "Cfg.b": "bool"}
CELLS = ["i8", "i16", "i32", "ui8"]


# ---- the text

def text_of(e):
    op = e[0]
    if op == "lit":
        return str(e[1]) if e[1] >= 0 else f"(-{-e[1]})"
    if op in ("var", "field"):
        return e[1]
    if op == "stride":
        return f"stride({e[1]}, {e[2]})"
    right = str(e[2]) if op in ("/", "%") else text_of(e[2])
    return f"({text_of(e[1])} {op} {right})"


def access(x, indices):
    return f"{x}[{', '.join(map(text_of, indices))}]" if indices else x


def window(x, coords):
    return f"{x}[{', '.join(':'.join(map(text_of, c)) for c in coords)}]" if coords else x


def lines(st, by, unit):
    op = st[0]
    pad = "    " * by
    if op in ("=", "+="):
        return [f"{pad}{access(st[1], st[2])} {op} {' + '.join([access(*r) for r in st[3]] + ['1'])}"]
    if op == "config":
        return [f"{pad}{st[1]} = {text_of(st[2])}"]
    if op == "if":
        other = [f"{pad}else:", *block(st[3], by + 1, unit)] if st[3] else []
        return [f"{pad}if {text_of(st[1])}:", *block(st[2], by + 1, unit), *other]
    if op == "for":
        return [f"{pad}for {st[1]} in seq({text_of(st[2])}, {text_of(st[3])}):", *block(st[4], by + 1, unit)]
    if op == "alloc":
        return [f"{pad}{st[1]}: {access(st[3], st[2])}"]
    if op == "view":
        return [f"{pad}{st[1]} = {window(st[2], st[3])}"]
    kinds = [kind for _, kind, _ in unit[st[1]].params]
    return [f"{pad}{st[1]}({', '.join(window(*a) if k in ('tensor', 'window') else text_of(a) for k, a in zip(kinds, st[2]))})"]


def block(body, by, unit):
    return [line for st in body for line in lines(st, by, unit)]


def param(name, kind, dims, cell):
    return f"{name}: {access(cell if kind == 'tensor' else f'[{cell}]', dims) if dims else kind}"


def unit_text(unit):
    out = ["@config", "class Cfg:", *(f"    {f[4:]}: {kind}" for f, kind in CONFIG.items())]
    for name, p in unit.items():
        out += ["@proc", f"def {name}({', '.join(param(*q, p.cells.get(q[0])) for q in p.params)}):", *(f"    assert {text_of(c)}" for c in p.asserts), *block(p.body, 1, unit)]
    return "\n".join(out) + "\n"


# ---- units at random: mostly within their bounds, now and then past them by one

class Maker:
    def __init__(self, rng):
        self.rng = rng
        self.unit = {}
        self.cell = self.pick(CELLS)

    def fresh(self, letter):
        self.made += 1
        return f"{letter}{self.made}"

    def often(self, p):
        return self.rng.random() < p

    def pick(self, items):
        return self.rng.choice(list(items))

    def cells(self):
        """The type of a buffer's cells, for most buffers of a unit the same."""
        return self.cell if self.often(0.8) else self.pick(CELLS)

    def nudged(self, e, p=0.04):
        return (self.pick("+-"), e, ("lit", 1)) if self.often(p) else e

    def index(self, extent, loops):
        """An expression that is mostly from 0 to below the extent."""
        same = [("var", i) for i, _, hi in loops if hi == extent]
        ways = [("lit", 0), ("-", extent, ("lit", 1))] + 4 * same + [("/", i, 2) for i in same]
        ways += [("-", ("-", extent, ("lit", 1)), i) for i in same]
        if extent[0] == "lit":
            ways += [("%", ("var", i), extent[1]) for i, _, _ in loops] + [("lit", self.rng.randrange(extent[1]))]
        return self.nudged(self.pick(ways))

    def span(self, extent, loops):
        """A lower and an upper end, mostly within the extent."""
        if self.often(0.4):
            return (("lit", 0), self.nudged(extent))
        a = self.index(extent, loops)
        return (a, self.pick([("+", a, ("lit", 1)), extent]))

    def extent(self, names):
        sizes = [("var", n) for n in names.sizes]
        ways = [("lit", self.rng.randint(1, 5))] + 2 * sizes + [("+", n, ("lit", 1)) for n in sizes] + [("+", ("/", n, 2), ("lit", 1)) for n in sizes]
        return self.nudged(self.pick(ways), 0.03)

    def condition(self, names, loops):
        numbers = [("var", v) for v in names.sizes + names.indices] + [("var", i) for i, _, _ in loops] + [("field", "Cfg.n"), ("field", "Cfg.k"), ("lit", 2)]
        if self.often(0.2):
            return self.pick([("field", "Cfg.b")] + [("var", b) for b in names.bools])
        c = (self.pick(["<", "<=", ">", ">=", "=="]), self.pick(numbers), self.pick(numbers))
        return (self.pick(["and", "or"]), c, self.condition(names, loops)) if self.often(0.2) else c

    def place(self, names, loops):
        x, dims = self.pick(names.buffers.items())
        return x, [self.index(d, loops) for d in dims]

    def argument(self, kind, names, loops):
        if kind == "bool":
            return self.condition(names, loops)
        ways = [("var", n) for n in names.sizes] + [("lit", self.rng.randint(1, 4))]
        if kind == "index":
            ways += [("var", i) for i, _, _ in loops] + [("field", "Cfg.k")]
        return self.nudged(self.pick(ways))

    def call(self, names, loops):
        """A call whose sizes come from the buffers that it is given."""
        if not self.unit:
            return ("pass",)
        name, q = self.pick([*self.unit.items(), *3 * [p for p in self.unit.items() if p[0] == "pair"]])
        values = {n: self.argument(kind, names, loops) for n, kind, _ in q.params if kind in ("size", "index", "bool")}
        args, passed = {}, {}
        for n, kind, dims in q.params:
            if kind in values or not dims:
                continue
            fits = [x for x in names.buffers if names.cells[x] == q.cells[n] and self.fits(x, kind, dims, names, passed)]
            if not fits:
                return ("pass",)
            again = [x for x in fits if names.roots[x] in passed]
            x = self.pick(again if again and self.often(0.6) else fits)
            before = passed.get(names.roots[x])
            coords = [] if kind == "tensor" else self.part(names.buffers[x], len(dims), loops, sum(k == "window" for _, k, _ in q.params) > 1)
            if before and before[0] == x and sum(len(c) == 2 for c in before[1]) == len(dims) and self.often(0.8):
                coords = self.beside(before[1])
            passed[names.roots[x]] = None if kind == "tensor" else (x, coords)
            spans = [c for c in coords if len(c) == 2]
            left = [b if a == ("lit", 0) else ("-", b, a) for a, b in spans] if coords else names.buffers[x]
            for d, e in zip(dims, left):
                if d[0] == "var" and self.often(0.97):
                    values[d[1]] = e
            args[n] = (x, coords)
        return ("call", name, [values[n] if n in values else args[n] for n, _, _ in q.params])

    def fits(self, x, kind, dims, names, passed):
        """Whether a buffer may be passed, next to those of the roots that are passed: to a tensor only alone."""
        root, rank = names.roots[x], len(names.buffers[x])
        if kind == "tensor":
            return rank == len(dims) and x not in names.windows | names.views and root not in passed
        return rank >= len(dims) and (root not in passed or passed[root] is not None)

    def part(self, given, rank, loops, one_of_several):
        """A window of that rank, with room beside it where others are passed too, or no coordinates for a whole buffer."""
        points = [(self.index(d, loops),) for d in given[:len(given) - rank]]
        if not points and self.often(0.1 if one_of_several else 0.5):
            return []
        return points + [self.short(d, loops) if one_of_several and self.often(0.7) else self.span(d, loops) for d in given[len(points):]]

    def short(self, extent, loops):
        """Half of an extent, or one index of it."""
        if extent[0] == "lit" and extent[1] > 1 and self.often(0.5):
            return (("lit", 0), ("lit", extent[1] // 2))
        a = self.pick([("lit", 0), self.index(extent, loops)])
        return (a, ("+", a, ("lit", 1)))

    def beside(self, coords):
        """A window next to another one, in one dimension."""
        k = self.rng.randrange(len(coords))
        a, *rest = coords[k]
        if rest:
            extent = rest[0] if a == ("lit", 0) else ("-", rest[0], a)
            moved = self.pick([(rest[0], ("+", rest[0], extent))] * 3 + [(("-", a, extent), a)])
        else:
            moved = (self.pick([("+", a, ("lit", 1)), ("-", a, ("lit", 1))]),)
        return coords[:k] + [moved] + coords[k + 1:]

    def statement(self, depth, names, loops):
        kind = self.pick(["="] * 3 + ["+="] * 2 + ["for"] * 5 + ["if"] * 3 + ["alloc", "view", "config"] + ["call"] * 3)
        if kind in ("for", "if") and depth == 0:
            kind = "+="
        if kind == "for":
            hi = self.pick([d for ds in names.buffers.values() for d in ds])
            i = self.fresh("i")
            return ("for", i, ("lit", self.pick([0, 0, 0, 1])), hi, self.body(depth - 1, names, loops + [(i, 0, hi)]))
        if kind == "if":
            if self.often(0.6):
                x, indices = self.place(names, loops)
                if indices:
                    e = (self.pick("+-"), indices[0], ("lit", self.rng.randint(1, 2)))
                    guard = ("and", ("<=", ("lit", 0), e), ("<", e, names.buffers[x][0]))
                    return ("if", guard if self.often(0.8) else guard[self.pick([1, 2])], [("=", x, [e] + indices[1:], [])], [])
            return ("if", self.condition(names, loops), self.body(depth - 1, names, loops), self.body(depth - 1, names, loops) if self.often(0.4) else [])
        if kind == "alloc":
            t = self.fresh("t")
            dims = [self.extent(names) for _ in range(self.pick([0, 1, 1, 2]))]
            names.buffers[t], names.cells[t], names.roots[t] = dims, self.cells(), t
            return ("alloc", t, dims, names.cells[t])
        if kind == "view":
            x, dims = self.pick(names.buffers.items())
            if dims:
                w = self.fresh("w")
                coords = [self.span(dims[0], loops)] + [self.span(d, loops) if self.often(0.5) else (self.index(d, loops),) for d in dims[1:]]
                names.buffers[w] = [("-", c[1], c[0]) for c in coords if len(c) == 2]
                names.cells[w], names.roots[w] = names.cells[x], names.roots[x]
                names.views.add(w)
                return ("view", w, x, coords)
        if kind == "config":
            f = self.pick(CONFIG)
            plain = [("var", v) for v in names.sizes] + [("lit", 3)] + [("var", i) for i, _, _ in loops if CONFIG[f] == "index"]
            return ("config", f, ("<", self.pick(plain), self.pick(plain)) if CONFIG[f] == "bool" else self.nudged(self.pick(plain), 0.2))
        if kind == "call":
            st = self.call(names, loops)
            if st[0] == "call":
                return st
        x, indices = self.place(names, loops)
        return ("+=" if kind == "+=" else "=", x, indices, [self.place(names, loops) for _ in range(self.rng.randint(0, 2))])

    def body(self, depth, names, loops):
        names = SimpleNamespace(sizes=names.sizes, indices=names.indices, bools=names.bools, buffers=dict(names.buffers), windows=names.windows,
                                views=set(names.views), cells=dict(names.cells), roots=dict(names.roots))
        return [self.statement(depth, names, loops) for _ in range(self.rng.randint(1, 2))]

    def procedure(self):
        self.made = 0
        names = SimpleNamespace(sizes=[self.fresh("n") for _ in range(self.rng.randint(1, 2))], indices=[self.fresh("k")] if self.often(0.3) else [],
                                bools=[self.fresh("b")] if self.often(0.3) else [], buffers={}, windows=set(), views=set(), cells={}, roots={})
        params = [(n, "size", []) for n in names.sizes] + [(k, "index", []) for k in names.indices] + [(b, "bool", []) for b in names.bools]
        asserts = []
        for _ in range(self.rng.randint(1, 3)):
            x, kind = self.fresh("x"), self.pick(["tensor", "window"])
            names.buffers[x], names.cells[x], names.roots[x] = [self.extent(names) for _ in range(self.rng.randint(1, 2))], self.cells(), x
            params.append((x, kind, names.buffers[x]))
            if kind == "window":
                names.windows.add(x)
            if kind == "window" and self.often(0.3):
                asserts.append(("==", ("stride", x, len(names.buffers[x]) - 1), ("lit", 1)))
        if self.often(0.3):
            asserts.append(self.pick([("<=", ("var", names.sizes[0]), ("lit", 4)), ("<", ("lit", 1), ("var", names.sizes[0])), ("<", ("field", "Cfg.k"), ("lit", 5))]))
        return SimpleNamespace(params=params, asserts=asserts, body=self.body(3, names, []), cells=names.cells)

    def pair(self):
        """A procedure of two windows of one length, of which it sets one, or adds to it."""
        n, x, y, i = ("n1", "x2", "x3", "i4")
        there = [(z, [("var", i)]) for z in (x, y)]
        self.rng.shuffle(there)
        body = [("for", i, ("lit", 0), ("var", n), [(self.pick(["=", "+="]), *there[0], [there[1]])])]
        params = [(n, "size", []), (x, "window", [("var", n)]), (y, "window", [("var", n)])]
        return SimpleNamespace(params=params, asserts=[], body=body, cells={x: self.cell, y: self.cell})

    def make(self):
        if self.often(0.4):
            self.unit["pair"] = self.pair()
        for k in range(self.rng.randint(1, 3)):
            self.unit[f"p{k}"] = self.procedure()
        return self.unit


def units(seed):
    rng = random.Random(seed)
    while True:
        yield Maker(rng).make()
