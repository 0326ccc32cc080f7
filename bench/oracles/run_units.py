"""Runs what `exoc check` accepts, to see that no small input makes it fault.

  run_units.py PROGRAM [COUNT [SEED]]   makes units until PROGRAM has accepted COUNT of them, and runs each of their procedures

The meaning here is written by itself, from docs/LANGUAGE.md; what a run does to cells is left out, since no fault depends on it.
Of the units that are refused it counts those that some input does make fault: of a check that refused without cause none would.
"""
import itertools
import random
import subprocess
import sys
import tempfile
from types import SimpleNamespace

from make_units import CONFIG, unit_text, units

INPUTS = 12
OWED = ["NotShown", "TooManyCases", "SystemTooLarge", "WideNumber", "TooManyObligations"]


class Fault(Exception):
    """What an admissible input of a shown procedure never gives."""


# ---- the meaning

def number(s, e):
    op = e[0]
    if op == "lit":
        return e[1]
    if op == "var":
        return s.control[e[1]]
    if op == "field":
        return s.fields[e[1]]
    if op == "stride":
        return strides_seen(s, s.views[e[1]])[e[2]]
    a = number(s, e[1])
    if op == "/":
        return a // e[2]
    if op == "%":
        return a % e[2]
    b = number(s, e[2])
    return a + b if op == "+" else a - b if op == "-" else a * b


def holds(s, c):
    op = c[0]
    if op in ("var", "field"):
        return number(s, c) != 0
    if op == "and":
        return holds(s, c[1]) and holds(s, c[2])
    if op == "or":
        return holds(s, c[1]) or holds(s, c[2])
    a, b = number(s, c[1]), number(s, c[2])
    return {"<": a < b, "<=": a <= b, ">": a > b, ">=": a >= b, "==": a == b}[op]


def strides_seen(s, seen):
    buffer, sides = seen
    return [t for side, t in zip(sides, s.buffers[buffer][1]) if side[0] == "range"]


def extents(sides):
    return [side[2] for side in sides if side[0] == "range"]


def test(ok):
    if not ok:
        raise Fault


def narrowed(s, seen, coords):
    """The part of a view at coordinates: each an expression or a pair of a lower and an upper end."""
    buffer, sides = seen
    left = list(coords)
    out = []
    for side in sides:
        if side[0] == "point":
            out.append(side)
            continue
        _, low, extent = side
        first, *rest = left.pop(0)
        a = number(s, first)
        if rest:
            b = number(s, rest[0])
            test(0 <= a < b <= extent)
            out.append(("range", low + a, b - a))
        else:
            test(0 <= a < extent)
            out.append(("point", low + a))
    return buffer, out


def touch(s, x, indices):
    narrowed(s, s.views[x], [(i,) for i in indices])


def with_buffer(s, x, dims, strides):
    test(all(d >= 1 for d in dims))
    s.buffers[x] = (dims, strides)
    s.views[x] = (x, [("range", 0, d) for d in dims])


def row_major(dims):
    strides = [1] * len(dims)
    for k in range(len(dims) - 2, -1, -1):
        strides[k] = strides[k + 1] * dims[k + 1]
    return strides


def inner(s):
    return SimpleNamespace(control=dict(s.control), buffers=dict(s.buffers), views=dict(s.views), fields=s.fields)


def run(unit, body, s):
    for st in body:
        step(unit, st, s)


def step(unit, st, s):
    op = st[0]
    if op in ("=", "+="):
        touch(s, st[1], st[2])
        for x, indices in st[3]:
            touch(s, x, indices)
    elif op == "config":
        n = int(holds(s, st[2])) if CONFIG[st[1]] == "bool" else number(s, st[2])
        test(CONFIG[st[1]] != "size" or n >= 1)
        s.fields[st[1]] = n
    elif op == "if":
        run(unit, st[2] if holds(s, st[1]) else st[3], inner(s))
    elif op == "for":
        for n in range(number(s, st[2]), number(s, st[3])):
            turn = inner(s)
            turn.control[st[1]] = n
            run(unit, st[4], turn)
    elif op == "alloc":
        dims = [number(s, d) for d in st[2]]
        with_buffer(s, st[1], dims, row_major(dims))
    elif op == "view":
        s.views[st[1]] = narrowed(s, s.views[st[2]], st[3])
    elif op == "call":
        call(unit[st[1]], unit, st[2], s)


def end(side):
    return side[1] + (side[2] if side[0] == "range" else 1)


def meet(a, b):
    """Whether two views have a cell in common."""
    return a[0] == b[0] and all(s[1] < end(t) and t[1] < end(s) for s, t in zip(a[1], b[1]))


def written(unit, body, roots):
    """The buffers that a block writes or reduces, by the names of their roots."""
    out = set()
    for st in body:
        if st[0] in ("=", "+="):
            out.add(roots.get(st[1], st[1]))
        elif st[0] == "if":
            out |= written(unit, st[2], roots) | written(unit, st[3], roots)
        elif st[0] == "for":
            out |= written(unit, st[4], roots)
        elif st[0] == "view":
            roots = {**roots, st[1]: roots.get(st[2], st[2])}
        elif st[0] == "call":
            callee = unit[st[1]]
            there = written(unit, callee.body, {})
            out |= {roots.get(arg[0], arg[0]) for (name, _, _), arg in zip(callee.params, st[2]) if name in there}
    return out


def call(callee, unit, args, s):
    t = SimpleNamespace(control={}, buffers={}, views={}, fields=s.fields)
    given = []
    for (name, kind, _), arg in zip(callee.params, args):
        if kind in ("tensor", "window"):
            given.append(narrowed(s, s.views[arg[0]], arg[1]) if arg[1] else s.views[arg[0]])
            continue
        n = int(holds(s, arg)) if kind == "bool" else number(s, arg)
        test(kind != "size" or n >= 1)
        t.control[name] = n
        given.append(None)
    writes = written(unit, callee.body, {})
    passed = [(name in writes, seen) for (name, _, _), seen in zip(callee.params, given) if seen]
    for (w, a), (v, b) in itertools.combinations(passed, 2):
        test(not (w or v) or not meet(a, b))
    for (name, kind, dims), seen in zip(callee.params, given):
        if seen:
            sizes = [number(t, d) for d in dims]
            test(sizes == extents(seen[1]))
            with_buffer(t, name, sizes, strides_seen(s, seen))
    test(all(holds(t, c) for c in callee.asserts))
    run(unit, callee.body, t)


def small(rng, kind):
    return rng.randint(1, 5) if kind == "size" else rng.randint(0, 1) if kind == "bool" else rng.randint(-3, 6)


def faults(unit, p, rng):
    """Runs a procedure on one small input; None where the input that was drawn is not admissible."""
    s = SimpleNamespace(control={}, buffers={}, views={}, fields={f: small(rng, kind) for f, kind in CONFIG.items()})
    s.control = {name: small(rng, kind) for name, kind, _ in p.params if kind not in ("tensor", "window")}
    for name, kind, dims in p.params:
        if kind in ("tensor", "window"):
            sizes = [number(s, d) for d in dims]
            strides = row_major(sizes) if kind == "tensor" or rng.random() < 0.5 else [rng.randint(1, 9) for _ in sizes]
            s.buffers[name] = (sizes, strides)
            s.views[name] = (name, [("range", 0, d) for d in sizes])
    if not all(holds(s, c) for c in p.asserts):
        return None
    if any(d < 1 for dims, _ in s.buffers.values() for d in dims):
        return True
    try:
        run(unit, p.body, s)
        return False
    except Fault:
        return True


# ---- the program's answers

def answer(program, unit, folder):
    """None where the unit is accepted, else the message."""
    with open(f"{folder}/u.py", "w") as file:
        file.write(unit_text(unit))
    ran = subprocess.run([program, "check", "u.py"], cwd=folder, capture_output=True, text=True)
    return None if ran.returncode == 0 else ran.stderr.strip() or f"status {ran.returncode}"


class Tally:
    def __init__(self, seed):
        self.rng = random.Random(seed)
        self.accepted = self.refused = self.faulting = self.runs = 0
        self.wrong = []

    def faults(self, unit):
        found = [faults(unit, p, self.rng) for p in unit.values() for _ in range(INPUTS)]
        self.runs += sum(f is not None for f in found)
        return any(found)

    def put(self, unit, message):
        """Counts a unit, and keeps it where its answer can't be right: it is accepted and faults, or it breaks a rule."""
        if message is None:
            self.accepted += 1
            if self.faults(unit):
                self.wrong.append("accepted, and some input makes it fault:\n" + unit_text(unit))
        elif any(kind in message for kind in OWED):
            self.refused += 1
            self.faulting += self.faults(unit)
        else:
            self.wrong.append(f"{message}\n{unit_text(unit)}")

    def told(self):
        for text in self.wrong:
            print(text)
        print(f"{self.accepted} units accepted, {self.refused} refused, of which {self.faulting} fault for some input; {self.runs} runs; {len(self.wrong)} answers are wrong")
        return 1 if self.wrong else 0


def main(program, count="200", seed="1"):
    tally = Tally(seed)
    wanted = int(count)
    with tempfile.TemporaryDirectory() as folder:
        for unit in itertools.islice(units(int(seed)), 20 * wanted):
            tally.put(unit, answer(program, unit, folder))
            if tally.accepted == wanted or tally.wrong:
                break
        else:
            tally.wrong.append(f"of {20 * wanted} units {tally.accepted} are accepted")
    return tally.told()


if __name__ == "__main__":
    sys.exit(main(*sys.argv[1:]))
