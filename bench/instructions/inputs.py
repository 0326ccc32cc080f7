"""Random inputs of an instruction that meet its assertions."""
import math
import random
import re

from unit_text import python

CASES, TRIES, ENOUGH, MOST_CELLS = 48, 30000, 1000, 1 << 14


class Sampler:
    """Makes inputs: the numbers of control parameters, fields and buffers."""

    def __init__(self, unit, item, fields):
        self.unit, self.item, self.random = unit, item, random.Random(item.name)
        self.controls = [p for p in item.params if p.control]
        self.buffers = [p for p in item.params if not p.control]
        self.fields = [field for field in unit.kinds if field.replace(".", "_") in fields]
        self.claims = [compile(python(claim), "claim", "eval") for claim in item.asserts]
        self.dims = {p.name: [compile(python(dim), "dim", "eval") for dim in p.dims] for p in self.buffers}
        self.known = self.equalities()
        told = [token for words in item.asserts + [dim for p in item.params for dim in p.dims] for token in words if token.kind == "number"]
        self.numbers = sorted({int(token.text) for token in told if int(token.text) < 4096})

    def equalities(self):
        """Returns the names, fields and strides for which an assertion has a value, with it."""
        found = []
        for claim in self.item.asserts:
            for part in re.split(r"\band\b", python(claim)):
                sides = part.split("==")
                for left, right in (sides, sides[::-1]) if len(sides) == 2 else ():
                    if re.fullmatch(r"\s*v\['[^']*'\]\s*", left) and not re.search(r"[()]|\bor\b|<|>", left + right):
                        found.append((left.strip()[3:-2], compile(right.strip(), "value", "eval")))
        return found

    def number(self, kind):
        if kind == "bool":
            return self.random.randrange(2)
        near = [c * k + d for c in self.numbers for k in (1, 2, 3) for d in (-1, 0, 1)]
        value = self.random.choice(near) if near and self.random.randrange(2) else self.random.randrange(1, self.random.choice((3, 10, 70)))
        if kind == "index":
            return self.random.choice((value, value, 0, -value))
        return max(value, 1 if kind == "size" else 0)

    def settle(self, v):
        for _ in range(2):
            for name, value in self.known:
                try:
                    v[name] = int(eval(value, {"v": v}))
                except KeyError:
                    pass

    def strides(self, p, extents, stored):
        """Returns strides for a buffer: row-major ones, and for a window in plain memory any that tell its cells apart."""
        if not p.window or p.memory in self.unit.lanes:
            return [math.prod(stored[len(stored) - len(extents) + k + 1:]) for k in range(len(extents))]
        order = list(range(len(extents)))
        if self.random.randrange(4) == 0:
            self.random.shuffle(order)
        strides, least = [0] * len(extents), 1
        for k in reversed(order):
            strides[k] = least + self.random.choice((0, 0, 1, 2, 7))
            if extents[k] == 1 and self.random.randrange(3) == 0:
                strides[k] = self.random.randrange(3)
            least = max(least, (extents[k] - 1) * strides[k] + least)
        return strides

    def buffer(self, p, v):
        """Returns the numbers of a buffer, or nothing where it has no such cells: how many, how many stand before, extents, strides."""
        extents = [int(eval(dim, {"v": v})) for dim in self.dims[p.name]]
        if any(extent < 1 for extent in extents):
            return None
        vector = p.memory in self.unit.lanes and p.window
        stored = ([3] + extents if len(extents) == 1 else [extents[0] + 2] + extents[1:]) if vector else extents
        strides = [v.setdefault(f"stride {p.name} {k}", s) for k, s in enumerate(self.strides(p, extents, stored))]
        cells = math.prod(stored) if vector or not p.window else 1 + sum((e - 1) * s for e, s in zip(extents, strides))
        if cells > MOST_CELLS or not apart(extents, strides):
            return None
        return [cells, math.prod(stored[1:]) if vector else 0] + extents + strides

    def case(self):
        v = {p.name: self.number(p.kind) for p in self.controls}
        v.update((field, self.number(self.unit.kinds[field])) for field in self.unit.kinds)
        self.settle(v)
        row = []
        for p in self.buffers:
            numbers = self.buffer(p, v)
            if numbers is None:
                return None
            row += numbers
        kinds = [(p.name, p.kind) for p in self.controls] + [(field, self.unit.kinds[field]) for field in self.unit.kinds]
        if any(v[name] < 1 for name, kind in kinds if kind == "size") or not all(eval(claim, {"v": v}) for claim in self.claims):
            return None
        return tuple([v[p.name] for p in self.controls] + [v[field] for field in self.fields] + row)

    def cases(self):
        """Returns different inputs; none where none was found in some thousand tries."""
        found, last = {}, 0
        for now in range(TRIES):
            row = self.case()
            if row is not None and row not in found:
                found[row], last = True, now
            if len(found) == CASES or found and now - last > ENOUGH:
                break
        return list(found)


def apart(extents, strides):
    """Whether different indices lie in different cells."""
    room = 1
    for stride, extent in sorted((s, e) for s, e in zip(strides, extents) if e > 1):
        if stride < room:
            return False
        room = (extent - 1) * stride + room
    return True
