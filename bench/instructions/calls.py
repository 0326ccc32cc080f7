"""The text that exoc is asked to print for a unit: a procedure with the body of each instruction, and procedures that call it."""
import itertools
import re

from unit_text import WORDS, items, tokens

BYTES = {"i8": 1, "i16": 2, "i32": 4, "ui8": 1}
ALL, ONCE, WHOLE = range(3)  # calls in all ways; never twice in a block; one, outside of loops, that passes whole buffers


class Unit:
    """A unit: its items, a word that begins no name in it, and the memories with lanes."""

    def __init__(self, path):
        self.path = path
        text = path.read_text(encoding="utf-8", errors="surrogateescape")
        self.items = items(text)
        self.by_name = {item.name: item for item in self.items}
        names = {token.text for token in tokens(text) if token.kind == "name"}
        self.own = next(word for word in map("try{}_".format, itertools.chain([""], itertools.count())) if not any(n.startswith(word) for n in names))
        self.instructions = [item for item in self.items if item.head == "instr"]
        self.memories = [item for item in self.items if item.head == "memory"]
        self.lanes = {m.name: int(m.entries.get("lanes", 0)) for m in self.memories if int(m.entries.get("lanes", 0))}
        self.kinds = {f"{c.name}.{field}": kind for c in self.items if c.head == "config" for field, kind in c.entries.items()}

    def called(self, instructions):
        """Returns the procedures that these instructions call, directly or through others, and themselves, in order."""
        found = set()
        left = list(instructions)
        while left:
            item = left.pop()
            if item.name not in found:
                found.add(item.name)
                left += [self.by_name[name] for name in item.calls]
        return [item for item in self.items if item.name in found]


def edited(item, edits):
    """Returns an item's text with the places of some tokens replaced."""
    out, at = [], 0
    for start, end, new in sorted(edits):
        out += [item.text[at:start - item.start], new]
        at = end - item.start
    return "".join(out) + item.text[at:]


def body_of(unit, item, name_of):
    """Returns the procedure that has an item's body: over plain cells, with the bodies of what it calls."""
    words, edits = item.words, []
    at = next(k for k, token in enumerate(words) if token.text == "def" and token.kind == "name")
    edits.append((words[0].start, words[at].end, "@proc\ndef"))
    for k in range(at + 1, len(words)):
        token = words[k]
        if token.kind == "name" and token.text in name_of and words[k + 1].text == "(":
            edits.append((token.start, token.end, name_of[token.text]))
        elif token.text == "@" and token.kind == "sign":
            edits.append((token.start, words[k + 1].end, ""))
    return edited(item, edits)


class Call:
    """A procedure that calls an instruction, once or twice in a block, with names of its own for what it passes."""

    def __init__(self, unit, item, number, names, loop, times, whole=False):
        self.unit, self.item, self.times, self.loop, self.whole = unit, item, times, loop, whole
        self.name = f"{unit.own}c{number}"
        self.names = dict(zip([p.name for p in item.params], names))

    def renamed(self, words):
        out = []
        for k, token in enumerate(words):
            field = k and words[k - 1].text == "." or k + 1 < len(words) and words[k + 1].text == "."
            out.append(token.text if field or token.kind != "name" else self.names.get(token.text, token.text))
        return " ".join(out)

    def dims(self, param):
        return [self.renamed(dim) for dim in param.dims]

    def vectors(self):
        return [p for p in self.item.params if not p.control and p.memory in self.unit.lanes]

    def stored(self, param):
        """Returns the dimensions of the buffer that stands behind a vector: a row more on each side of a window."""
        dims = self.dims(param)
        if not param.window:
            return dims
        if len(dims) == 1:
            return ["3"] + dims
        return [str(int(dims[0]) + 2) if dims[0].isdigit() else f"{dims[0]} + 2"] + dims[1:]

    def parameter(self, param):
        name = self.names[param.name]
        memory = "" if param.memory == "DRAM" else f" @ {param.memory}"
        if param.control:
            return f"{name}: {param.kind}"
        if param.memory in self.unit.lanes:
            return f"{self.unit.own}{param.name}: {param.kind}[{', '.join(self.stored(param))}]"
        if not param.dims:
            return f"{name}: {param.kind}[1]{memory}" if not self.whole else f"{name}: {param.kind}{memory}"
        dims = ", ".join(self.dims(param))
        return f"{name}: [{param.kind}][{dims}]{memory}" if param.window else f"{name}: {param.kind}[{dims}]{memory}"

    def argument(self, param):
        name, dims, loop = self.names[param.name], self.dims(param), self.loop
        if param.control or self.whole and param.memory not in self.unit.lanes:
            return name
        if not param.dims:
            return f"{name}[{loop}]"
        if not param.window:
            return name
        spans = [f"0:{dim}" for dim in dims]
        if param.memory not in self.unit.lanes:
            return f"{name}[{', '.join([f'{loop}:{loop} + {dims[0]}'] + spans[1:])}]"
        loop = "0" if self.whole else loop
        first = [f"{loop} + 1"] if len(dims) == 1 else [f"{loop} + 1:{loop} + 1 + {dims[0]}"] + spans[1:-1]
        return f"{name}[{', '.join(first + [spans[-1]])}]"

    def moves(self, param, word):
        """Returns the lines that load or store all vectors of a buffer."""
        name, cells, rows = self.names[param.name], f"{self.unit.own}{param.name}", self.stored(param)[:-1]
        at = [f"{self.unit.own}k{k}" for k in range(len(rows))]
        lines = ["    " * (k + 1) + f"for {i} in seq(0, {row}):" for k, (i, row) in enumerate(zip(at, rows))]
        spot = ", ".join(at + [f"0:{self.unit.lanes[param.memory]}"])
        return lines + ["    " * (len(rows) + 1) + f"{self.unit.own}{word}_{param.memory}({name}[{spot}], {cells}[{spot}])"]

    def call_text(self):
        return f"{self.item.name}({', '.join(self.argument(p) for p in self.item.params)})"

    def text(self):
        vectors = self.vectors()
        lines = ["@proc", f"def {self.name}({', '.join(self.parameter(p) for p in self.item.params)}):"]
        for claim in self.item.asserts:
            if not any(token.text in (p.name for p in vectors) for token in claim):
                lines.append(f"    assert {self.renamed(claim)}")
        for p in vectors:
            lines.append(f"    {self.names[p.name]} : {p.kind}[{', '.join(self.stored(p))}] @ {p.memory}")
            lines += self.moves(p, "load")
        block = [self.call_text()] * self.times + [f"{self.unit.own}seen.{field} = {self.names[p.name]}" for p, field in seen(self.item)]
        if not self.whole:
            lines.append(f"    for {self.loop} in seq(0, 1):")
        lines += [("    " if self.whole else "        ") + line for line in block]
        for p in vectors:
            lines += self.moves(p, "store")
        return "\n".join(lines) + "\n"


def seen(item):
    """Pairs the control parameters of an instruction with the fields that keep, behind a call, what was given for them."""
    controls = [p for p in item.params if p.control]
    return [(p, f"b{k}" if p.kind == "bool" else f"n{k}") for k, p in enumerate(controls)]


def movers(unit, memory):
    """Returns the instructions that load and store a vector."""
    lanes, cell = unit.lanes[memory.name], memory.entries["cell"]
    out = []
    for word, to, source in (("load", "v", "x"), ("store", "x", "v")):
        out.append(f'@instr("__builtin_memcpy(&{{{to}_data}}, &{{{source}_data}}, {lanes * BYTES[cell]});")\n'
                   f"def {unit.own}{word}_{memory.name}(v: [{cell}][{lanes}] @ {memory.name}, x: [{cell}][{lanes}]):\n"
                   f"    for l in seq(0, {lanes}):\n        {to}[l] = {source}[l]\n")
    return out


def candidates(item):
    """Returns the names in a template that may be its own: no call, no member, and a name that a binder of the C can have."""
    bare = re.sub(r'"(?:\\.|[^"\\])*"|\'(?:\\.|[^\'\\])*\'|/\*.*?\*/|//[^\n]*', " ", item.template, flags=re.S)
    bare = re.sub(r"(?<!\{)\{\w+\}", " ", bare)
    found = re.findall(r"(?<![\w.>])([A-Za-z]\w*)(?!\w)(?!\s*\()", bare)
    return sorted(name for name in set(found) if name not in WORDS and not name.startswith("exo_"))


def calls_of(unit, item, count, declared, ways):
    """Returns the calls of an instruction that are tried: with its own names, twice in a block, and with each name of its template for each
    of what is passed and for the loop around."""
    own = [name for name in candidates(item) if name in declared]
    plain = [f"{unit.own}{p.name}" if p.name in own else p.name for p in item.params]
    numbers = itertools.count(count)
    loop = f"{unit.own}l"
    found = [Call(unit, item, next(numbers), plain, loop, 1, ways == WHOLE)]
    if ways == WHOLE:
        return found
    if ways == ALL:
        found.append(Call(unit, item, next(numbers), plain, loop, 2))
    slots = len(plain) + 1
    turns = max(len(own), slots) if own else 0
    for turn in range(turns):
        given = [own[(s + turn) % turns] if (s + turn) % turns < len(own) else None for s in range(slots)]
        names = [g or p for g, p in zip(given, plain)]
        found.append(Call(unit, item, next(numbers), names, given[-1] or loop, 1))
    return found


def texts(unit, instructions, declared, ways):
    """Returns the unit for exoc in parts, each with the instruction that it is of, if any; the calls by instruction; and the names of bodies."""
    reached = unit.called(instructions)
    bodies = {item.name: f"{unit.own}b{k}" for k, item in enumerate(reached)}
    most = max(len(seen(item)) for item in instructions)
    parts = [(None, item.text) for item in unit.items if item.head in ("memory", "config") or item in reached]
    if most:
        parts.append((None, f"@config\nclass {unit.own}seen:\n" + "".join(f"    n{k}: index\n    b{k}: bool\n" for k in range(most))))
    parts += [(None, text) for m in unit.memories if m.name in unit.lanes for text in movers(unit, m)]
    parts += [(item.name, body_of(unit, item, bodies)) for item in reached]
    calls, count = {}, 0
    for item in instructions:
        calls[item.name] = calls_of(unit, item, count, declared, ways)
        count += len(calls[item.name])
        parts += [(item.name, call.text()) for call in calls[item.name]]
    return parts, calls, {item.name: bodies[item.name] for item in instructions}
