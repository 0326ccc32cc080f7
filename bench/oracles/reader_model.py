"""A model of the reader of units, written apart from its code: what a text is read as, or where and why it is refused.

`bench/reader_tables` checks tables of the reader and makes cases with it.

The model goes all ways at once that the grammar leaves open. A thread is such a way: the limits that it has passed so far, the kind
of token that it waits for, and what stands behind that token. A token is refused where no thread goes on with it within all limits.
Where one goes on past a limit, the refusal is the limit's. A production takes `then`, which gives the threads of what follows it.
"""

import re

# The lexis. A token is its kind, a value (a name, a number, the length of a string) and an offset.

WORDS = set("and or assert class def else for from if import in pass seq stride relu select True False _".split())
TOKEN = re.compile(
    r"(?P<name>[A-Za-z_][A-Za-z0-9_]*)|(?P<number>0|[1-9][0-9]*)"
    r"|(?P<sign>@(?:proc|instr|config|memory)(?![A-Za-z0-9_])|==|<=|>=|\+=|[()\[\],:.=+\-*/%<>@])"
)
ESCAPES = "n\\\"'"


def line_ends(text, at):
    return at == len(text) or text[at] == "\n" or text.startswith("\r\n", at)


def foreign(text, at):
    """Whether a byte that is no line end is none that a text has outside comments."""
    return not line_ends(text, at) and not " " <= text[at] <= "~"


def string(text, at):
    """The tokens of the string at a quote, and the place behind it."""
    k, size = at + 1, 0
    while not line_ends(text, k) and text[k] != text[at]:
        if text[k] == "\\":
            k += 1
            if line_ends(text, k) or not foreign(text, k) and text[k] not in ESCAPES:
                return [("Syntax", None, at)], k
        if foreign(text, k):
            return [("STR", size, at), ("BadByte", None, k)], k
        k, size = k + 1, size + 1
    if line_ends(text, k):
        return [("Syntax", None, at)], k
    return [("STR", size, at)], k + 1


def piece(text, at):
    """The tokens of the piece of a line at a place, and the place behind it."""
    if foreign(text, at):
        return [("BadByte", None, at)], at
    if text[at] in "\"'":
        return string(text, at)
    found = TOKEN.match(text, at)
    if not found:
        return [("Syntax", None, at)], at
    spelled = found.group()
    if found.lastgroup == "number":
        return [("INT", int(spelled), at)], found.end()
    if found.lastgroup == "name" and spelled not in WORDS:
        return [("NAME", spelled, at)], found.end()
    return [(spelled, None, at)], found.end()


def indentation(columns, column):
    """The tokens of no width before a line at a column, and the columns of the blocks that are open in it."""
    if column > columns[-1]:
        return ["INDENT"], columns + (column,)
    if column not in columns:
        return ["BadIndent"], columns
    open_blocks = columns.index(column) + 1
    return ["DEDENT"] * (len(columns) - open_blocks), columns[:open_blocks]


def line_tokens(text, begin, columns, depth):
    """The tokens of the line at a place up to the first fault, where they end, and the open blocks and brackets there."""
    at, tokens = begin, []
    skipped = depth == 0 and text.startswith(("from ", "import "), at)
    while True:
        while at < len(text) and text[at] == " ":
            at += 1
        if skipped or text.startswith("#", at):
            at = min(end for end in (text.find("\n", at), len(text)) if end >= 0)
            at -= text.startswith("\r\n", at - 1)
        if line_ends(text, at):
            break
        if depth == 0 and not tokens and not foreign(text, at):
            kinds, columns = indentation(columns, at - begin)
            tokens = [(kind, None, begin) for kind in kinds]
        found, at = piece(text, at)
        tokens = tokens + found
        kind = found[-1][0]
        if kind in ("BadByte", "Syntax"):
            return tokens, at, columns, depth
        depth = max(0, depth + (kind in "([") - (kind in ")]"))
    if depth == 0 and tokens:
        tokens.append(("NL", None, at))
    return tokens, at, columns, depth


# Threads. Limits that a thread has passed are a sum of marks; the mark of the limit that is named first is the greatest.

LARGE, LONG, DEEP = 1, 2, 4
ROOM, CONTROL, DATA, RANK, PARAMETERS, NAME, STRING, BLOCKS, LITERAL = 64, 256, 1024, 8, 32, 63, 1024, 24, 2**31 - 1


def past(limit, passed, threads):
    """Threads that have passed a limit, if so."""
    return [(marks | limit, kind, step) for marks, kind, step in threads] if passed else threads


def word(kinds, then):
    """Fixed tokens, one behind the other."""
    first, _, more = kinds.partition(" ")
    return [(0, first, lambda _: word(more, then) if more else then())]


def name(then):
    return [(0, "NAME", lambda text: past(LONG, len(text) > NAME, then()))]


def type_name(then):
    return name(then) + word("stride", then)


def number(then):
    return [(0, "INT", lambda value: past(LARGE, value > LITERAL, then()))]


def strings(then, size=0):
    """Neighbouring strings; the limit is on what they stand for together."""
    return [(0, "STR", lambda more: past(LONG, size + more > STRING, then() + strings(then, size + more)))]


# Expressions. `room` is how deep one may be, `nodes` how many nodes of it stand or must still come, `limit` how many it may have.
# Behind an expression, `then` takes its depth and its nodes.

LEVELS = ["or"], ["and"], ["<", "<=", ">", ">=", "=="], ["+", "-"], ["*", "/", "%"]
COMPARISONS = 2


def expression(then, room=ROOM, limit=CONTROL):
    return operand(0, room, 1, limit, lambda depth, _: then(depth))


def operand(level, room, nodes, limit, then):
    """An expression whose operators are of a level or bind tighter."""
    if level == len(LEVELS):
        return unary(room, nodes, limit, then)

    def behind(depth, nodes):
        signs = [(0, sign, lambda _: right_of(depth, nodes)) for sign in LEVELS[level]]
        return then(depth, nodes) + signs

    def right_of(left, nodes):
        go_on = then if level == COMPARISONS else behind
        threads = operand(level + 1, room - 1, nodes + 2, limit, lambda depth, n: go_on(max(left, depth) + 1, n))
        return past(DEEP, left + 1 > room, past(LONG, nodes + 2 > limit, threads))

    return operand(level + 1, room, nodes, limit, behind)


def unary(room, nodes, limit, then):
    def leaf():
        return then(1, nodes)

    def deeper(depth, n):
        return then(depth + 1, n)

    def inside(more, threads):
        """Threads of what is one deeper, with so many nodes more."""
        return past(DEEP, room < 2, past(LONG, nodes + more > limit, threads))

    def call(count, more):
        return inside(more, word("(", lambda: parts(count, room - 1, nodes + more, limit, deeper)))

    def named():
        access = [(0, "[", lambda _: inside(0, indices(lambda depth: then(depth + 1, nodes), room - 1)))]
        return leaf() + access + word(".", lambda: name(leaf))

    return (
        number(leaf)
        + word("True", leaf)
        + word("False", leaf)
        + name(named)
        + word("stride (", lambda: name(lambda: word(",", lambda: number(lambda: word(")", leaf)))))
        + [(0, "-", lambda _: inside(1, unary(room - 1, nodes + 1, limit, deeper)))]
        + [(0, "(", lambda _: inside(0, parts(1, room - 1, nodes, limit, deeper)))]
        + [(0, "relu", lambda _: call(1, 1)), (0, "select", lambda _: call(4, 4))]
    )


def parts(count, room, nodes, limit, then, deepest=0):
    """So many expressions, commas between them and the parenthesis behind; their nodes are counted together."""

    def behind(depth, nodes):
        now = max(deepest, depth)
        if count == 1:
            return word(")", lambda: then(now, nodes))
        return word(",", lambda: parts(count - 1, room, nodes, limit, then, now))

    return operand(0, room, nodes, limit, behind)


def comma(count, more):
    """The comma behind so many indices."""
    return [(0, ",", lambda _: past(LONG, count >= RANK, more()))]


def indices(then, room=ROOM, count=1, deepest=0):
    """Indices or dimensions behind the opening bracket, and the closing one."""

    def behind(depth):
        now = max(deepest, depth)
        return word("]", lambda: then(now)) + comma(count, lambda: indices(then, room, count + 1, now))

    return expression(behind, room)


def window(then):
    return name(lambda: word("[", lambda: coordinates(then, 1, False)))


def coordinates(then, count, spans):
    def behind(spans):
        return (word("]", then) if spans else []) + comma(count, lambda: coordinates(then, count + 1, spans))

    return expression(lambda _: behind(spans) + word(":", lambda: expression(lambda _: behind(True))))


# Statements and items.


def dimensions(then):
    return word("[", lambda: indices(lambda _: then()))


def in_memory(then):
    return then() + word("@", lambda: name(then))


def block(level, then):
    return word("NL INDENT", lambda: statements(level, then))


def statements(level, then):
    return statement(level, lambda: statements(level, then) + word("DEDENT", then))


def statement(level, then):
    def header(kind, threads):
        return [(0, kind, lambda _: past(DEEP, level == BLOCKS, threads()))]

    def body(then):
        return word(":", lambda: block(level + 1, then))

    def branch():
        return then() + word("else", lambda: body(then))

    def bounds():
        return expression(lambda _: word(",", lambda: expression(lambda _: word(")", lambda: body(then)))))

    return (
        word("pass NL", then)
        + header("if", lambda: expression(lambda _: body(branch)))
        + header("for", lambda: name(lambda: word("in seq (", bounds)))
        + name(lambda: named_statement(lambda: word("NL", then)))
    )


def named_statement(then):
    """What may stand behind a name that a statement begins with."""

    def store():
        datum = lambda: expression(lambda _: then(), limit=DATA)
        return word("=", datum) + word("+=", datum)

    return (
        word(":", lambda: type_name(lambda: in_memory(then) + dimensions(lambda: in_memory(then))))
        + word("(", lambda: arguments(then))
        + word(".", lambda: name(lambda: word("=", lambda: expression(lambda _: then()))))
        + store()
        + dimensions(store)
        + word("=", lambda: window(then))
    )


def arguments(then):
    behind = lambda: word(")", then) + word(",", lambda: arguments(then))
    return word(")", then) + expression(lambda _: behind()) + window(behind)


def parameters(then, count=0):
    behind = lambda: in_memory(lambda: word(")", then) + word(",", lambda: parameters(then, count + 1)))
    plain = type_name(lambda: behind() + dimensions(behind))
    view = word("[", lambda: type_name(lambda: word("]", lambda: dimensions(behind))))
    named = lambda text: past(LONG, count >= PARAMETERS or len(text) > NAME, word(":", lambda: plain + view))
    return word(")", then) + [(0, "NAME", named)]


def definition(then):
    def body():
        return statements(1, then) + word("assert", lambda: expression(lambda _: word("NL", body)))

    return word("def", lambda: name(lambda: word("(", lambda: parameters(lambda: word(": NL INDENT", body)))))


def class_of(entry, then):
    def entries():
        return entry(lambda: word("NL", lambda: entries() + word("DEDENT", then)))

    return word("NL class", lambda: name(lambda: word(": NL INDENT", entries)))


def field(then):
    return name(lambda: word(":", lambda: type_name(then)))


def attribute(then):
    return name(lambda: word("=", lambda: strings(then) + number(then) + word("True", then) + word("False", then)))


def unit(count=0):
    """What may stand behind so many items; their number stands behind the end."""
    then = lambda: unit(count + 1)
    return (
        word("@proc NL", lambda: definition(then))
        + word("@instr (", lambda: strings(lambda: word(") NL", lambda: definition(then))))
        + word("@config", lambda: class_of(field, then))
        + word("@memory", lambda: class_of(attribute, then))
        + word("END", lambda: [(0, count, None)])
    )


# Reading.


class Refused(Exception):
    """Why, and at which offset."""


def advance(threads, kind, value, place, line=None):
    """The threads behind a token; `line` is where its line begins, if it is the first of one."""
    found = [(before | marks, k, step) for before, wanted, go in threads if wanted == kind for marks, k, step in go(value)]
    least = min((marks for marks, _, _ in found), default=None)
    if least == 0:
        return found
    if found:
        raise Refused("TooDeep" if least >= DEEP else "TooLong" if least >= LONG else "LiteralTooLarge", place)
    if kind == "BadByte":
        raise Refused(kind, place)
    if kind in ("INDENT", "BadIndent") or line is not None and threads[0][1] == "INDENT":
        raise Refused("BadIndent", line)
    raise Refused("Syntax", place)


def read_lines(text, start):
    """From the begin of a line (its place, the open blocks and brackets, the threads): those of each line behind it, then the items."""
    at, columns, depth, threads = start
    while at < len(text):
        line = at if depth == 0 else None
        tokens, end, columns, depth = line_tokens(text, at, columns, depth)
        for kind, value, place in tokens:
            threads = advance(threads, kind, value, place, line)
            line = None
        at = text.find("\n", end) + 1
        if at == 0:
            break
        yield at, columns, depth, threads
    for kind in ["NL"] * (depth > 0) + ["DEDENT"] * (len(columns) - 1) + ["END"]:
        threads = advance(threads, kind, None, len(text))
    yield threads[0][1]


START = 0, (0,), 0, unit()


def read(text, start=START):
    """The number of items of a text, or why it is refused, in which line and at which column."""
    try:
        *_, items = read_lines(text, start)
        return items
    except Refused as refused:
        kind, at = refused.args
        return kind, text.count("\n", 0, at) + 1, at - text.rfind("\n", 0, at)


def read_line(text, phrase):
    """The same for a text that is one line with one phrase; 0 where it is."""
    line = re.split("\r?\n", text)[0]
    tokens, end, _, _ = line_tokens("(" + line, 0, (0,), 0)
    threads = phrase(lambda *_: word("END", lambda: [(0, 0, None)]))
    try:
        for kind, value, at in tokens[1:] + [("END" if line == text else "NL", None, end)]:
            threads = advance(threads, kind, value, at)
        return threads[0][1]
    except Refused as refused:
        kind, at = refused.args
        return kind, 1, at
