"""A model of the readers of schedules, patterns and names, written apart from their code; reader_model.py says how it goes.

`bench/schedule_tables` checks the tables of bench/inside with it, and makes their rows of changes. What is read is written in
one line, as bench/inside/src/schedules.program says.
"""

import re

from reader_model import LARGE, LITERAL, LONG, NAME, Refused, advance, foreign, line_ends, line_tokens, name, number, past, read_lines, strings, word

# The grammar of schedules.

LINES = 4096
DIRECTIONS = "parent next prev body before after".split()


def exactly(spelled, then):
    """A name that is spelled so."""
    return [(0, "NAME", lambda found: then() if found == spelled else [])]


def move(then):
    go = lambda found: word("( )", then) if found in DIRECTIONS else []
    expand = exactly("expand", lambda: word("(", lambda: number(lambda: word(",", lambda: number(lambda: word(")", then))))))
    return word(".", lambda: [(0, "NAME", go)] + expand) + word("[", lambda: number(lambda: word("]", then)))


def moves(then):
    return then() + move(lambda: moves(then))


def found(then):
    """What stands behind `find`, and the moves."""
    return word("(", lambda: name(lambda: word(",", lambda: strings(lambda: word(")", lambda: moves(then))))))


def argument(then):
    value = lambda: strings(then) + word("True", then) + word("False", then)
    pair = lambda: strings(lambda: word(",", lambda: strings(lambda: word("]", then))))
    held = lambda: moves(then) + word("=", value)
    return strings(then) + number(then) + word("[", pair) + name(held) + exactly("find", lambda: found(then))


def arguments(then):
    more = lambda: word(")", then) + arguments(then)
    return argument(lambda: word(")", then) + word(",", more))


def bound(then):
    """What may stand behind `NAME =`."""
    operator = lambda spelled: past(LONG, len(spelled) > NAME, word("(", lambda: arguments(then))) if spelled != "find" else []
    return [(0, "NAME", operator)] + exactly("find", lambda: found(then)) + name(lambda: move(lambda: moves(then)))


def schedule(count=0):
    """What may stand behind so many lines."""
    behind = lambda: word("NL", lambda: schedule(count + 1))
    line = name(lambda: word("=", lambda: bound(behind))) + exactly("emit", lambda: word("(", lambda: name(lambda: word(")", behind))))
    limited = [(0, kind, lambda spelled, step=step: past(LONG, count >= LINES, step(spelled))) for _, kind, step in line]
    return limited + word("END", lambda: [(0, count, None)])


# The grammar of patterns. `end` is what may stand behind a form: its number, and the end of the text.


def end():
    closed = lambda: word("END", lambda: [(0, 0, None)])
    return closed() + [(0, "NTH", lambda value: past(LARGE, value > LITERAL, closed()))]


def name_or_any(then):
    return name(then) + word("_", then)


def statement_pattern():
    def behind():
        change = word("= _", end) + word("+= _", end)
        cell = word("[ _ ] = _", end) + word("[ _ ] += _", end)
        field = word(".", lambda: name_or_any(lambda: word("= _", end)))
        return end() + name_or_any(end) + word(": _", end) + word("( _ )", end) + change + cell + field

    loop = word("for", lambda: name_or_any(lambda: word("in _ : _", end)))
    return name_or_any(behind) + loop + word("if _ : _", end) + word("pass", end)


def expression_pattern():
    sums = word("_ + _", end) + word("_ - _", end) + word("_ * _", end)
    return name_or_any(lambda: end() + word("[ _ ]", end)) + sums


def one_line(text, at=0):
    """The tokens of a text that is a line without comments; a line end in it is one."""
    tokens, stop, _, _ = line_tokens("(" + text, 0, (0,), 0)
    tokens = [(kind, value, place - 1 + at) for kind, value, place in tokens[1:]]
    if tokens and tokens[-1][0] in ("BadByte", "Syntax"):
        return tokens
    return tokens + ([("NL", None, stop - 1 + at)] if stop <= len(text) else [])


def pattern_tokens(text):
    """The tokens of a text that may be a pattern, and its end."""
    form, sharp, behind = text.partition("#")
    tokens = one_line(form)
    if sharp:
        digits = re.match("0|[1-9][0-9]*", behind)
        if not digits or not form.endswith(" "):
            return tokens + [("Syntax", None, len(form))]
        rest, place = behind[digits.end() :], len(form) + 1 + digits.end()
        # A second `#` is no token either.
        before, other, _ = rest.partition("#")
        more = one_line(before, place) + ([("Syntax", None, place + len(before))] if other else [])
        tokens = tokens + [("NTH", int(digits.group()), len(form))] + more
    return tokens + [("END", None, len(text))]


# What is read, in one line.


def quoted(text):
    for char, escape in (("\\", "\\\\"), ("\n", "\\n"), ("'", "\\'")):
        text = text.replace(char, escape)
    return f"'{text}'"


def spelled(text, kind, at):
    """A token as it is written, and whether it is a string."""
    if kind != "STR":
        return re.match(r"\w+|.", text[at:]).group(), False
    inside = re.match(r"'((?:[^'\\]|\\.)*)'|\"((?:[^\"\\]|\\.)*)\"", text[at:])
    return re.sub(r"\\(.)", lambda found: "\n" if found[1] == "n" else found[1], inside[1] or inside[2] or ""), True


def schedule_written(text):
    """A schedule that is one, written in one line."""
    at, columns, depth, out, parts, first = 0, (0,), 0, "", [], 0
    while at < len(text):
        tokens, stop, columns, depth = line_tokens(text, at, columns, depth)
        for kind, _, place in tokens:
            if kind == "NL":
                out += f"{text.count(chr(10), 0, first) + 1} {bind_written(parts)};"
                parts = []
                continue
            first = first if parts else place
            parts.append(spelled(text, kind, place))
        at = text.find("\n", stop) + 1 or len(text)
    # Brackets are closed where a schedule ends, so each line has its end.
    return out


def joined(parts):
    """What parts spell, strings beside one another joined, and a comma before a closing parenthesis twice."""
    out = []
    for part, is_string in parts:
        if is_string and out and out[-1][1]:
            out[-1] = out[-1][0] + part, True
            continue
        if (part, is_string) == (")", False) and out[-1] == (",", False):
            out.append((",", False))
        out.append((part, is_string))
    return [quoted(part) if is_string else part for part, is_string in out]


def bind_written(parts):
    out = joined(parts)
    if out[1] == "(":
        return f"emit {out[2]}"
    if out[2:4] == ["find", "("]:
        return f"{out[0]}=find {out[4]} {out[6]}{''.join(out[8:])}"
    return "".join(out)


FORMS = [
    ("pass", "pass"),
    ("if _ : _", "if"),
    (r"for (\w+) in _ : _", "loop"),
    (r"(\w+)", "loop"),
    (r"(\w+) (\w+)", "nest"),
    (r"(\w+) : _", "alloc"),
    (r"(\w+) (?:\[ _ \] )?= _", "assign"),
    (r"(\w+) (?:\[ _ \] )?\+= _", "reduce"),
    (r"(\w+) \( _ \)", "call"),
    (r"(\w+) \. (\w+) = _", "config"),
]
EXPRESSION_FORMS = [
    (r"(\w+)(?: \[ _ \])?", "read"),
    (r"_ \+ _", "add"),
    ("_ - _", "sub"),
    (r"_ \* _", "mul"),
]


def pattern_written(text, forms):
    """A pattern that is one, written in one line."""
    form, _, nth = text.partition("#")
    tokens = " ".join(re.findall(r"\w+|\+=|\S", form))
    [(word_of, names)] = [(made, found.groups()) for shape, made in forms if (found := re.fullmatch(shape, tokens))][:1]
    return " ".join([word_of, *names, str(int(nth or "0"))])


# The answers of the readers.


def place(text, at):
    return text.count("\n", 0, at) + 1, at - text.rfind("\n", 0, at)


def refused(text, why):
    kind, at = why.args
    return "{}:{} {}".format(*place(text, at), kind)


def read_schedule(text, start=None):
    try:
        for _ in read_lines(text, start or SCHEDULE):
            pass
    except Refused as why:
        return refused(text, why)
    return schedule_written(text)


SCHEDULE = 0, (0,), 0, schedule()


def read_one(text, threads, forms):
    try:
        for kind, value, at in pattern_tokens(text):
            threads = advance(threads, kind, value, at)
    except Refused as why:
        return refused(text, why)
    return pattern_written(text, forms)


def read_name(text):
    """A name string is exactly the bytes of a name."""
    width = len(re.match(r"(?:[A-Za-z_][A-Za-z0-9_]*)?", text).group())
    tokens = one_line(text)
    if not width or tokens[0][0] != "NAME":
        return "1:1 " + ("BadByte" if foreign(text, 0) else "Syntax")
    if width > NAME:
        return "1:1 TooLong"
    if width < len(text):
        return f"1:{width + 1} " + ("BadByte" if foreign(text, width) else "Syntax")
    return text


READERS = {
    "schedule": read_schedule,
    "pattern": lambda text: read_one(text, statement_pattern(), FORMS),
    "expression-pattern": lambda text: read_one(text, expression_pattern(), EXPRESSION_FORMS),
    "name": read_name,
}
