"""Rows of changes, as tables of the readers have them: the same text with a change at each of its bytes in turn, and what comes of each."""

REPLACED = "dollar tab line-end return blank zero nine letter underscore open close colon equals less comment quote delete foreign"
CHANGES = [("cut", None), ("deleted", ""), ("doubled", None), *zip(REPLACED.split(), "$\t\n\r 09a_(]:=<#\"\x7f\x80")]
# These are made of schedules alone.
MORE_CHANGES = list(zip("comma dot parenthesis bracket minus at apostrophe backslash".split(), ",.)[-@'\\"))
LETTERS = {"BadByte": "B", "BadIndent": "I", "Syntax": "S", "TooDeep": "D", "TooLong": "L", "LiteralTooLarge": "N"}


def changed(text, at, change, byte):
    """The text after a change at a place."""
    if change == "cut":
        return text[:at]
    put = text[at] * 2 if change == "doubled" else byte
    return text[:at] + put + text[at + 1 :]


def row(text, change, first, after):
    """The name of a change, and what comes of it at each byte from a line on; `after` gives it for a place (`cell`)."""
    row, runs, line, column = change, [], 1, 1
    for at, here in enumerate(text + "\0" * (change == "cut")):
        if line >= first:
            if column == 1 and line > first:
                row, runs = row + shown(runs) + " /", []
            answer = cell(after(at), line, column)
            if not runs or runs[-1][1] != answer:
                runs.append([0, answer])
            runs[-1][0] += 1
        line, column = (line + 1, 1) if here == "\n" else (line, column + 1)
    return row + shown(runs)


def shown(runs):
    return "".join(f" {count}*{answer}" if count > 1 else f" {answer}" for count, answer in runs)


def cell(answer, line, column):
    """An answer as a row has it: a kind, a line and a column, or what else stands for a text that is read."""
    if not isinstance(answer, tuple):
        return "."
    kind, at_line, at = answer
    if at_line != line:
        return f"{LETTERS[kind]}{at_line}:{at}"
    return LETTERS[kind] + {column: "", column + 1: "+"}.get(at, str(at))


def answers(row):
    """The answers of a row, one for each byte."""
    name, *words = row.split(" ")
    runs = [word.rpartition("*") for word in words if word != "/"]
    return [name] + [answer for count, _, answer in runs for _ in range(int(count or 1))]


def report(place, found, wanted):
    if found != wanted:
        print(f"{place}:\n  model {found}\n  table {wanted}", flush=True)
    return found != wanted
