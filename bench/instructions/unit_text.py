"""Reads the items of a unit that `exoc check` accepts: memories, configurations, procedures and instructions, with the parameters,
assertions and calls of these. It does not judge a text, and reads no more of a body than the names that it calls."""
import re

TOKEN = re.compile(
    r"""#[^\n]*|(?P<string>"(?:\\.|[^"\\\n])*"|'(?:\\.|[^'\\\n])*')|(?P<head>@(?:proc|instr|config|memory)\b)"""
    r"""|(?P<name>[A-Za-z_]\w*)|(?P<number>\d+)|(?P<sign><=|>=|==|\+=|[^\s\w"'#])|(?P<line>\n)""")
CONTROL = ("size", "index", "bool", "stride")
WORDS = set("and or assert class def else for from if import in pass seq stride relu select True False".split())
ESCAPES = {r"\n": "\n", r"\\": "\\", r"\"": '"', r"\'": "'"}


class Token:
    def __init__(self, kind, text, start):
        self.kind, self.text, self.start, self.end = kind, text, start, start + len(text)


def tokens(text):
    """Returns the tokens of a text, without comments and blanks; a line's end outside brackets is one."""
    found, depth = [], 0
    for match in TOKEN.finditer(text):
        if match.lastgroup is None or match.lastgroup == "line" and depth:
            continue
        token = Token(match.lastgroup, match.group(), match.start())
        depth += (token.text in ("(", "[") and token.kind == "sign") - (token.text in (")", "]") and token.kind == "sign")
        found.append(token)
    return found


def string_of(token):
    return re.sub(r"\\.", lambda escape: ESCAPES.get(escape.group(), escape.group()), token.text[1:-1])


def parts(words, comma=","):
    """Splits tokens at the commas that stand in no bracket."""
    found, depth = [[]], 0
    for token in words:
        depth += (token.text in ("(", "[")) - (token.text in (")", "]"))
        if token.text == comma and not depth:
            found.append([])
        else:
            found[-1].append(token)
    return [part for part in found if part]


def inner(words, at):
    """Returns the tokens in the brackets that open at a place, and the place behind them."""
    depth, end = 1, at + 1
    while depth:
        depth += (words[end].text in ("(", "[")) - (words[end].text in (")", "]"))
        end += 1
    return words[at + 1:end - 1], end


class Param:
    """A parameter: `kind` is a control type or a type of cells, `dims` its dimensions, `window` whether it is one."""

    def __init__(self, words):
        self.name, rest = words[0].text, words[2:]
        self.window = rest[0].text == "["
        self.kind = rest[1].text if self.window else rest[0].text
        rest = rest[3:] if self.window else rest[1:]
        self.dims = []
        if rest and rest[0].text == "[":
            dims, end = inner(rest, 0)
            self.dims, rest = parts(dims), rest[end:]
        self.memory = rest[1].text if rest else "DRAM"
        self.control = self.kind in CONTROL


class Item:
    """An item: `head` is the word behind `@`, `text` its text, `start` where that begins in the unit."""

    def __init__(self, unit, words):
        self.start = words[0].start
        self.head, self.words, self.text = words[0].text[1:], words, unit[self.start:words[-1].end] + "\n"
        plain = [token for token in words if token.kind != "line"]
        at = next(k for k, token in enumerate(plain) if token.text in ("def", "class") and token.kind == "name")
        self.name = plain[at + 1].text
        self.template = "".join(string_of(token) for token in plain[1:at] if token.kind == "string")
        self.params, self.asserts, self.calls = [], [], []
        if self.head in ("proc", "instr"):
            listed, behind = inner(plain, at + 2)
            self.params = [Param(part) for part in parts(listed)]
            self.read_body(words)
        else:
            self.entries = self.read_entries(words)

    def read_body(self, words):
        for k, token in enumerate(words):
            if token.text == "assert" and token.kind == "name":
                end = next((j for j in range(k, len(words)) if words[j].kind == "line"), len(words))
                self.asserts.append(words[k + 1:end])
            if k and token.kind == "name" and token.text not in WORDS and words[k - 1].kind == "line" and words[k + 1].text == "(":
                self.calls.append(token.text)

    def read_entries(self, words):
        """Returns the attributes of a memory or the fields of a configuration, by name."""
        found = {}
        for k, token in enumerate(words):
            if token.text in ("=", ":") and words[k + 1].kind != "line":
                value = words[k + 1]
                found[words[k - 1].text] = string_of(value) if value.kind == "string" else value.text
        return found


def items(text):
    """Returns the items of a unit, in order."""
    text = re.sub(r"(?m)^(?:from|import) .*$", "", text.replace("\r\n", "\n"))
    words = tokens(text)
    heads = [k for k, token in enumerate(words) if token.kind == "head"] + [len(words)]
    found = []
    for start, end in zip(heads, heads[1:]):
        while end > start and words[end - 1].kind == "line":
            end -= 1
        found.append(Item(text, words[start:end]))
    return found


def python(words):
    """Returns a control expression as one of Python, over a table `v` of the values of names, `C.f` and `stride x k`."""
    out, k = [], 0
    while k < len(words):
        token = words[k]
        if token.text == "stride" and token.kind == "name":
            out.append(f"v['stride {words[k + 2].text} {words[k + 4].text}']")
            k += 6
        elif token.kind == "name" and k + 1 < len(words) and words[k + 1].text == ".":
            out.append(f"v['{token.text}.{words[k + 2].text}']")
            k += 3
        else:
            name = token.kind == "name" and token.text not in WORDS
            out.append(f"v['{token.text}']" if name else "//" if token.text == "/" else token.text)
            k += 1
    return " ".join(out)
