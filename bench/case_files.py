"""Reads and writes the files of cases of crates/cases, and reads the tables of bench/inside; docs/TESTING.md says their form."""

import re


def lines_of(text):
    """A text as the lines that stand for it."""
    *lines, last = text.split("\n")
    lines = [escaped(line) for line in lines]
    return lines + [escaped(last) + "\\"] if last else lines


def escaped(line):
    for char, escape in (("\\", "\\\\"), ("\r", "\\r"), ("\t", "\\t")):
        line = line.replace(char, escape)
    line = re.sub(r"[^ -~]", lambda found: f"\\x{ord(found[0]):02x}", line)
    return re.sub(r"^(-(?=-- )|=(?== ))", lambda found: f"\\x{ord(found[0]):02x}", line)


def text_of(lines):
    """The text that lines stand for."""
    out = []
    for line in lines:
        at, start, count = 0, 0, 0
        while at < len(line):
            here, at = line[at], at + 1
            if here != "\\":
                out.append(here)
                continue
            if at == len(line):
                break
            kind, at = line[at], at + 1
            if kind == "x":
                out.append(chr(int(line[at : at + 2], 16)))
                at += 2
            elif kind == "<":
                begin = line.index(" ", at)
                start, count, at = len(out), int(line[at:begin]), begin + 1
            elif kind == ">":
                out[start:] = out[start:] * count
            else:
                out.append({"n": "\n", "r": "\r", "t": "\t"}.get(kind, kind))
        else:
            out.append("\n")
    return "".join(out)


def cases(path):
    """The cases of a file: the name, the lines of settings, and the parts: their headings with their lines."""
    case = None
    for line in path.read_text().splitlines():
        if line.startswith("== "):
            if case:
                yield case
            case = line[3:], [], []
        elif case and line.startswith("--- "):
            case[2].append((line[4:], []))
        elif case and case[2]:
            case[2][-1][1].append(line)
        elif case:
            case[1].append(line)
    if case:
        yield case


def sections(path):
    """The sections of a table: the heading, and its lines with their numbers."""
    section = None
    for number, line in enumerate(path.read_text().splitlines(), 1):
        if line.startswith("== "):
            if section:
                yield section
            section = line[3:], []
        elif section:
            section[1].append((number, line))
    if section:
        yield section


def table_rows(lines):
    """The cases of a section: the number of the line, what is wanted, and what is asked."""
    for number, line in lines:
        if not line.startswith("#"):
            wanted, _, asked = line.partition(" |")
            yield number, text_of([wanted + "\\"]), text_of([asked.removeprefix(" ") + "\\"])
