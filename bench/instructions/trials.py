"""The C of trials: tables of inputs, and functions that hand them to the calls and the body of an instruction."""
from calls import seen

CELLS = {"i8": ("int8_t", 1, 1), "i16": ("int16_t", 2, 1), "i32": ("int32_t", 4, 1), "ui8": ("uint8_t", 1, 0)}
INPUTS = 2048


def quoted(text):
    return '"' + text.replace("\\", "\\\\").replace('"', '\\"') + '"'


def handed(unit, params, of_call, first):
    """Returns the C of the arguments for the function of a call or of the body; `first`: where the numbers of buffers begin."""
    out, control = [], 0
    buffers = {p.name: k for k, p in enumerate(q for q in params if not q.control)}
    for p in params:
        if p.control:
            out.append(f"v[{control}]")
            control += 1
            continue
        at = f"({CELLS[p.kind][0]} *)at[{buffers[p.name]}]" + ("" if of_call else f" + v[{first + 1}]")
        if p.window and not (of_call and p.memory in unit.lanes):
            strides = ", ".join(f"v[{first + 2 + len(p.dims) + k}]" for k in range(len(p.dims)))
            at = f"(struct exo_win_{len(p.dims)}{p.kind}){{ {at}, {{ {strides} }} }}"
        out.append(at)
        first += 2 + 2 * len(p.dims)
    return ", ".join(out)


def table(kind, name, values):
    return f"static {kind} {name}[] = {{ {', '.join(values) or '0'} }};"


def trial(unit, item, calls, body, number, sampler, rows):
    """Returns the C of one instruction's trial, and its entry in the table of trials."""
    controls, fields = sampler.controls, sampler.fields
    first, shapes = len(controls) + len(fields), []
    for p in sampler.buffers:
        _, size, sign = CELLS[p.kind]
        shapes.append(f"{{ {quoted(p.name)}, {size}, {sign}, {len(p.dims)} }}")
    head = "(const int64_t *v, char *const *at) { (void)v; (void)at; "
    lines = [f"static void body_{number}{head}{body}({handed(unit, item.params, False, first)}); }}"]
    ways = []
    for k, call in enumerate(calls):
        lines.append(f"static void call_{number}_{k}{head}{call.name}({handed(unit, item.params, True, first)}); }}")
        twice = ", twice" if call.times == 2 else ""
        loop = "" if call.whole else f" in a loop over {call.loop}"
        ways.append(f"{{ {quoted(call.call_text() + loop + twice)}, {call.times}, call_{number}_{k} }}")
    names = [p.name for p in controls] + fields
    lines.append(table("const int64_t", f"rows_{number}", [str(n) for row in rows for n in row]))
    lines.append(table("const char *const", f"numbers_{number}", map(quoted, names)))
    lines.append(table("int64_t *const", f"fields_{number}", [f"&{field.replace('.', '_')}" for field in fields]))
    lines.append(table("int64_t *const", f"seen_{number}", [f"&{unit.own}seen_{field}" for _, field in seen(item)]))
    lines.append(table("const struct shape", f"shapes_{number}", shapes or ["{ 0 }"]))
    lines.append(table("const struct way", f"ways_{number}", ways))
    runs = max(len(ways), -(-INPUTS // len(rows)))
    entry = (f"{{ {quoted(item.name)}, {len(controls)}, {len(fields)}, numbers_{number}, fields_{number}, seen_{number}, {len(shapes)}, "
             f"shapes_{number}, {len(rows[0])}, {len(rows)}, {runs}, rows_{number}, body_{number}, {len(ways)}, ways_{number} }}")
    return "\n".join(lines), entry
