"""The places in C, Rust and Python that have the parameters, the statistics, the causes and the marks."""
import re

from described.comparing import CODES, COUNTS, PARAMETERS, plain
from described.counts import RECORDS, RECORDS_SPEC, of_kind
from described.parameters import CHOSEN
from described.reading import Entry, as_number, fields, file, only_types
from described.tables import Unclear, number

HEADER, LAYOUT, SYS, VIEWS = "c/maltcove.h", "c/tests/layout.h", "rust/src/sys.rs", "rust/src/views.rs"
PACKET, PYTHON = "rust/src/packet.rs", "python/maltcove.py"
C_TYPES = {"u64": "uint64_t", "u32": "uint32_t", "bool": "bool"}
BYTES = {"u64": 8, "u32": 4, "bool": 1}


def record_of_params(tables):
    """The fields of the record of the parameters, with their types: the widest first, then whether each one that may be
    off is on, and then those that are no numbers."""
    scheduler = tables.scheduler()
    numbers = sorted((one for one in scheduler if one.is_ranged), key=lambda one: -BYTES[one.type])
    return ([(one.c, one.type) for one in numbers] + [(f"has_{one.c}", "bool") for one in scheduler if one.is_optional]
            + [(one.c, "bool") for one in scheduler if not one.is_ranged])


def record_of_totals(tables):
    return [(one.name, one.type) for one in tables.counts]


def check_records(checks, tables):
    """The parameters as crates/maltcove_c has them, and how they get there."""
    wanted, part = record_of_params(tables), file(RECORDS)
    checks.same(part, "MaltcoveParams", only_types(fields(part, "MaltcoveParams")), wanted, PARAMETERS)
    of_c = {one.c: one for one in tables.scheduler()}
    inside = part.body("params_of").inside(r"MaltcoveParams(?= \{)")
    found = inside.entries(r"(?P<name>\w+): params\.(?P<of>.+)", "of")
    checks.same(inside, "params_of", found, [(name, rattle_value(name, of_c)) for name, _ in wanted], PARAMETERS)
    inside = file(RECORDS_SPEC).inside(r"^params_told p = record")
    found = inside.entries(r"(?P<name>\w+) = .*p\.(?P<of>\w+)(?: 0)?", "of", ";")
    names = [(name, of_c[name.removeprefix("has_")].name) for name, _ in wanted]
    checks.same(inside, "params_told", found, names, PARAMETERS)


def rattle_value(name, of_c):
    """What a field of the record of C is, of the parameters in Rattle."""
    one = of_c[name.removeprefix("has_")]
    if name.startswith("has_"):
        return f"{one.name}().is_some()"
    if one.is_optional:
        return f"{one.name}().unwrap_or(0)"
    return f"{one.name}()" if one.is_ranged else f"{one.name}() == {one.type}::{CHOSEN[one.name][one.choices[0]]}"


def struct_of_c(part, name):
    """The fields of a struct of C, each with its type and the comment behind it."""
    inside = part.inside(rf"^typedef struct {name} ")
    found = []
    for item in inside.items(";"):
        kind, _, listed = item.bare().partition(" ")
        front = len(item.text) - len(item.text.lstrip())
        behind = re.match(r"; */\* (.*?) \*/", inside.text[item.start - inside.start + len(item.text):], re.S)
        names = listed.split(", ")
        found += [Entry(field, (kind, behind[1] if behind and len(names) == 1 else None), item.line(front))
                  for field in names]
    return found


def fragment(text):
    """A text as a comment behind a field has it."""
    return text.removeprefix("Packets ").rstrip(".")


def check_header(checks, tables):
    """The structs of the header. A comment behind a count is its text."""
    part = file(HEADER)
    optional = [one.c for one in tables.scheduler() if one.is_optional]
    found = [one if one.name in optional else Entry(one.name, (one.fact[0], None), one.line)
             for one in struct_of_c(part, "maltcove_params_t")]
    wanted = [(name, (C_TYPES[kind], f"0 where has_{name} is false" if name in optional else None))
              for name, kind in record_of_params(tables)]
    checks.same(part, "maltcove_params_t", found, wanted, PARAMETERS)
    texts = {one.name: fragment(one.text) for one in tables.counts}
    found = [Entry(name, (kind, text or texts.get(name)), line)
             for name, (kind, text), line in struct_of_c(part, "maltcove_totals_t")]
    wanted = [(name, (C_TYPES[kind], texts[name])) for name, kind in record_of_totals(tables)]
    checks.same(part, "maltcove_totals_t", found, wanted, COUNTS)
    for kind, enum in (("cause", "BY"), ("mark", "NO")):
        codes = of_kind(tables, kind)
        inside = part.inside(rf"^enum(?= \{{\s+MALTCOVE_{enum}_)")
        found = inside.entries(r"MALTCOVE_(?P<name>\w+) = (?P<is>\d+)", as_number)
        checks.same(inside, f"the numbers of a {kind}", found, [(one.c, one.number) for one in codes], CODES)


def check_words(checks, tables):
    """The words of maltcove_open, with their ranges and defaults."""
    part = file(HEADER).after(r"^ \* words are those of tc-fq_codel").until(r"^ \* A time is")
    units = {one.name: one.unit for one in tables.scheduler()}
    found = part.matches(r"(?P<name>\w+) (?P<value>[A-Z]+) +(?P<least>\S+) to (?P<greatest>\S+) \((?P<default>\S+)\)",
                         lambda m: (f"{m['name']} {m['value']}", *(number(m[end], units.get(m["name"], ""))
                                                                  for end in ("least", "greatest")),
                                    "off" if m["default"] == "off" else number(m["default"], units.get(m["name"], ""))),
                         r"\w+ [A-Z]{4,} ")
    wanted = [(one.name, (one.form, *one.range, one.default)) for one in tables.ranged()]
    checks.same(part, "the words of maltcove_open", found, wanted, PARAMETERS, False)
    found = part.matches(r"(?P<name>ecn, noecn|classify \w+) +(?P<text>[^\n(]*)\((?P<is>\w+)\)$", "is")
    found += part.matches(r"(?P<name>classify \w+) +(?P<text>[^\n(]*)$", lambda match: "")
    wanted = []
    for one in tables.scheduler():
        if len(one.words) > 1:
            wanted.append((", ".join(one.words), one.default))
        elif not one.is_ranged:
            wanted += [(f"{one.name} {word}", "this" if word == one.default else "") for word in one.choices]
    checks.same(part, "the choices of maltcove_open", found, wanted, PARAMETERS, False)


def rust_type(one):
    if one.is_optional:
        return f"Option<{one.type}>"
    return "bool" if one.name == "ecn" else one.type


def check_rust(checks, tables):
    """The structs of Rust, and what the parameters are of C's. That of the statistics is C's own."""
    views = file(VIEWS)
    wanted = [(one.name, (rust_type(one), one.text)) for one in tables.scheduler()]
    checks.same(views, "Params", fields(views, "Params"), wanted, PARAMETERS)
    inside = views.inside(r"^impl Params ").body("of").inside(r"Params(?= \{)")
    found = inside.entries(r"(?P<name>\w+): (?P<is>.+)", "is")
    checks.same(inside, "Params::of", found, [(one.name, rust_value(one)) for one in tables.scheduler()], PARAMETERS)
    wanted = [(one.name, (one.type, one.text)) for one in tables.counts]
    checks.same(views, "Totals", fields(views, "Totals"), wanted, COUNTS)
    views.after(r"^#\[repr\(C\)\]\n#\[derive\([^)]*\)\]\n(?=pub struct Totals \{)")


def rust_value(one):
    """What a parameter is in Rust, of C's record."""
    if one.is_optional:
        return f"p.has_{one.c}.then_some(p.{one.c})"
    if one.name == "classify":
        return "if p.hash { Classify::Hash } else { Classify::Dport }"
    return f"p.{one.c}"


def check_rust_codes(checks, tables):
    """The causes and marks of Rust."""
    part = file(PACKET)
    for kind, enum in (("cause", "Cause"), ("mark", "Mark")):
        codes = [one for one in of_kind(tables, kind) if one.rust]
        found = part.inside(rf"^pub enum {enum}\b").names()
        checks.same(part, enum, found, plain(one.rust for one in codes), CODES)
    inside = part.inside(r"mark: match record\.mark")
    found = inside.entries(r"(?P<name>\d+|_) => (?:None|Some\(Mark::(?P<is>\w+)\))",
                           lambda match, item: match["is"] or "")
    marks = of_kind(tables, "mark")
    wanted = [(str(one.number) if one != marks[-1] else "_", one.rust) for one in marks]
    checks.same(inside, "the numbers of a mark", found, wanted, CODES)
    inside = part.inside(r"^impl Dropped ").after(r"cause: ")
    pattern = r"if record\.cause == (?P<name>\d+) \{\s+Cause::(?P<a>\w+)\s+\} else \{\s+Cause::(?P<b>\w+)\s+\}"
    found = inside.matches(pattern, lambda match: (match["a"], match["b"]))
    causes = of_kind(tables, "cause")
    wanted = [(str(causes[0].number), tuple(one.rust for one in causes))]
    checks.same(inside, "the numbers of a cause", found, wanted, CODES)


def python_fields(part, name):
    """The fields of a NamedTuple, with their types."""
    body = part.after(rf"^class {name}\(NamedTuple\):\n").until(r"\n\n\n")
    return body, body.matches(r"^    (?P<name>\w+): (?P<type>[^\n]+)$", "type")


def check_python(checks, tables):
    """The parameters of Python."""
    part = file(PYTHON)
    inside, found = python_fields(part, "Params")
    wanted = [(one.c, "Optional[int]" if one.is_optional else "int" if one.is_ranged else "bool")
              for one in tables.scheduler()]
    checks.same(inside, "Params", found, wanted, PARAMETERS)
    inside = part.inside(r"^        return Params(?=\(\n)", "(")
    found = [Entry(item.bare(), None, item.line(1)) for item in inside.items()]
    wanted = plain(f"p.{one.c}" + (f" if p.has_{one.c} else None" if one.is_optional else "")
                   for one in tables.scheduler())
    checks.same(inside, "Scheduler.params", found, wanted, PARAMETERS)


def check_python_totals(checks, tables):
    """The statistics of C in Python, what callers are shown, and the causes and marks."""
    part = file(PYTHON)
    made = part.after(r"^class _Totals\(ctypes\.Structure\):\n").until(r"\n\n\n")
    last = "(name, ctypes.c_uint64) for name in Totals._fields[:-1]] + [(Totals._fields[-1], ctypes.c_bool)]"
    if [one.type != "u64" for one in tables.counts].index(True) != len(tables.counts) - 1 or last not in made.text:
        raise Unclear(f"{made.where()}: all numbers but the last are read as 64 bits, which isn't so in {COUNTS}")
    inside, found = python_fields(part, "Totals")
    wanted = [(one.name, "bool" if one.type == "bool" else "int") for one in tables.counts]
    checks.same(inside, "Totals", found, wanted, COUNTS)
    for kind, enum in (("cause", "Cause"), ("mark", "Mark")):
        inside = part.after(rf"^class {enum}\(enum\.IntEnum\):\n").until(r"\n\n\n")
        found = inside.matches(r"^    (?P<name>\w+) = (?P<is>-?\d+)$", as_number, " = ")
        checks.same(inside, enum, found, [(one.python, one.number) for one in of_kind(tables, kind)], CODES)


CHECKS = [check_records, check_header, check_words, check_rust, check_rust_codes, check_python,
          check_python_totals]
