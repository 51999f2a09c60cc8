"""The records of C wherever they are declared again: in crates/maltcove_c, in Rust, in Python and in the tests of their
layout. `bindings` compares those of the parameters and the statistics with the tables."""
import re

from described.bindings import (C_TYPES, HEADER, LAYOUT, PYTHON, SYS, VIEWS, record_of_params, record_of_totals,
                                struct_of_c)
from described.comparing import plain
from described.counts import RECORDS
from described.reading import Entry, as_number, fields, file, only_types

OF_RUST = {**C_TYPES, "u16": "uint16_t", "u8": "uint8_t", "i32": "int32_t", "i64": "int64_t", "*mut c_void": "void"}
WIDTHS = {"uint64_t": 8, "int64_t": 8, "void": 8, "uint32_t": 4, "int32_t": 4, "uint16_t": 2, "uint8_t": 1, "bool": 1}


def structs(tables):
    """The structs of the header: of each its fields, with their types and how many there are in each. Those of the
    parameters and the statistics are as the tables have them."""
    header, found = file(HEADER), {}
    for name in re.findall(r"^typedef struct (\w+) \{", header.text, re.M):
        listed = []
        for field, (kind, _), _ in struct_of_c(header, name):
            array = re.fullmatch(r"\*?(\w+)(?:\[(\d+)\])?", field)
            listed.append((array[1], (kind, int(array[2] or 1))))
        found[name] = listed
    described = {"maltcove_params_t": record_of_params(tables), "maltcove_totals_t": record_of_totals(tables)}
    for name, record in described.items():
        found[name] = [(field, (C_TYPES[kind], 1)) for field, kind in record]
    return found


def short(name):
    """The name of a struct in Rust, and with `_` before it in Python."""
    plain_name = re.sub(r"^maltcove_|_t$", "", name)
    return plain_name[0].upper() + plain_name[1:]


def rust_type(text):
    array = re.fullmatch(r"\[(\w+); (\d+)\]", text)
    return (OF_RUST.get(array[1], array[1]), int(array[2])) if array else (OF_RUST.get(text, text), 1)


def check_rattle(checks, tables):
    """The records of crates/maltcove_c, each with its struct in the header. The handle isn't one of them."""
    part = file(RECORDS)
    records = {f"Maltcove{short(name)}": fields_of for name, fields_of in structs(tables).items() if name != "maltcove"}
    found = part.matches(r"^#\[repr\(C\)\]\n(?:#\[[^\n]*\n)*pub struct (?P<name>\w+)", each=r"^#\[repr\(C\)\]$")
    checks.same(part, "the records", found, plain(records), HEADER, False)
    for name, wanted in records.items():
        found = [Entry(field, rust_type(kind), line) for field, kind, line in only_types(fields(part, name))]
        checks.same(part, name, found, wanted, HEADER)


def check_rust(checks, tables):
    """The records of C in Rust. That of the statistics is what callers are shown."""
    for name, wanted in structs(tables).items():
        part = file(VIEWS if name == "maltcove_totals_t" else SYS)
        found = [Entry(field, rust_type(kind), line) for field, kind, line in only_types(fields(part, short(name)))]
        checks.same(part, f"the record {short(name)}", found, wanted, HEADER)


def check_python(checks, tables):
    """The records of C in Python. That of the statistics is made of what callers are shown (`bindings`)."""
    part = file(PYTHON)
    for name, wanted in structs(tables).items():
        if name != "maltcove_totals_t":
            inside = part.after(rf"^class _{short(name)}\(ctypes\.Structure\):\n").until(r"\n\n\n")
            found = inside.matches(r'\("(?P<name>\w+)", ctypes\.c_(?P<type>\w+)(?: \* (?P<many>\d+))?\)', python_type)
            checks.same(inside, f"_{short(name)}", found, wanted, HEADER)


def python_type(match):
    kind = {"bool": "bool", "void_p": "void"}.get(match["type"], match["type"] + "_t")
    return (kind, int(match["many"] or 1))


def laid_out(listed):
    """The places of fields, and the size of all."""
    places, place = [], 0
    for field, (kind, many) in listed:
        place = -(-place // WIDTHS[kind]) * WIDTHS[kind]
        places.append((field, place))
        place += WIDTHS[kind] * many
    widest = max(WIDTHS[kind] for _, (kind, _) in listed)
    return places, -(-place // widest) * widest


def written_layout(tables):
    """What the tests of the layout have between two comments."""
    structs_of_c = []
    for name, listed in structs(tables).items():
        places, size = laid_out(listed)
        structs_of_c.append("\n".join([f"HOLDS(sizeof({name}) == {size});",
                                       *(f"STANDS({name}, {field}, {place});" for field, place in places)]))
    return "\n\n".join(structs_of_c) + "\n"


def write_layout(tables):
    """Puts it there."""
    part = file(LAYOUT)
    begin = part.after(r"^/\* written by tools/tables --write \*/\n")
    old = begin.until(r"^/\* end of what tools/tables wrote \*/\n")
    text = part.text[:old.start] + written_layout(tables) + part.text[old.start + len(old.text):]
    part.path.write_text(text, encoding="utf-8")


def check_layout(checks, tables):
    """The places of all fields in C, as its tests have them, and the sizes."""
    part = file(LAYOUT)
    for name, listed in structs(tables).items():
        places, size = laid_out(listed)
        found = part.matches(rf"^STANDS\({name}, (?P<name>\w+), (?P<is>\d+)\);$", as_number)
        checks.same(part, f"the places in {name}", found, places, HEADER)
        sizes = part.matches(rf"^HOLDS\(sizeof\((?P<name>{name})\) == (?P<is>\d+)\);$", as_number)
        checks.same(part, f"the size of {name}", sizes, [(name, size)], HEADER)


def check_sizes(checks, tables):
    """The sizes that Rust and Python test before they make a call."""
    wanted = {short(name): laid_out(listed)[1] for name, listed in structs(tables).items()}
    part = file(SYS)
    found = part.matches(r"size_of::<(?P<name>\w+)>\(\) == (?P<is>\d+)", as_number, "size_of")
    checks.same(part, "the sizes", found, list(wanted.items()), HEADER, False)
    part = file(PYTHON).inside(r"^_SIZES = ")
    found = part.entries(r"_(?P<name>\w+): (?P<is>\d+)", as_number)
    checks.same(part, "the sizes", found, list(wanted.items()), HEADER, False)


CHECKS = [check_rattle, check_rust, check_python, check_layout, check_sizes]
