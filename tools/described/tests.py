"""The tests that have to try each parameter and each number of the statistics."""
import re

from described.bindings import record_of_params
from described.comparing import COUNTS, PARAMETERS, plain
from described.parameters import as_set, set_to
from described.reading import Entry, file
from described.tables import TOP, number

CALLS = "c/tests/calls.c"


def check_words(checks, tables):
    """The tests of words and ranges: each parameter, both ends of its range, and what is just beyond them."""
    part, ranged = file("crates/test_parts/src/parameters.rt"), tables.ranged()
    quoted = r'"(?P<name>\w+)"'
    lists = [("RANGED", [one.name for one in ranged]),
             ("WHOLE", [one.name for one in ranged if one.unit != "microseconds"])]
    for name, wanted in lists:
        inside = part.inside(rf"^const {name}: [^=]*= ", "[")
        checks.same(inside, name, inside.entries(quoted), plain(wanted), PARAMETERS)
    inside = part.inside(r"^pub\(crate\) const STANDARD: ParamFields = ParamFields")
    found = inside.entries(r"(?P<name>\w+): (?P<value>.+)", lambda match, item: as_set(match["value"]))
    checks.same(inside, "STANDARD", found, [(one.name, set_to(one)) for one in tables.scheduler()], PARAMETERS)
    inside = part.inside(r"^const NAMES: [^=]*= ", "[")
    found = inside.entries(r'\(ParamName::(?P<name>\w+), "(?P<word>\w+)"\)', "word")
    checks.same(inside, "NAMES", found, [(one.variant, one.name) for one in ranged], PARAMETERS)
    ends = [(f"{one.name} {value}", None) for one in ranged for value in one.range]
    beyond = [(f"{one.name} {value}", None) for one in ranged
              for value in (one.least - 1, one.greatest + 1) if value >= 0]
    for name, wanted in (("ENDS", ends), ("BEYOND", beyond)):
        inside = part.inside(rf"^const {name}: [^=]*= ", "[")
        found = inside.entries(r'\["(?P<name>\w+", "\w+)"\]')
        tried = [Entry(entry.name.replace('", "', " "), None, entry.line) for entry in found]
        listed = [entry for entry in tried if entry.name in dict(wanted)]
        checks.same(inside, name, listed, wanted, PARAMETERS)


def check_calls(checks, tables):
    """The tests of C: the defaults, each field where it is another, both ends of each range, and each number."""
    whole = file(CALLS)
    part = whole.after(r"^\topen_with\(\"limit 7 flows 9 ")
    before = whole.slice(0, part.start).after(r"open\(&m, NULL, 0, seed")
    for what, inside in (("the defaults", before), ("other values", part.until(r"maltcove_free"))):
        found = {name: Entry(name, None, inside.line()) for name in re.findall(r"\bp\.(\w+)", inside.text)}
        wanted = plain(name for name, _ in record_of_params(tables))
        checks.same(inside, what, list(found.values()), wanted, PARAMETERS, False)
    defaults = before.matches(r"\bp\.(?P<name>\w+) == (?P<is>\d+)", lambda match: int(match["is"]))
    wanted = [(one.c, 0 if one.is_optional else one.default) for one in tables.ranged()]
    checks.same(before, "the values of defaults", defaults, wanted, PARAMETERS, False)
    part = whole.body_of_c("each_total")
    found = {name: Entry(name, None, part.line()) for name in re.findall(r"\bt\.(\w+)", part.text)}
    checks.same(part, "each_total", list(found.values()), plain(one.name for one in tables.counts), COUNTS, False)


def check_ends(checks, tables):
    """Both ends of each range in C."""
    part = file(CALLS).body_of_c("all_are_opened").inside(r"texts\[\] = ")
    units = {one.name: one.unit for one in tables.ranged()}
    tried = {}
    for match in re.finditer(r"\b([a-z_]+) (\d\w*)", part.text):
        if match[1] in units:
            name = f"{match[1]} {number(match[2], units[match[1]])}"
            tried[name] = Entry(name, None, part.line(match.start()))
    ends = dict(plain(f"{one.name} {end}" for one in tables.ranged() for end in one.range))
    found = [entry for name, entry in tried.items() if name in ends]
    checks.same(part, "the ends of ranges", found, list(ends.items()), PARAMETERS, False)


def check_help(checks, tables):
    """The tests of what the helps say of parameters."""
    forms = [one.form if not one.is_ranged else one.name for one in tables.scheduler()]
    part = file("crates/test_link_report/src/texts.rt").body("help_lists_the_parameters").inside(r"in (?=\[\n)", "[")
    found = part.entries(r'\("(?P<name>[^"]*)", "(?P<is>[^"]*)"\)', lambda match, item: ends_of(match, tables))
    wanted = [(form, one.range if one.is_ranged else None) for form, one in zip(forms, tables.scheduler())]
    checks.same(part, "help_lists_the_parameters", found, wanted, PARAMETERS)
    part = file("crates/test_program/src/help.rt").inside(r"^static PARAMETERS: [^=]*= ", "[")
    found = part.matches(r'^    "  (?P<name>[a-z_]+)[^"]*\\n",$')
    checks.same(part, "PARAMETERS", found, plain(one.name for one in tables.scheduler()), PARAMETERS)


def ends_of(match, tables):
    """The ends of a range that a text says, if it says one."""
    unit = next((one.unit for one in tables.ranged() if one.name == match["name"]), "")
    return tuple(number(end, unit) for end in match["is"].split(" to ")) if match["is"] else None


# The literals of tests: where they are, how they begin, what follows a field's name, and whose fields they have.
LITERALS = [("crates/test_*/src/*.rt", r"\bTotals \{", ":", "journal"),
            ("crates/test_*/proofs/*.antt", r"≡ record \{(?= accepted)", " =", "journal"),
            ("rust/tests/*.rs", r"\bTotals \{", ":", "counts"), ("python/test_*.py", r"\bTotals\(", "=", "counts"),
            ("crates/test_*/src/*.rt", r"\bParamFields \{", ":", "parameters"),
            ("rust/tests/*.rs", r"\bParams \{", ":", "parameters"), ("python/test_*.py", r"\bParams\(", "=", "c")]


def check_literals(checks, tables):
    """The literals of parameters and statistics in tests: each has all fields, unless it takes the rest of another."""
    wanted = {"journal": [one.name for one in tables.counts if one.journal], "c": [one.c for one in tables.scheduler()],
              "counts": [one.name for one in tables.counts], "parameters": [one.name for one in tables.scheduler()]}
    for files, begin, behind, whose in LITERALS:
        literal = re.compile(rf"{begin}((?:[^(){{}}]|\([^()]*\))*)[}})]")
        for part in (file(str(path.relative_to(TOP))) for path in sorted(TOP.glob(files))):
            for match in literal.finditer(part.text):
                line = part.line(match.start())
                found = [Entry(name, None, line) for name in re.findall(rf"\b(\w+){behind}(?!:)", match[1])]
                if found and ".." not in match[1]:
                    table = PARAMETERS if whose in ("parameters", "c") else COUNTS
                    checks.same(part, "a literal", found, plain(wanted[whose]), table, False)


CHECKS = [check_words, check_calls, check_ends, check_help, check_literals]
