"""What the programs say of parameters and of the link: their help, and what they say of a wrong value."""
import re

from described.comparing import PARAMETERS, plain
from described.reading import Entry, as_number, equations, fields, file, variants
from described.tables import TOP, Unclear, number

FQSIM, MALTLINK = "crates/command_core/src/manual.rt", "crates/link_command/src/manual.rt"
FQSIM_SHOWN, LOCKED_SHOWN = ".ci/help/trace-long.txt", ".ci/help/locked-long.txt"
COMMAND = "crates/command_core/src/command_line.rt"
VALUES, VALUES_SPEC = "crates/link_command/src/values.rt", "crates/link_command/specs/Values.antt"


def amount(text, unit):
    """A number of a help text, or that there is none."""
    return "off" if text in ("none", "off") else number(text, unit) if number(text, unit) is not None else text


def help_rows(part, tables):
    """The rows of the block behind the line with Range and Default: of each its form, its range, its default and its
    text."""
    block = part.after(r"^ *(?:Words|Parameter) +Range +Default\n").until(r"\n\n")
    indent = len(block.text) - len(block.text.lstrip(" "))
    units, found = {one.name: one.unit for one in tables.parameters}, []
    for place, line in enumerate(block.text.split("\n")):
        cells = re.split(r" {2,}", line.strip())
        if len(line) - len(line.lstrip(" ")) > indent:
            found[-1][1].append(line.strip())
            continue
        name = cells[0].split()[0]
        ends = cells[1].split(" to ") if len(cells) == 3 else (None, None)
        if len(cells) not in (2, 3) or len(ends) != 2:
            where = f"{block.path.relative_to(TOP)}:{block.line() + place}"
            raise Unclear(f"{where}: can't be read as a form, a range and a default: {line}")
        unit = units.get(name, "")
        fact = (cells[0], *(end and amount(end, unit) for end in ends), amount(cells[-1], unit))
        found.append((name, [], fact, block.line() + place))
    return block, [Entry(name, (*fact, " ".join(text)), line) for name, text, fact, line in found]


def check_help(checks, tables):
    """The parameters in the help of both programs, and in what `.ci/cli-table` compares it with."""
    for path, has_text in ((FQSIM, True), (FQSIM_SHOWN, True), (MALTLINK, False), (".ci/help/maltlink.txt", False)):
        part, found = help_rows(file(path), tables)
        wanted = [(one.name, (one.form, one.least, one.greatest, one.default, one.help if has_text else ""))
                  for one in tables.scheduler()]
        checks.same(part, "the help", found, wanted, PARAMETERS)


def of_link(tables):
    return [one for one in tables.parameters if one.of == "link"]


def said_range(one, text):
    """The range and the default that a text says."""
    ends = re.search(r"(?:from )?(\d\w*) to (\d\w*)", text)
    default = re.search(r"\[default: (\w+)\]", text)
    return (number(ends[1], one.unit), number(ends[2], one.unit), number(default[1], one.unit) if default else None)


def check_options(checks, tables):
    """The options of the link in the help of maltlink, and what is said of a wrong value."""
    options = of_link(tables)
    part = file(MALTLINK).after(r"^OPTIONS\n").until(r"^PARAMETERS\n")
    found = []
    for entry in part.matches(r"^    (?P<name>--\w+)(?P<form>[^\n]*)\n(?P<text>(?: {8}[^\n]*\n)+)",
                              lambda match: (match["name"] + match["form"], " ".join(match["text"].split()))):
        one = next((one for one in options if f"--{one.name}" == entry.name), None)
        if one:
            found.append(Entry(one.name, (entry.fact[0], *said_range(one, entry.fact[1])), entry.line))
    wanted = [(one.name, (one.form, *one.range, one.default)) for one in options]
    checks.same(part, "the options", found, wanted, PARAMETERS)
    part = file("crates/link_command/src/explanations.rt").body("wanted")
    found = part.matches(r'ValueName::(?P<name>\w+) => "(?P<text>[^"]*)"', "text", "=>")
    of_variant = {one.variant: one for one in options}
    found = [Entry(name, said_range(of_variant[name], text)[:2] if name in of_variant else text, line)
             for name, text, line in found if name != "name"]
    checks.same(part, "what is wanted", found, [(one.variant, one.range) for one in options], PARAMETERS)


def check_link(checks, tables):
    """The names, the ranges and the defaults of the link's options in the sources and the definitions."""
    options = of_link(tables)
    named = [(one.variant, (one.name, one.short)) for one in options]
    for path, enum, wanted in (("crates/link_core/src/link.rt", "LinkName", named[:-1]),
                               ("crates/link_command/src/faults.rt", "ValueName", named)):
        part = file(path)
        checks.same(part, enum, variants(part, enum), wanted, PARAMETERS)
    part = file("crates/link_core/src/link.rt")
    wanted = [(one.name, (one.type, one.text)) for one in options[:-1]]
    checks.same(part, "LinkFields", fields(part, "LinkFields"), wanted, PARAMETERS)
    part = part.body("try_new")
    tests = re.finditer(r"if ([^{]*)\{\s+return Err\(LinkName::(\w+)\)", part.text)
    found = [Entry(match[2], tuple(number(re.search(rf"fields\.{match[2].lower()} {sign} ([\d_]+)", match[1])[1])
                                   if sign in match[1] else 0 for sign in "<>"), part.line(match.start()))
             for match in tests]
    checks.same(part, "the tests of ranges", found, [(one.variant, one.range) for one in options[:-1]], PARAMETERS)
    part = file("crates/link_core/specs/Links.antt")
    found = part.matches(r"^Is(?P<name>\w+)InRange n = (?:\((?P<least>\d+) ≤ n\) × )?\(?n ≤ (?P<greatest>\d+)\)?$",
                         lambda match: (int(match["least"] or 0), int(match["greatest"])), r"^Is\w+InRange n")
    checks.same(part, "the ranges by name", found, [(one.variant, one.range) for one in options[:-1]], PARAMETERS)


def check_mistakes(checks, tables):
    """The options of the link where a word is no option."""
    part, names = file("crates/link_command/src/mistakes.rt"), [f"--{one.name}" for one in of_link(tables)]
    inside = part.body("takes_value")
    found = [one for one in inside.matches(r'"(?P<name>--\w+)"') if one.name not in ("--seed", "--compare", "--write")]
    checks.same(inside, "takes_value", found, plain(names), PARAMETERS, False)
    inside = part.body("wanted_after")
    found = inside.matches(r'"(?P<name>--\w+)" => wanted\(ValueName::(?P<is>\w+)\)', "is", r" => wanted\(")
    wanted = [(name, one.variant) for name, one in zip(names, of_link(tables))]
    checks.same(inside, "wanted_after", found, wanted, PARAMETERS)


def check_values(checks, tables):
    """The constants by which maltlink reads its options, and their definitions."""
    rate, overhead, mpu, every = of_link(tables)
    part = file(VALUES)
    found = part.matches(r"^const (?P<name>\w+): u64 = (?P<is>[\d_]+);$", lambda match: number(match["is"]), r"^const ")
    wanted = [("MIN_RATE", rate.least), ("MAX_RATE", rate.greatest), ("MAX_OVERHEAD", overhead.greatest),
              ("MAX_MPU", mpu.greatest), ("MIN_EVERY", every.least), ("STANDARD_EVERY", every.default)]
    checks.same(part, "the constants", found, wanted, PARAMETERS)
    part = file(VALUES_SPEC)
    ends = re.compile(r"fault_within (\d+) (\d+)")
    found = [Entry(name, tuple(int(end) for end in ends.match(fact).groups()), line)
             for name, fact, line in equations(part, "value_fault") if ends.match(fact)]
    checks.same(part, "value_fault", found, [(one.variant, one.range) for one in (rate, overhead, mpu)], PARAMETERS)
    found = part.matches(r"^(?P<name>width_read|width_given) (?:\(Ok p\)|None) =\D*(?P<is>\d+)", as_number)
    wanted = [("width_read", every.least), ("width_given", every.default)]
    checks.same(part, "the width of a bin", found, wanted, PARAMETERS)


def check_threads(checks, tables):
    """The numbers of senders and monitors of fqsim."""
    options = [one for one in tables.parameters if one.of == "fqsim"]
    part = file(FQSIM)
    found = part.matches(r"^pub const (?P<name>SENDERS|MONITORS)_\w+: &str = (?P<text>[^;]*?)(?=;$)",
                         lambda match: re.search(r"(\d+) to (\d+)[\s\S]*\[default: (\d+)\]", match["text"]).groups())
    wanted = [(one.name.upper(), tuple(str(n) for n in (*one.range, one.default))) for one in options]
    for which, kind in enumerate(("in a line", "in full")):
        checks.same(part, f"the help of threads {kind}", found[which::2], wanted, PARAMETERS)
    part = file(COMMAND)
    found = part.matches(r"^pub const (?P<name>\w+): u32 = (?P<is>\d+);$", as_number)
    wanted = [("MAX_SENDERS", options[0].greatest), ("STANDARD_SENDERS", options[0].default),
              ("MAX_MONITORS", options[1].greatest)]
    checks.same(part, "the constants", found, wanted, PARAMETERS)
    ranges = [Entry(f"{m[1]} to {m[2]}", None, part.line(m.start()))
              for m in re.finditer(r"range\((\d+)\.\.=(\d+)\)", part.text)]
    checks.same(part, "the ranges that clap tests", ranges, plain(f"{a} to {b}" for a, b in (o.range for o in options)),
                PARAMETERS)


CHECKS = [check_help, check_options, check_link, check_mistakes, check_values, check_threads]
