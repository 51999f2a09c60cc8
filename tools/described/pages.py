"""The pages that list parameters, statistics and columns. A row is found by the name in its first cell, in the table of
the page that has most of the names. A table may be in a code block, and have other columns and other words. FORMATS and
the page of the queue disc for ns-3 have to list everything. Any other page that lists half of it has to list all."""
import re

from described.comparing import CODES, COLUMNS, COUNTS, PARAMETERS, plain
from described.counts import of_kind
from described.reading import CODE, Entry, file, named, page_tables, table_of
from described.reports import TUPLE, monitor_counts, totals_names, tuple_counts
from described.tables import TOP, Unclear, number

FORMATS, NS3, SHAPE = "docs/FORMATS.md", "ns3/README.md", "examples-c/shape/README.md"
PAGES = ("*.md", "docs/*.md", "*/README.md", "crates/*/README.md", "examples-c/*/README.md")
RANGE = re.compile(r"(?:from )?(\d[\d,^]*) (?:to|–|-) (\d[\d,^]*)( - 1)?(?: (packets|flows|bytes|microseconds))?")
DEFAULT = re.compile(r"default|standard|isn't said|not said|not given|left out", re.I)
# The words by which a page may say of which kind a value is.
KINDS = {**{unit: unit for unit in ("packets", "flows", "bytes", "microseconds")}, "time": "microseconds"}


def pages():
    """All pages, by their names."""
    return sorted(str(path.relative_to(TOP)) for files in PAGES for path in TOP.glob(files))


def ranges(cells):
    """The ranges that cells state, and their units where they say any."""
    found = [match for cell in cells for match in RANGE.finditer(cell)]
    return [(number(match[1]), number(match[2]) - bool(match[3]), match[4]) for match in found]


def default_of(table, cells):
    """The cell of the default: below a head that says so, or else the last one."""
    columns = [place for place, head in enumerate(table.head) if DEFAULT.search(head)]
    return cells[columns[0] if columns and columns[0] < len(cells) else -1]


def parameter_row(table, cells, one):
    """What a row says of a parameter: its range, whether its unit is another one, its default and its choices."""
    said = ranges(cells[1:])
    units = [unit for *_, unit in said if unit] + [KINDS[cell] for cell in cells[1:] if cell in KINDS]
    other = next((unit for unit in units if unit != one.unit), None)
    first = (default_of(table, cells).split() or [""])[0].strip("`*,;")
    default = first if number(first, one.unit) is None else number(first, one.unit)
    others = [cell for cell in cells if cell != default_of(table, cells)]
    spans = [span for cell in others for span in CODE.findall(cell)] or others
    words = [word for span in spans for word in re.findall(r"\w+", span)]
    choices = None if one.is_ranged else tuple(word for word in one.choices if word in words)
    return (said[0][:2] if said else None, other, default, choices)


def parameter_rows(table, known):
    """The rows of a table of parameters."""
    found = []
    for cells, line in table.rows:
        names = list(dict.fromkeys(named(cells[0])))
        one = known.get(names[0]) if names else None
        is_known = one and names == one.words
        found.append(Entry(one.name if is_known else ", ".join(names),
                           parameter_row(table, cells, one) if is_known else None, line))
    return found


def check_parameters(checks, tables):
    """The parameters of the scheduler, in their order."""
    known = {word: one for one in tables.scheduler() for word in one.words}
    wanted = [(one.name, (one.range if one.is_ranged else None, None, one.default, tuple(one.choices) or None))
              for one in tables.scheduler()]
    for page in pages():
        part = file(page)
        table = table_of(part, known)
        if table:
            checks.same(part, "the table of parameters", parameter_rows(table, known), wanted, PARAMETERS)
        elif page == FORMATS:
            raise Unclear(f"{FORMATS}: no table has the parameters in its first column")


def listed(table, own=()):
    """The names in the first cells of a table. Names of its own are left out."""
    return [Entry(name, None, line) for cells, line in table.rows for name in named(cells[0]) if name not in own]


def check_link(checks, tables):
    """The options of the link: a page may list others, too."""
    wanted = [f"--{one.name}" for one in tables.parameters if one.of == "link"]
    for page in pages():
        part = file(page)
        table = table_of(part, wanted)
        if table:
            found = [one for one in listed(table) if one.name in wanted]
            checks.same(part, "the options of the link", found, plain(wanted), PARAMETERS, False)


def check_attributes(checks, tables):
    """The attributes of the queue disc for ns-3, with the defaults that its page states."""
    part = file(NS3)
    of_ns3 = {one.ns3: one for one in tables.scheduler() if one.ns3}
    table = table_of(part, of_ns3)
    if not table:
        raise Unclear(f"{NS3}: no table has the attributes in its first column")
    checks.same(part, "the attributes", listed(table, ("Perturbation",)), plain(of_ns3), PARAMETERS, False)
    stated = [Entry(named(cells[0])[0], default_of(table, cells).split()[0].rstrip(":"), line)
              for cells, line in table.rows if len(named(cells[0])) == 1 and named(cells[0])[0] in of_ns3]
    wanted = [(entry.name, of_ns3[entry.name].ns3_default) for entry in stated]
    checks.same(part, "the defaults", stated, wanted, PARAMETERS)


def check_rows(checks, tables):
    """The rows of reports as FORMATS shows them, wherever it does: between backticks, or as a line of a code block."""
    part = file(FORMATS)
    for first, gap, wanted in (("totals", ",", totals_names(tables)),
                               ("tuple", ",", [*TUPLE, *(name.upper() for name in tuple_counts(tables))]),
                               ("monitor I", " ", ["EVENTS", *monitor_counts(tables)])):
        name = rf"[^`\n{gap}]+"
        shown = list(re.finditer(rf"(?:`|^){first}{gap}({name}(?:{gap}{name})+)(?:`|$)", part.text, re.M))
        for match in shown or [None]:
            names = match[1].split(gap) if match else []
            found = [Entry(name, None, part.line(match.start(1))) for name in names]
            checks.same(part, f"the row {first}", found, plain(wanted), COUNTS)
    drops = {match[1]: Entry(match[1], None, part.line(match.start()))
             for match in re.finditer(r"\bdropped,ID,(\w+)", part.text)}
    checks.same(part, "the rows of drops", list(drops.values()), plain(one.word for one in of_kind(tables, "cause")),
                CODES, False)


def check_columns(checks, tables):
    """The columns of the tables of maltlink: as a header behind the table's name, or else as the rows of a table."""
    part = file(FORMATS)
    for name in dict.fromkeys(one.table for one in tables.columns):
        columns = [one.name for one in tables.columns if one.table == name]
        header = re.search(rf"^`?{name}`?: +`?(\w+(?:,\w+)+)`?$", part.text, re.M)
        table = None if header else table_of(part, columns)
        if header:
            found = [Entry(column, None, part.line(header.start())) for column in header[1].split(",")]
        elif table:
            found = listed(table)
        else:
            raise Unclear(f"{FORMATS}: there is neither a line '{name}: ' with the columns, nor a table of them")
        checks.same(part, f"the columns of {name}", found, plain(columns), COLUMNS, bool(header))
    of_name = {one.name: (one.least, one.greatest) for one in tables.columns}
    stated = []
    for cells, line in (row for table in page_tables(part) for row in table.rows):
        said, names = ranges(cells[1:]), named(cells[0])
        if said and len(said) == len(names) and all(name in of_name for name in names):
            stated += [Entry(one, said[place][:2], line) for place, one in enumerate(names)]
    wanted = [(entry.name, of_name[entry.name]) for entry in stated]
    checks.same(part, "the ranges of columns", stated, wanted, COLUMNS)


def check_fates(checks, tables):
    """The words of fates and of marks: in the row of their column, or in a sentence that says what it is."""
    part = file(FORMATS)
    for name, wanted in (("fate", ["sent", *(one.word for one in of_kind(tables, "cause"))]),
                         ("mark", [one.word for one in of_kind(tables, "mark") if one.word])):
        said = re.search(rf"^\| `?{name}`? \|([^\n]*)|`{name}` is ([^;.\n]*)", part.text, re.M)
        if not said:
            raise Unclear(f"{FORMATS}: neither a row nor a sentence says what `{name}` is")
        words = [Entry(word, None, part.line(said.start())) for word in dict.fromkeys(CODE.findall(said[0]))
                 if word != name]
        checks.same(part, f"the words of {name}", words, plain(wanted), CODES, False)


def check_shape(checks, tables):
    """The drops and marks in the statistics that the page of the router shows."""
    part = file(SHAPE)
    shown = re.search(r"^ *drop_[^\n]*", part.text, re.M)
    if shown:
        line = part.slice(*shown.span())
        found = [one for one in line.matches(r"(?P<name>[a-z_]+) \d+") if one.name != "refused"]
        wanted = plain(one.tc for one in tables.counts if one.tc)
        checks.same(line, "the line of drops and marks", found, wanted, COUNTS, False)


CHECKS = [check_parameters, check_link, check_attributes, check_rows, check_columns, check_fates, check_shape]
