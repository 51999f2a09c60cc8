"""The tables: each parameter, each count, each numbered word and each column of a table of maltlink, described once."""
import copy
import csv
import dataclasses
import pathlib
import re

TOP = pathlib.Path(__file__).resolve().parent.parent.parent
FOLDER = TOP / "docs" / "tables"
MICROSECONDS = {"us": 1, "ms": 1_000, "s": 1_000_000, " seconds": 1_000_000}
BYTES = {"b": 1, "Kb": 1 << 10, "Mb": 1 << 20, "Gb": 1 << 30}
BITS = {"bit": 1, "kbit": 10**3, "mbit": 10**6, "gbit": 10**9, "tbit": 10**12}
UNITS = {"": {}, "packets": {"p": 1, " packets": 1}, "flows": {}, "bytes": {**BYTES, " bytes": 1},
         "microseconds": {**MICROSECONDS, " microseconds": 1}, "bits a second": BITS}


# The words of the columns that have few.
WORDS = {"parameters": {"of": ("scheduler", "link", "fqsim"), "unit": tuple(UNITS)},
         "counts": {"journal": ("counted", "derived", ""), "unit": ("packets", "bytes", ""), "type": ("u64", "bool")},
         "codes": {"of": ("cause", "mark")}, "columns": {"table": ("flows", "packets", "series")}}


class Unclear(Exception):
    """Something that can't be read: where, what was found, and what is wanted."""


def number(text, unit=""):
    """The number that a text says, in that unit. It may have commas, underscores, `^`, `<<` and a unit of its own. None
    where it says none."""
    shift = re.fullmatch(r"1 << (\d+)", text)
    if shift:
        return 1 << int(shift[1])
    found = re.fullmatch(r"(\d[\d,_]*)(?:\^(\d+))?(\D*)", text.strip())
    if not found or found[3] and found[3] not in UNITS[unit]:
        return None
    plain = int(re.sub("[,_]", "", found[1])) ** int(found[2] or 1)
    return plain * UNITS[unit].get(found[3], 1)


@dataclasses.dataclass(frozen=True)
class Parameter:
    """A parameter. `form` is how it is written, and `c` its name in the record of C. `least`, `greatest` and `default`
    are numbers where the parameter is one. A default may be `off`, and is None where a value has to be given. `short`
    is the text of its name, `text` that of its field, and `help` that of the help of fqsim."""
    name: str
    of: str
    form: str
    c: str
    unit: str
    type: str
    least: int
    greatest: int
    default: object
    example: str
    ns3: str
    ns3_default: str
    short: str
    text: str
    help: str

    @property
    def is_ranged(self):
        return self.greatest is not None

    @property
    def is_optional(self):
        return self.default == "off"

    @property
    def variant(self):
        """Its name among the names of parameters in Rattle, as CeThreshold."""
        return self.name.title().replace("_", "")

    @property
    def words(self):
        """The words that say it, without their values: two for what is on or off."""
        return self.form.split(" | ") if " | " in self.form else [self.name]

    @property
    def choices(self):
        """What it may be, where it is no number: `ecn` and `noecn`, `hash` and `dport`."""
        if self.is_ranged:
            return []
        return self.words if " | " in self.form else self.form.removeprefix(self.name + " ").split("|")

    @property
    def range(self):
        return (self.least, self.greatest)


@dataclasses.dataclass(frozen=True)
class Count:
    """A number of the statistics. `journal` says whether a journal counts it or derives it, or doesn't have it.
    `flushed_as` is what a queue disc calls the part of it that was flushed. `row`, `tuple` and `monitor` are its names
    in these rows of a report, `shape` that in examples-c/shape, and `tc` the word before it in what shape prints."""
    name: str
    unit: str
    type: str
    journal: str
    flushed_as: str
    row: str
    tuple: str
    monitor: str
    shape: str
    tc: str
    text: str
    disc_text: str


@dataclasses.dataclass(frozen=True)
class Code:
    """A cause of a drop or a kind of mark, with its number in C, its word in reports, its names elsewhere, and the
    count that it is counted in."""
    of: str
    name: str
    number: int
    word: str
    c: str
    rust: str
    python: str
    ns3: str
    shape: str
    count: str


@dataclasses.dataclass(frozen=True)
class Column:
    """A column of a table of maltlink, with its range where it has one of its own."""
    table: str
    name: str
    least: int
    greatest: int


def rows(name, kind, numbers):
    """The rows of a table, in order. Those columns are whole numbers, or empty."""
    path = FOLDER / name
    fields = [field.name for field in dataclasses.fields(kind)]
    with path.open(encoding="utf-8", newline="") as file:
        reader = csv.reader(file)
        if next(reader) != fields:
            raise Unclear(f"{path.relative_to(TOP)}:1: the header isn't {','.join(fields)}")
        found = []
        for row in reader:
            where = f"{path.relative_to(TOP)}:{reader.line_num}"
            if len(row) != len(fields):
                raise Unclear(f"{where}: {len(row)} fields, and {len(fields)} are wanted")
            values = dict(zip(fields, row))
            for one in numbers:
                if not re.fullmatch(r"\d*", values[one]):
                    raise Unclear(f"{where}: {one} is {values[one]!r}, and digits are wanted, or nothing")
                values[one] = int(values[one]) if values[one] else None
            for one, words in WORDS[name.removesuffix(".csv")].items():
                if values[one] not in words:
                    wanted = ", ".join(word or "nothing" for word in words)
                    raise Unclear(f"{where}: {one} is {values[one]!r}, and one of these is wanted: {wanted}")
            found.append(kind(**values))
    return found


def with_default(parameter):
    """The parameter with its default as a number, where it is one."""
    default = int(parameter.default) if parameter.default.isdigit() else parameter.default or None
    return dataclasses.replace(parameter, default=default)


def inserted(rows_before, place, one):
    """The rows with one more behind that one."""
    at = rows_before.index(place) + 1
    return [*rows_before[:at], one, *rows_before[at:]]


def renamed(one, **other):
    """A row that is described as that one is, under another name."""
    return dataclasses.replace(one, name="one_more", **other)


class Tables:
    """All of them. Each name is there once, and what one table says of another is there."""

    def __init__(self):
        described = rows("parameters.csv", Parameter, ["least", "greatest"])
        self.parameters = [with_default(one) for one in described]
        self.counts = rows("counts.csv", Count, [])
        self.codes = rows("codes.csv", Code, ["number"])
        self.columns = rows("columns.csv", Column, ["least", "greatest"])
        for what, names in [("parameters", [one.name for one in self.parameters]),
                            ("counts", [one.name for one in self.counts]),
                            ("codes", [one.name for one in self.codes]),
                            ("columns", [(one.table, one.name) for one in self.columns])]:
            again = next((name for place, name in enumerate(names) if name in names[:place]), None)
            if again:
                raise Unclear(f"docs/tables/{what}.csv: {again} is there twice")
        self.check_parameters()
        counts = [one.name for one in self.counts]
        for code in self.codes:
            if code.count and code.count not in counts:
                raise Unclear(f"docs/tables/codes.csv: {code.name} is counted as {code.count}, which counts.csv hasn't")

    def check_parameters(self):
        """Each range has a least value, each default is in its range, and so is the example's value."""
        for one in self.parameters:
            where = f"docs/tables/parameters.csv: {one.name}"
            if one.is_ranged and (one.least is None or one.least > one.greatest):
                raise Unclear(f"{where} is from {one.least} to {one.greatest}")
            if isinstance(one.default, int) and not one.least <= one.default <= one.greatest:
                raise Unclear(f"{where} has the default {one.default}, which is out of its range")
            if not one.is_ranged and one.default not in one.choices:
                raise Unclear(f"{where} has the default {one.default}, which is none of {one.choices}")
            value = number(one.example.removeprefix(one.name + " "), one.unit) if one.is_ranged else None
            if one.of == "scheduler" and one.is_ranged and value != one.default and not one.is_optional:
                raise Unclear(f"{where} has the example {one.example!r}, which isn't its default")

    def with_one_more(self, kind):
        """The same tables with a row more, of names that are nowhere. A cause or a mark has a count of its own."""
        more = copy.copy(self)
        if kind == "parameter":
            last = self.ranged()[-1]
            one = renamed(last, c="one_more", ns3="OneMore", form="one_more N")
            more.parameters = inserted(self.parameters, last, one)
        elif kind == "column":
            more.columns = inserted(self.columns, self.columns[-1], renamed(self.columns[-1]))
        else:
            like = next(one for one in self.counts if one.name == ("marked" if kind == "mark" else "dropped_overflow"))
            flushed_as = like.flushed_as and "one_more"
            one = renamed(like, row="ONE_MORE", shape="one_more", tc="one_more", flushed_as=flushed_as)
            more.counts = inserted(self.counts, like, one)
        if kind in ("cause", "mark"):
            last = [one for one in self.codes if one.of == kind][-1]
            one = renamed(last, number=last.number + 1, c="ONE_MORE", rust="OneMore", python="ONE_MORE", ns3="ONE_MORE",
                          word="one_more", shape=last.shape and "ONE_MORE", count="one_more")
            more.codes = inserted(self.codes, last, dataclasses.replace(one, name="OneMore"))
        return more

    def scheduler(self):
        return [one for one in self.parameters if one.of == "scheduler"]

    def ranged(self):
        return [one for one in self.scheduler() if one.is_ranged]
