"""The reading of places: what is between brackets, in lists, in equations and in the tables of a page."""
import re
import typing

from described.tables import TOP, Unclear

OPENING, CLOSING = "([{", ")]}"
STRING = r'"(?:\\.|[^"\\])*"'
COMMENTS = {".antt": r"--[^\n]*", ".py": r"#[^\n]*"}
CODE = re.compile(r"`([^`]+)`")


class Entry(typing.NamedTuple):
    """Something that a place has: its name, what is said of it, and its line."""
    name: str
    fact: object
    line: int


def as_number(match, item=None):
    """The number that a match names as `is`."""
    return int(match["is"])


def nothing(match, item=None):
    """Nothing is said of what a match names."""
    return None


def fact_of(fact, *found):
    """What is said of a match: by a function of it, or by the name of one of its groups."""
    return found[0][fact] if isinstance(fact, str) else fact(*found)


def only_names(entries):
    """Entries of which nothing is said."""
    return [Entry(entry.name, None, entry.line) for entry in entries]


def only_types(entries):
    """Fields of which their types alone are said."""
    return [Entry(entry.name, entry.fact[0], entry.line) for entry in entries]


class Part:
    """A part of a file."""

    def __init__(self, path, text, start, end):
        self.path, self.whole, self.start, self.text = path, text, start, text[start:end]
        comment = COMMENTS.get(path.suffix, r"//[^\n]*|/\*.*?\*/")
        self.pieces = re.compile(rf"(?P<comment>{comment})|(?P<string>{STRING})|(?P<sign>=>|->|.)", re.S)

    def line(self, offset=0):
        return self.whole.count("\n", 0, self.start + offset) + 1

    def where(self, offset=0):
        return f"{self.path.relative_to(TOP)}:{self.line(offset)}"

    def slice(self, start, end):
        return Part(self.path, self.whole, self.start + start, self.start + end)

    def after(self, pattern):
        """What follows the one match of a pattern."""
        found = list(re.finditer(pattern, self.text, re.M))
        if len(found) != 1:
            raise Unclear(f"{self.where()}: {len(found)} places match {pattern!r}, and one is wanted")
        return self.slice(found[0].end(), len(self.text))

    def until(self, pattern):
        """What is before the first match of a pattern."""
        found = re.search(pattern, self.text, re.M)
        if not found:
            raise Unclear(f"{self.where()}: nothing after it matches {pattern!r}")
        return self.slice(0, found.start())

    def inside(self, pattern, opening="{"):
        """What is between the brackets that open next after the one match of a pattern."""
        rest = self.after(pattern)
        depth, start = 0, None
        for match in self.pieces.finditer(rest.text):
            sign = match["sign"]
            if start is None and sign == opening:
                start = match.end()
            elif start is None or not sign:
                continue
            elif sign in OPENING:
                depth += 1
            elif sign in CLOSING:
                depth -= 1
                if depth < 0:
                    return rest.slice(start, match.start())
        raise Unclear(f"{rest.where()}: no {opening} opens and closes after {pattern!r}")

    def body(self, name):
        """The body of the one function of that name. Its clauses have braces of their own."""
        rest = self.after(rf"\bfn {name}\b")
        opens = re.search(r"^(?: *|(?! *(?:ensures|requires)\b)[^\n]*)(?=\{$)", rest.text, re.M)
        if not opens:
            raise Unclear(f"{rest.where()}: {name} has no body")
        return rest.slice(opens.end(), len(rest.text)).inside(r"\A")

    def body_of_c(self, name):
        """The body of the function of that name in C."""
        return self.inside(rf"^(?:static )?\w+ \*?{name}\([^;{{]*\)\n(?=\{{)")

    def items(self, separator=","):
        """The items between separators outside of brackets. An arm of a `match` may end with its brace instead."""
        found, depth, start, is_arm = [], 0, 0, False
        for match in self.pieces.finditer(self.text):
            sign = match["sign"]
            depth += (sign in OPENING) - (sign in CLOSING) if sign else 0
            is_arm = is_arm or sign == "=>"
            ends = depth == 0 and (sign == separator or (is_arm and sign == "}"))
            if ends:
                found.append(self.slice(start, match.start() + (sign == "}")))
                start, is_arm = match.end(), False
        found.append(self.slice(start, len(self.text)))
        return [one for one in found if one.bare()]

    def bare(self):
        """The text without comments, with a blank for each run of white space."""
        kept = (match.group() if not match["comment"] else " " for match in self.pieces.finditer(self.text))
        return " ".join("".join(kept).split())

    def comment(self):
        """The text of the comments."""
        found = [match["comment"] for match in self.pieces.finditer(self.text) if match["comment"]]
        return " ".join(" ".join(re.sub(r"^(///?|/\*|--|#)|\*/$", "", one) for one in found).split())

    def entries(self, pattern, fact=nothing, separator=","):
        """The items, each of which has to match the pattern, which names a name. `fact` is what is said of it: a
        function of the match and the item, or the name of a group."""
        found = []
        for item in self.items(separator):
            match = re.fullmatch(pattern, item.bare())
            front = len(item.text) - len(item.text.lstrip())
            if not match:
                raise Unclear(f"{item.where(front)}: can't be read as {pattern!r}: {item.bare()!r}")
            found.append(Entry(match["name"], fact_of(fact, match, item), item.line(front)))
        return found

    def matches(self, pattern, fact=nothing, each=None):
        """All matches of a pattern, which names a name. There have to be as many as of `each`."""
        found = [Entry(match["name"], fact_of(fact, match), self.line(match.start()))
                 for match in re.finditer(pattern, self.text, re.M)]
        if each and len(found) != len(re.findall(each, self.text, re.M)):
            raise Unclear(f"{self.where()}: some of {each!r} there can't be read as {pattern!r}")
        return found

    def names(self, pattern=r"(?P<name>\w+)", separator=","):
        return self.entries(pattern, separator=separator)


def file(name):
    """The whole of a file."""
    path = TOP / name
    if not path.is_file():
        raise Unclear(f"{name}: there is no such file")
    text = path.read_text(encoding="utf-8")
    return Part(path, text, 0, len(text))


def fields(part, name):
    """The fields of a struct of Rattle or Rust, each with its type and its comment."""
    inside = part.inside(rf"^(?:pub(?:\(crate\))? )?struct {name}\b(?=[^;{{]*\{{)")
    pattern = r"(?:pub(?:\(crate\))? )?(?P<name>\w+): (?P<type>.+)"
    return inside.entries(pattern, lambda match, item: (match["type"], item.comment()))


def variants(part, name):
    """The variants of an enum, each with its text of an error and its comment."""
    inside = part.inside(rf"^(?:pub )?enum {name}\b")
    pattern = r'(?:#\[error\("(?P<text>[^"]*)"\)\] )?(?:#\[default\] )?(?P<name>\w+)'
    return inside.entries(pattern, lambda match, item: (match["text"], item.comment()))


def equations(part, name):
    """The equations of a definition by its cases: its first argument, and what it is then."""
    return part.matches(rf"^{name} (?!:)(?P<name>\([^)]*\)|\S+)(?P<rest>[^=\n]*)= (?P<is>[^\n]*)$",
                        lambda match: match["is"].strip())


class Table(typing.NamedTuple):
    """A table of a page: the cells of its head, and of each row its cells and its line."""
    head: list
    rows: list


def page_tables(part):
    """The tables of a page. Lines of a code block are one, too: two spaces or more part their cells."""
    found, before, is_code = [], None, False
    for place, line in enumerate(part.text.split("\n"), 1):
        is_fence, text = line.lstrip()[:3] == "```", line.strip()
        is_code ^= is_fence
        cells = None
        if is_code and text and not is_fence:
            cells = re.split(r" {2,}", text)
        elif text[:1] == "|":
            cells = [cell.strip() for cell in re.split(r"(?<!\\)\|", text)[1:-1]]
        if cells and before is None:
            found.append(Table(cells, []))
        elif cells and not all(re.fullmatch(r":?-+:?", cell) for cell in cells):
            found[-1].rows.append((cells, place))
        before = cells
    return found


def named(cell):
    """The names in a cell: the first words between backticks, or else of what commas and `or` part."""
    spans = CODE.findall(cell) or re.split(r",| or | and | \| ", re.sub(r"\([^)]*\)", "", cell))
    return [span.split()[0].strip("*") for span in spans if span.split()]


def share(table, names):
    """How many of these names a table has in its first column."""
    return len({name for cells, _ in table.rows for name in named(cells[0])} & set(names))


def table_of(part, names):
    """The table of a page that has most of these names in its first column, and at least half of them."""
    best = max(page_tables(part), key=lambda table: share(table, names), default=None)
    return best if best and 2 * share(best, names) >= len(names) else None
