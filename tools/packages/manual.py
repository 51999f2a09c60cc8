"""The man pages: fqsim(1) and maltlink(1) of what the programs print for --help, and maltcove(3) of c/maltcove.h."""
from __future__ import annotations

import re
from dataclasses import dataclass
from pathlib import Path

from packages.checkout import Missing, run
from packages.roff import as_they_are, blocks, body, escaped, filled, indent, page, term, title

COMMANDS = ("trace", "locked", "lanes")


@dataclass(frozen=True)
class Edition:
    """What stands in the head of each page: the date and the version."""

    date: str
    version: str


def maltlink_page(text: str, edition: Edition) -> str:
    """maltlink(1). The help has sections with headings in capitals, as a man page has."""
    made = title("maltlink", 1, edition.date, edition.version, "User Commands")
    sections = re.split(r"^([A-Z][A-Z ]+)\n", text, flags=re.M)
    if sections[0].strip() or len(sections) < 3:
        raise Missing(f"maltlink --help doesn't begin with a heading in capitals, but with {text[:40]!r}")
    for heading, inside in zip(sections[1::2], sections[2::2]):
        made.append(f".SH {heading}")
        lines = inside.splitlines()
        if heading == "NAME":
            made += filled(lines)
        else:
            made += body(lines, base=4, keep=heading in ("SYNOPSIS", "EXAMPLES"))
    return page([*made, ".SH SEE ALSO", "fqsim(1), maltcove(3), tc\\-fq_codel(8)"])


def of_command(text: str) -> list[str]:
    """The text of one help of fqsim, below the section that it has."""
    made: list[str] = []
    in_options = False
    for block in blocks(text.splitlines()):
        heading = re.fullmatch(r"([A-Z][a-z]+( [a-z]+)?):", block[0])
        if heading:
            made.append(f".SS {heading[1]}")
            in_options = heading[1] in ("Options", "Arguments")
            block = block[1:]
        elif indent(block[0]) == 0:
            in_options = False
        if block and block[0].startswith("Usage: "):
            made += as_they_are(block)
        elif block and in_options and len(block) > 1:
            made += term(block)
        elif block:
            made += body(block, base=0)
    return made


def fqsim_page(summary: str, helps: dict[str, str], edition: Edition) -> str:
    """fqsim(1), of the help of the program (under the name '') and of each command."""
    usages = [re.search(r"^Usage: (.*)$", text, re.M) for text in helps.values()]
    if not all(usages):
        raise Missing("a help of fqsim has no line 'Usage: '")
    made = title("fqsim", 1, edition.date, edition.version, "User Commands")
    made += [".SH NAME", r"fqsim \- " + escaped(summary[0].lower() + summary[1:])]
    made += [".SH SYNOPSIS", *as_they_are([usage[1] for usage in usages if usage])]
    for command, text in helps.items():
        made.append(f".SH FQSIM {command.upper()}" if command else ".SH DESCRIPTION")
        made += of_command(text)
    return page([*made, ".SH SEE ALSO", "maltlink(1), maltcove(3), tc\\-fq_codel(8)"])


@dataclass(frozen=True)
class Declared:
    """A declaration of the header, with the comment before it."""

    comment: list[str]
    code: list[str]

    def function(self) -> str | None:
        """The name of the function that is declared, if one is."""
        found = re.match(r"[^({]*?\b(maltcove_\w+)\(", self.code[0])
        return found[1] if found else None


def comment_lines(text: str) -> list[str]:
    """The lines of a comment without what makes it one."""
    inside = re.sub(r"^/\*+|\*/$", "", text.expandtabs(8).strip())
    return [re.sub(r"^ ?\* ?", "", line).rstrip() for line in inside.split("\n")]


def without_bodies(header: str) -> str:
    """The header with the declaration of each inline function in place of its definition."""
    return re.sub(r"^static inline ([^{;]*?\))\n\{.*?^\}\n", r"\1;\n", header, flags=re.S | re.M)


def declarations(header: str) -> tuple[list[str], list[Declared]]:
    """The first comment of the header, and what it declares after that."""
    header = without_bodies(header)
    item = re.compile(r"^/\*.*?\*/|^#define MALTCOVE_(?!H\b)[^\n]*(?:\n#define [^\n]*)*"
                      r"|^(?:typedef struct|enum) .*?^\}[^\n]*;|^[a-z][^\n;{}]*?\([^;{}]*?\);", re.S | re.M)
    items = [match[0] for match in item.finditer(header)]
    found: list[Declared] = []
    comment: list[str] = []
    for text in items[1:]:
        if text.startswith("/*"):
            comment = comment_lines(text)
        else:
            found.append(Declared(comment, text.expandtabs(8).split("\n")))
            comment = []
    return comment_lines(items[0]), found


def prototype(code: list[str]) -> list[str]:
    """The lines of a prototype that a terminal of 80 columns has whole."""
    line = " ".join(part.strip() for part in code)
    if len(line) <= 69:
        return as_they_are([line])
    name, _, rest = line.partition("(")
    lines = [name + "("]
    for parameter in re.split(r"(?<=,) ", rest):
        if len(lines) > 1 and len(lines[-1]) + len(parameter) < 69:
            lines[-1] += " " + parameter
        else:
            lines.append("    " + parameter)
    return as_they_are(lines)


def described(lines: list[str]) -> list[str]:
    """A comment as text: lines that begin deeper are code."""
    made: list[str] = []
    for block in blocks(lines):
        if indent(block[0]) >= 4:
            made += as_they_are(block)
        else:
            made += [".PP", *filled(block)]
    return made


def maltcove_page(header: str, edition: Edition) -> str:
    """maltcove(3): the first comment of the header, each type and constant, each function."""
    first, declared = declarations(header)
    summary = re.match(r"\s*maltcove\.h: (.*)", first[1] if not first[0].strip() else first[0])
    if not summary:
        raise Missing("the first comment of c/maltcove.h doesn't begin with 'maltcove.h: '")
    calls = [one for one in declared if one.function()]
    made = title("maltcove", 3, edition.date, edition.version, "Library Functions Manual")
    made += [".SH NAME", r"maltcove \- " + escaped(summary[1].rstrip("."))]
    made += [".SH SYNOPSIS", *as_they_are(["#include <maltcove.h>", "", "cc FILE.c -lmaltcove"])]
    for call in calls:
        made += prototype(call.code)
    made += [".SH DESCRIPTION", *described(first[first.index(next(line for line in first if line.strip())) + 1:])]
    made.append(".SH TYPES AND CONSTANTS")
    for one in declared:
        if not one.function():
            made += [*described(one.comment), *as_they_are(one.code)]
    made.append(".SH FUNCTIONS")
    for call in calls:
        made += [f".SS {call.function()}", *prototype(call.code), *described(call.comment)]
    return page([*made, ".SH SEE ALSO", "fqsim(1), maltlink(1), tc\\-fq_codel(8)"])


def functions(header: str) -> list[str]:
    """The names of the functions that the header declares."""
    return [name for one in declarations(header)[1] if (name := one.function())]


def pages(fqsim: Path, maltlink: Path, header: str, edition: Edition) -> dict[str, str]:
    """All pages, by their files' names."""
    helps = {"": run(str(fqsim), "--help")} | {name: run(str(fqsim), name, "--help") for name in COMMANDS}
    summary = run(str(fqsim), "-h").split("\n", 1)[0]
    return {
        "fqsim.1": fqsim_page(summary, helps, edition),
        "maltlink.1": maltlink_page(run(str(maltlink), "--help"), edition),
        "maltcove.3": maltcove_page(header, edition),
    }
