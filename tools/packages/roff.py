"""Texts as roff, for man(7): paragraphs that are filled, lines that stay as they are, terms with their texts."""
from __future__ import annotations

import re
from collections.abc import Iterable, Iterator

# Lines of which columns stand apart stay as they are.
GAP = re.compile(r"\S {2,}\S")


def escaped(line: str, is_code: bool = False) -> str:
    """A line as roff reads it back. In filled text a hyphen between letters is one, and all others are minus signs."""
    line = line.replace("\\", r"\e").replace("'", r"\(aq").replace("`", r"\(ga")
    line = line.replace("^", r"\(ha").replace("~", r"\(ti").replace('"', r"\(dq")
    line = line.replace("-", r"\-") if is_code else re.sub(r"(?<![A-Za-z0-9])-|-(?![A-Za-z0-9])", r"\\-", line)
    return r"\&" + line if line.startswith(".") else line


def indent(line: str) -> int:
    """How many blanks a line begins with."""
    return len(line) - len(line.lstrip(" "))


def blocks(lines: Iterable[str]) -> Iterator[list[str]]:
    """Lines that no empty line parts."""
    block: list[str] = []
    for line in [*lines, ""]:
        if line.strip():
            block.append(line)
        elif block:
            yield block
            block = []


def as_they_are(lines: list[str]) -> list[str]:
    """Lines that aren't filled. Wide ones begin further left, so that a terminal of 80 columns has them whole."""
    least = min(indent(line) for line in lines)
    plain = [escaped(line[least:], is_code=True) for line in lines]
    wide = max(len(line) - least for line in lines) > 69
    return [".PP", *([".in 1n"] if wide else [".RS 4n"]), ".nf", *plain, ".fi", *([".in"] if wide else [".RE"])]


def filled(lines: list[str]) -> list[str]:
    """The lines of a paragraph."""
    return [escaped(line.strip()) for line in lines]


def term(lines: list[str]) -> list[str]:
    """A term, and after it its text, of which lines that stand deeper stay as they are."""
    made = [".TP", ".B " + escaped(lines[0].strip(), is_code=True)]
    least = min(indent(line) for line in lines[1:])
    is_open = False
    for line in lines[1:]:
        is_deep = indent(line) > least
        if is_deep != is_open:
            made += [".RS 4n", ".nf"] if is_deep else [".fi", ".RE", ".br"]
            is_open = is_deep
        made.append(escaped(line.strip(), is_code=is_deep))
    return [*made, ".fi", ".RE"] if is_open else made


def is_term(block: list[str]) -> bool:
    """Whether a block is a term with its text: one line, and deeper ones after it."""
    return len(block) > 1 and all(indent(line) > indent(block[0]) for line in block[1:]) and not is_code(block)


def is_code(block: list[str]) -> bool:
    """Whether a block is columns or commands, and no text."""
    return block[0].lstrip().startswith("$ ") or any(GAP.search(line.lstrip()) for line in block)


def body(lines: Iterable[str], base: int, keep: bool = False) -> list[str]:
    """The text of a section whose paragraphs begin at a column. Deeper ones are code, and with `keep` all of them."""
    made: list[str] = []
    for block in blocks(lines):
        if keep or is_code(block):
            made += as_they_are(block)
        elif is_term(block):
            made += term(block)
        elif indent(block[0]) > base:
            made += as_they_are(block)
        else:
            made += [".PP", *filled(block)]
    return made


def title(name: str, section: int, date: str, version: str, manual: str) -> list[str]:
    """The first lines of a page."""
    return [r'.\" Written by tools/man-pages.',
            f'.TH {name.upper()} {section} "{date}" "Maltcove {version}" "{manual}"', ".nh", ".ad l"]


def page(lines: list[str]) -> str:
    """The text of a page. A paragraph that begins a section needs no macro."""
    made = [line for before, line in zip(["", *lines], lines)
            if not (line == ".PP" and before.startswith((".SH ", ".SS ")))]
    return "\n".join([*made, ""])
