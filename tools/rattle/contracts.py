"""The contracts of the public functions: the first sentence, the signature and the clauses of each."""
import dataclasses
import re
import textwrap

from rattle.sources import TOP, Item, Sources
from rattle.tokens import CLOSING, OPENING, TOKEN

EXPORTED_FROM = re.compile(r"^pub use (\w+)::(\w+)?(?:\{([^}]*)\})?;", re.M)
EXPORTED_MODULE = re.compile(r"^pub mod (\w+);", re.M)
PUBLIC = re.compile(r"\s*pub (?!\()")


@dataclasses.dataclass(frozen=True)
class Clause:
    """A clause: `requires` or `ensures`, its name or none, and its text with both."""
    kind: str
    name: str
    text: str


@dataclasses.dataclass(eq=False)
class Contract:
    """A public function: its name behind that of its type, trait or module, and what its source says of it."""
    crate: str
    name: str
    path: str
    said: str
    signature: str
    clauses: list

    def names(self):
        """The names of what it ensures, with an empty one for a clause without a name."""
        return [clause.name for clause in self.clauses if clause.kind == "ensures"]


def signature_and_clauses(text):
    """What a text that begins with a function says of it before its body: its signature, and its clauses."""
    found, depth, tokens = [], 0, [one for one in TOKEN.finditer(text) if one.lastgroup not in (None, "comment")]
    at, end = next(i for i, one in enumerate(tokens) if one.group() == "fn"), None
    while depth or tokens[at].group() not in ("{", ";"):
        if depth == 0 and tokens[at].group() in ("requires", "ensures"):
            end = end or tokens[at].start()
            at = read_clause(text, tokens, at, found)
        else:
            depth += (tokens[at].group() in OPENING) - (tokens[at].group() in CLOSING)
            at += 1
    return dedented(text, 0, end or tokens[at].start()).strip(), found


def read_clause(text, tokens, start, found):
    """Adds the clause that begins at a token, and gives the place behind it."""
    at = start
    while tokens[at].group() != "{":
        at += 1
    name = tokens[at - 1].group() if tokens[at - 1].lastgroup == "word" and at - 1 > start else ""
    end = end_of_group(tokens, at)
    clause = dedented(text, tokens[start].start(), tokens[end - 1].end())
    found.append(Clause(tokens[start].group(), name, clause))
    return end


def end_of_group(tokens, at):
    """The place behind the group that opens at a token."""
    depth = 0
    while True:
        depth += (tokens[at].group() in OPENING) - (tokens[at].group() in CLOSING)
        at += 1
        if depth == 0:
            return at


def dedented(text, start, end):
    """A part of a text, without what all its lines have at their left and without lines of comments."""
    begin = text.rfind("\n", 0, start) + 1
    lines = (line for line in text[begin:end].split("\n") if not line.lstrip().startswith("//"))
    return textwrap.dedent("\n".join(lines))


def first_sentence(lines, line):
    """The first sentence of the comment above a line."""
    at = line - 1
    while lines[at - 1].lstrip()[:2] in ("//", "#["):
        at -= 1
    said = " ".join(one.strip()[3:].strip() for one in lines[at:line - 1] if one.lstrip().startswith("///"))
    return re.split(r"(?<=[.!?])\s+(?=[A-Z`])", said)[0]


def exported(file):
    """The names that a crate's root makes public, and its public modules."""
    text, names = (TOP / file.path).read_text(encoding="utf-8"), set()
    for _, one, several in EXPORTED_FROM.findall(text):
        names.update(re.findall(r"\w+", several or one))
    return names, set(EXPORTED_MODULE.findall(text))


def public_functions(files):
    """The public functions of a crate's files, each with the name by which callers know it."""
    names, modules = exported(next(file for file in files if file.path.stem == "lib"))
    for file in files:
        prefix = f"{file.path.stem}::" if file.path.stem in modules else ""
        is_public = file.path.stem in modules
        for item in file.items.values():
            if isinstance(item, Item) and item.kind == "trait" and (is_public or item.name in names):
                yield from ((f"{prefix}{item.name}::{one.name}", one) for one in item.functions.values())
            elif not isinstance(item, Item) and (is_public or item.name in names or is_of_c(file, item)):
                yield prefix + item.name, item
        for impl in (impl for impl in file.impls if impl.trait is None):
            owner = impl.type[0][-1]
            if is_public or owner in names:
                yield from ((f"{prefix}{owner}::{one.name}", one) for one in impl.functions.values()
                            if PUBLIC.match(file.lines[one.line - 1]))


def is_of_c(file, function):
    """Whether C calls a function."""
    return 'extern "C"' in file.lines[function.line - 1]


def contracts():
    """The contracts of each crate's public functions, in the order of `crates.txt` and of the files."""
    sources, found = Sources(), {}
    for crate in sources.below:
        files = sources.crates[crate]
        if any(file.path.stem == "lib" for file in files):
            functions = sorted(public_functions(files), key=lambda pair: (pair[1].file.path, pair[1].line))
            found[crate] = [contract_of(crate, name, one) for name, one in functions]
    return found


def contract_of(crate, name, function):
    """A function's contract, as its source has it."""
    lines = function.file.lines
    text = "\n".join(lines[function.line - 1:])
    said = first_sentence(lines, function.line)
    return Contract(crate, name, str(function.file.path), said, *signature_and_clauses(text))
