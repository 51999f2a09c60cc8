"""The sources of the crates: what each file defines and uses, and what a name means there."""
import collections
import dataclasses
import pathlib
import re

from rattle.tokens import Reader, behind_group, tokens_of

TOP = pathlib.Path(__file__).resolve().parent.parent.parent
UNIT, NUMBER = ("()", ()), ("number", ())


@dataclasses.dataclass(eq=False)
class Function:
    """A function. Types are as they are written; `params` has for each its pattern, its type and whether it changes."""
    name: str
    file: "File"
    line: int
    generics: dict
    params: list
    takes_self: str
    given: tuple
    body: list
    doc: str
    owner: "Impl" = None

    def changes_nothing(self):
        """Whether what it is handed stays as it is, by its signature."""
        return self.takes_self in ("", "& self") and not any(changes for _, _, changes in self.params)


@dataclasses.dataclass(eq=False)
class Item:
    """A struct, an enum, a trait, a const or the name of a type. A const and such a name have a type as `fields`."""
    kind: str
    name: str
    file: "File"
    generics: dict
    fields: dict
    bounds: list = dataclasses.field(default_factory=list)
    functions: dict = dataclasses.field(default_factory=dict)


@dataclasses.dataclass(eq=False)
class Impl:
    """The functions of a type, for a trait or for none. A trait is one of its own, of which the type is the trait."""
    file: "File"
    generics: dict
    trait: tuple
    type: tuple
    functions: dict = dataclasses.field(default_factory=dict)


@dataclasses.dataclass(eq=False)
class Parameter:
    """A type that is a parameter, with the traits that it has."""
    traits: list


class File(Reader):
    """A source: what it defines, what it uses, and its implementations."""

    def __init__(self, path):
        text = path.read_text(encoding="utf-8")
        super().__init__(tokens_of(text))
        self.lines, self.path = text.split("\n"), path.relative_to(TOP)
        self.crate, self.items, self.uses, self.impls = self.path.parts[1], {}, {}, []
        readers = {"use": self.read_use, "struct": self.read_struct, "enum": self.read_enum, "trait": self.read_trait,
                   "impl": self.read_impl, "fn": self.read_fn, "const": self.read_const, "static": self.read_const,
                   "type": self.read_name}
        while self.at < len(self.tokens):
            readers.get(self.next(), lambda: None)()

    def read_use(self, path=()):
        while True:
            word = self.next()
            if word == "{":
                self.list_of(lambda: self.read_use(path), "}")
                return
            path = path if word == "self" and path else (*path, word)
            if not self.take("::"):
                break
        self.uses[self.next() if self.take("as") else path[-1]] = path

    def read_struct(self):
        name, generics = self.next(), self.generics()
        self.items[name] = Item("struct", name, self, generics, self.fields())

    def read_enum(self):
        name, generics, inside, found = self.next(), self.generics(), Reader(self.group()), {}
        while inside.at < len(inside.tokens):
            variant = inside.next()
            found[variant] = inside.fields()
            inside.until(",")
            inside.take(",")
        self.items[name] = Item("enum", name, self, generics, found)

    def read_trait(self):
        name, generics = self.next(), self.generics()
        item = Item("trait", name, self, generics, {}, self.bounds())
        item.functions = self.functions(Impl(self, generics, ((name,), ()), ((name,), ())))
        self.items[name] = item

    def read_impl(self):
        generics, trait, owner = self.generics(), None, self.type()
        if self.take("for"):
            trait, owner = owner, self.type()
        found = Impl(self, generics, trait, owner)
        found.functions = self.functions(found)
        self.impls.append(found)

    def functions(self, owner):
        """The functions in the braces that come next."""
        self.until("{")
        end, found = behind_group(self.tokens, self.at), {}
        self.at += 1
        while self.at < end:
            if self.next() == "fn":
                function = self.function(owner)
                found[function.name] = function
        return found

    def read_fn(self):
        function = self.function(None)
        self.items[function.name] = function

    def function(self, owner):
        line, name = self.tokens[self.at - 1][1], self.next()
        generics = {**(owner.generics if owner else {}), **self.generics()}
        inside, params, takes_self = Reader(self.group()), [], ""
        while inside.at < len(inside.tokens):
            pattern, start = inside.until(":", ","), inside.at + 1
            if inside.take(":"):
                kind = inside.type()
                params.append((pattern, kind, "mut" in (word for word, _ in inside.tokens[start:inside.at])))
            else:
                takes_self = " ".join(word for word, _ in pattern if word[0] != "'")
            inside.take(",")
        given = self.type() if self.take("->") else (("()",), ())
        self.until("{", ";")
        body = self.group() if self.peek() == "{" else None
        return Function(name, self, line, generics, params, takes_self, given, body, self.comment(line), owner)

    def comment(self, line):
        """The comment above a line."""
        at = line - 1
        while self.lines[at - 1].lstrip()[:2] in ("//", "#["):
            at -= 1
        return " ".join(one.strip(" /") for one in self.lines[at:line - 1])

    def read_const(self):
        if self.peek() == "fn":
            return
        name = self.next()
        if self.take(":"):
            self.items[name] = Item("const", name, self, {}, self.type())
        self.until(";")

    def read_name(self):
        name, generics = self.next(), self.generics()
        if self.take("="):
            self.items[name] = Item("type", name, self, generics, self.type())


class Sources:
    """All sources of the crates, and what their names mean."""

    def __init__(self):
        files = [File(path) for path in sorted((TOP / "crates").glob("*/src/**/*.rt"))]
        self.crates, self.impls, self.for_trait = (collections.defaultdict(list) for _ in range(3))
        for file in files:
            self.crates[file.crate].append(file)
        lines = (line.partition(":") for line in (TOP / "crates.txt").read_text(encoding="utf-8").split("\n"))
        self.below = {name.split()[0]: rest.split() for name, colon, rest in lines if colon and name[0] != "#"}
        for impl in (impl for file in files for impl in file.impls):
            self.impls[self.type(impl.file, impl.type, self.parameters(impl.file, impl.generics))[0]].append(impl)
            self.for_trait[impl.trait and self.find(impl.file, impl.trait[0])].append(impl)

    def find(self, file, path):
        """What a path means in a file: an item or a function, or None if it isn't one of the repository's."""
        first, rest = path[0], tuple(path[1:])
        if not rest and first in file.items:
            return file.items[first]
        if first in file.uses and file.uses[first][:2] != path[:2]:
            return self.find(file, file.uses[first] + rest)
        crate = file.crate if first == "crate" else first
        if crate not in self.crates or not rest:
            return None
        in_module = [one for one in self.crates[crate] if len(rest) > 1 and one.path.stem == rest[-2]]
        for one in in_module or self.crates[crate]:
            if rest[-1] in one.items:
                return one.items[rest[-1]]
        roots = [one for one in self.crates[crate] if one.path.stem == "lib" and rest[-1] in one.uses]
        return self.find(roots[0], roots[0].uses[rest[-1]]) if roots else None

    def type(self, file, written, known):
        """The type that is written there: what it is, and its arguments. `known` has the parameters, and Self."""
        path, args = written
        if len(path) == 1 and path[0] in known:
            return known[path[0]]
        args = tuple(self.type(file, one, known) for one in args)
        item = self.find(file, path)
        if isinstance(item, Item) and item.kind == "type":
            return self.type(item.file, item.fields, dict(zip(item.generics, args)))
        if isinstance(item, Item):
            return item, args
        return NUMBER if re.fullmatch(r"[ui](\d+|size)", path[-1]) else (path[-1], args)

    def parameters(self, file, generics):
        """The types that the parameters are: of each its traits are known."""
        found = {}
        for name, bounds in generics.items():
            traits = [self.find(file, bound[0]) for bound in bounds]
            found[name] = (Parameter([one for one in traits if one]), ())
        return found

    def known_in(self, function):
        """The types that the parameters and Self are in a function."""
        known, owner = self.parameters(function.file, function.generics), function.owner
        if owner:
            itself = self.type(function.file, owner.type, known)
            is_trait = isinstance(itself[0], Item) and itself[0].kind == "trait"
            known["Self"] = (Parameter([itself[0]]), ()) if is_trait else itself
        return known

    def has_no_bytes(self, kind):
        """Whether a type takes no memory: a struct of fields that take none."""
        item = kind[0]
        if not isinstance(item, Item) or item.kind != "struct" or not item.fields:
            return kind[0] == "PhantomData"
        fields = (self.type(item.file, one, {}) for one in item.fields.values())
        return all(self.has_no_bytes(one) for one in fields)
