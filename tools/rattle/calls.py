"""Finds the calls that a function makes, by the types of what they are made on.

A body is read once, from its start to its end, and the type of each expression is found on the way: from fields,
signatures, patterns, and a few methods of std. So a method is found by the type that it is called on. Where that isn't
known it is the only method of its name in the crates below, and else it is `Unclear`.
"""
import dataclasses

from rattle.patterns import RANGE, Patterns
from rattle.sources import NUMBER, UNIT, Function, Item
from rattle.tokens import CLOSING, OPENING
from rattle.types import NEVER, STD, Unclear, either, inside, is_own, of_method, opaque

BOOL, VEC = ("bool", ()), ("[]", (None,))
# Functions of std that no file names before it uses them.
NAMED_NOWHERE = {"drop", "size_of"}
COMPARING = {"==", "!=", "<", ">", "<=", ">=", "&&", "||"}
JOINING = COMPARING | {"+", "-", "*", "/", "%", "&", "|", "^", "<<"}
ASSIGNING = {"=", "+=", "-=", "*=", "/=", "%=", "&=", "|=", "^="}


@dataclasses.dataclass
class Call:
    """A call of a function, and whether it is there for proofs alone."""
    function: Function
    is_for_proofs: bool


class Body(Patterns):
    """The body of a function, with the calls in it."""

    def __init__(self, types, function):
        super().__init__(function.body)
        self.types, self.function, self.known = types, function, types.sources.known_in(function)
        # `outer` is the function whose call ended last, `hint` what a closure is handed, `closed` what it gave.
        self.calls, self.outer, self.hint, self.closed = [], None, None, None
        self.variables = {"self": self.known.get("Self")}
        for pattern, written, _ in function.params:
            self.tokens, self.at = pattern, 0
            self.pattern(self.type_of(written))
        self.given = self.type_of(function.given)
        self.tokens, self.at = [("{", function.line), *function.body, ("}", function.line)], 0
        self.block()
        if self.at < len(self.tokens):
            raise Unclear(f"{function.file.path}:{self.line()}: `{self.peek()}` isn't expected there")

    def type_of(self, written):
        return self.types.sources.type(self.function.file, written, self.known)

    # Statements.

    def block(self):
        """A block, and the type of its last expression."""
        outer, self.variables, found = self.variables, dict(self.variables), UNIT
        self.next()
        while not self.take("}"):
            found = self.statement()
        self.variables, self.outer = outer, None
        return found

    def statement(self):
        """A statement. A call in it is for proofs where it changes nothing and nobody reads its result."""
        first, self.outer, is_unread, found = len(self.calls), None, True, UNIT
        if self.peek() == ";":
            pass
        elif self.take("const"):
            self.until(";")
        elif self.take("let"):
            is_unread = self.peek()[:1] == "_"
            self.bound()
            if self.take("else"):
                self.block()
        elif self.peek() in ("if", "match", "while", "for", "loop", "unsafe", "{"):
            found = self.first(True)
            if self.peek() in (".", "?"):
                found = self.behind(found)
            elif self.peek() not in (";", "}"):
                return UNIT
        else:
            found = self.expression()
        if not self.take(";"):
            return found
        if is_unread and self.outer and self.outer.changes_nothing():
            for call in self.calls[first:]:
                call.is_for_proofs |= call.function.changes_nothing()
        return NEVER if found == NEVER else UNIT

    # Expressions.

    def expression(self, structs=True):
        """An expression, and its type. `structs` says whether a brace behind a name begins a value of a struct."""
        found = RANGE if self.peek() in ("..", "..=") else self.operand(structs)
        while True:
            word = self.peek()
            if self.take("as"):
                found = self.type_of(self.type())
            elif self.take("..", "..="):
                if self.goes_on(structs):
                    self.operand(structs)
                found = RANGE
            elif self.take(*ASSIGNING):
                self.expression(structs)
                found = UNIT
            elif self.take(*JOINING):
                is_shift = word == ">" and self.take(">", ">=")
                self.operand(structs)
                found = BOOL if word in COMPARING and not is_shift else found
            else:
                return found
            self.outer = None

    def goes_on(self, structs):
        return self.peek() not in (")", "]", "}", ",", ";", "=>", "") and (structs or self.peek() != "{")

    def operand(self, structs=True):
        while self.take("&", "&&", "*", "-", "!", "mut"):
            pass
        return self.behind(self.first(structs))

    def first(self, structs):
        """What an expression begins with."""
        word = self.peek()
        reads = {"if": self.choice, "match": self.match, "for": self.loop, "while": self.loop, "loop": self.loop,
                 "|": self.closure, "||": self.closure, "move": self.closure, "{": self.block}
        if word in reads:
            return reads[word]()
        if self.take("unsafe"):
            return self.block()
        if self.take("true", "false"):
            return BOOL
        if self.take("let"):
            self.bound(False)
            return BOOL
        if self.take("return", "break", "continue"):
            if self.peek()[0] == "'":
                self.next()
            if self.goes_on(structs):
                self.expression(structs)
            self.outer = None
            return NEVER
        if self.take("(", "["):
            found = self.list_of(self.expression, ")" if word == "(" else "]")
            if word == "[":
                return "[]", tuple(found[:1] or [None])
            return found[0] if len(found) == 1 else ("()", tuple(found))
        if word[0].isdigit() or word[-1] in "\"'":
            self.next()
            return ("[]", (NUMBER,)) if word[:2] == 'b"' else STD if word[-1] == '"' else NUMBER
        return self.named(structs)

    def choice(self):
        """`if`, and what it gives."""
        self.next()
        self.expression(False)
        found = [self.block()]
        if self.take("else"):
            found.append(self.choice() if self.peek() == "if" else self.block())
        return either(found)

    def loop(self):
        word = self.next()
        if word == "for":
            self.bound()
        elif word == "while":
            self.expression(False)
        self.block()
        return NEVER if word == "loop" else UNIT

    def match(self):
        self.next()
        on, found = self.expression(False), []
        self.next()
        while not self.take("}"):
            outer, self.variables = self.variables, dict(self.variables)
            self.pattern(on)
            if self.take("if"):
                self.expression(False)
            self.next()
            found.append(self.block() if self.peek() == "{" else self.expression())
            self.take(",")
            self.variables = outer
        self.outer = None
        return either(found)

    def closure(self):
        """A closure, whose calls are those of the function that it stands in."""
        outer, self.variables, hint = self.variables, dict(self.variables), self.hint
        self.take("move")
        if not self.take("||"):
            self.next()
            while not self.take("|"):
                start = self.at
                self.one_pattern(hint)
                if self.take(":"):
                    kind, end, self.at = self.type_of(self.type()), self.at, start
                    self.one_pattern(kind)
                    self.at = end
                self.take(",")
        if self.take("->"):
            self.type()
        self.closed, self.variables = self.expression(), outer
        return STD

    def behind(self, found):
        """What follows a value: fields, methods, places in a list, and `?`."""
        while True:
            if self.take("?"):
                found = self.tried(found)
            elif self.take("."):
                name = self.next()
                found = self.called_on(found, name) if self.peek() in ("(", "::") else self.field(found, name)
            elif self.take("["):
                found = found if self.list_of(self.expression, "]") == [RANGE] else inside(found)
            elif self.take("("):
                self.list_of(self.expression, ")")
                found = None
            else:
                return found

    def field(self, found, name):
        for part in name.split("."):
            if is_own(found):
                found = self.types.field(found, found[0].fields[part])
            else:
                found = found[1][int(part)] if found and found[0] == "()" else found and STD
        self.outer = None
        return found

    def tried(self, found):
        """`?`: what is inside, and a call of `from` where it makes another fault of a fault."""
        self.outer = None
        if found and found[0] == "Result" and len(found[1]) == len(self.given[1]) == 2:
            fault, wanted = found[1][1], self.given[1][1]
            if fault and is_own(wanted) and wanted[0] is not fault[0]:
                self.record(self.clear(self.line(), self.types.of_type, wanted, "from", [fault]))
                self.outer = None
        return inside(found)

    # Names and calls.

    def path(self):
        """The words of a path. Arguments in angle brackets are left out."""
        found = [self.next()]
        while self.take("::"):
            if self.take("<"):
                self.list_of(self.argument, ">")
            else:
                found.append(self.next())
        return found

    def named(self, structs):
        """A variable, a constant, a value of a struct, a macro, or a call by a path."""
        if self.take("<"):
            kind = self.type_of(self.type())
            self.until("::")
            self.next()
            return self.called(self.next(), kind)
        path = self.path()
        if self.peek() == "!" and self.peek(1) in OPENING:
            return self.macro(path[-1])
        if len(path) == 1 and path[0] in self.variables:
            return self.variables[path[0]]
        if structs and self.peek() == "{" and path[-1][0].isupper():
            return self.made(path)
        return self.by_path(path)

    def macro(self, name):
        self.next()
        if name in ("unreachable", "panic", "todo"):
            self.group()
            return NEVER
        close = CLOSING[OPENING.index(self.next())]
        if name == "matches":
            self.expression()
            self.until(close)
            self.next()
            return BOOL
        is_in = self.take("in")
        found = self.list_of(self.expression, close)
        made = "[]", tuple(found[is_in:is_in + 1] or [None])
        return STD if name != "vec" else ("Result", (made, STD)) if is_in else made

    def made(self, path):
        """A value of a struct or of a variant."""
        kind = self.type_of((tuple(path), ()))
        if not isinstance(kind[0], Item) and len(path) > 1:
            kind = self.type_of((tuple(path[:-1]), ()))
        self.next()
        while not self.take("}"):
            if self.peek(1) == ":":
                self.at += 2
            if self.take("..") or self.peek(1) not in (",", "}") or self.peek(-1) == ":":
                self.expression()
            else:
                self.next()
            self.take(",")
        return kind

    def by_path(self, path):
        """What a path names, which isn't a variable: a function, a constant, a variant, or something of std's."""
        found = self.types.sources.find(self.function.file, path)
        kind = self.type_of((tuple(path[:-1]), ())) if len(path) > 1 else None
        if isinstance(found, Function):
            return self.called(found, None)
        if isinstance(found, Item):
            return self.built((found, ()) if found.kind == "struct" else self.types.field((found, ()), found.fields))
        if len(path) == 1 and path[0] in self.known:
            return self.built(self.known[path[0]])
        if is_own(kind) and isinstance(kind[0], Item) and kind[0].kind == "enum" and path[-1] in kind[0].fields:
            return self.built(kind)
        if is_own(kind) and not path[-1].isupper():
            return self.called(path[-1], kind)
        return self.of_std(path)

    def built(self, kind):
        """A value of that type, by its name or by a name and what is in it."""
        if self.take("("):
            self.list_of(self.expression, ")")
        return kind

    def of_std(self, path):
        """A name of std, and its call."""
        is_named = len(path) > 1 or path[0][0].isupper() or path[0] in self.function.file.uses
        if not is_named and path[0] not in NAMED_NOWHERE:
            raise Unclear(f"{self.function.file.path}:{self.line()}: `{path[0]}`, which isn't known there")
        if not self.take("("):
            return ("Option", (None,)) if path == ["None"] else STD
        args = self.list_of(self.expression, ")")
        self.outer, one = None, args[0] if args else None
        named = {"Some": ("Option", (one,)), "Ok": ("Result", (one, None)), "Err": ("Result", (None, one)),
                 "Vec": VEC if path[-1] == "new" else ("Result", (VEC, STD)),
                 "Box": ("Result", (args[-1] if args else None, STD))}
        return named.get(path[0], NUMBER if path[0][0] in "ui" and path[-1] == "from" else opaque(args))

    def called(self, what, on):
        """A call of a function, or of that name on a type. Named alone, it is handed to a call, and counts as one."""
        first, line = len(self.calls), self.line()
        args = self.list_of(self.expression, ")") if self.take("(") else []
        function = what if isinstance(what, Function) else self.clear(line, self.types.of_type, on, what, args)
        if function is None:
            self.outer = None
            return on if is_own(on) else opaque([on, *args])
        self.record(function)
        if self.calls[-1].is_for_proofs:
            for call in self.calls[first:]:
                call.is_for_proofs |= call.function.changes_nothing()
        return self.types.given(function, on)

    def called_on(self, found, name):
        """A call of a method on a value of that type."""
        if self.take("::"):
            self.next()
            self.list_of(self.argument, ">")
        function = self.clear(self.line(), self.types.by_name, self.function, name) if found is None else None
        if function or is_own(found):
            return self.called(function or name, found)
        outer, self.hint = self.hint, inside(found)
        args = self.list_of(self.expression, ")") if self.take("(") else []
        self.hint, self.outer = outer, None
        return None if found is None else of_method(found, name, args, self.closed)

    def record(self, function):
        self.calls.append(Call(function, self.types.does_nothing(function)))
        self.outer = function

    def clear(self, line, find, *what):
        """What is found, or a fault that names the place."""
        try:
            return find(*what)
        except Unclear as why:
            raise Unclear(f"{self.function.file.path}:{line}: {why}") from None
