"""Patterns: the variables that they bind, and the types of these."""
from rattle.sources import NUMBER, Item
from rattle.tokens import CLOSING, Reader
from rattle.types import STD, inside, is_own

RANGE = ("Range", ())


class Patterns(Reader):
    """A reader of patterns. `Body` (`rattle/calls.py`) has what it reads expressions and types by."""

    def bound(self, structs=True):
        """A pattern, and what is bound to it. It is one of a condition without `structs`. The type is known first."""
        start, found = self.at, None
        self.until("=", ":", "in", ";")
        if self.take(":"):
            found = self.type_of(self.type())
        if self.take("="):
            value = self.expression() if structs else self.operand(False)
            found = found or value
        elif self.take("in"):
            found = self.each(self.expression(False))
        end, outer, self.at = self.at, self.outer, start
        self.pattern(found)
        self.at, self.outer = end, outer

    def each(self, found):
        """What a loop goes over, one after another."""
        if is_own(found):
            return self.called_on(found, "next")
        return NUMBER if found == RANGE else inside(found)

    def pattern(self, found):
        self.take("|")
        self.one_pattern(found)
        while self.take("|"):
            self.one_pattern(found)

    def one_pattern(self, found):
        while self.take("&", "&&", "mut", "ref"):
            pass
        word = self.next()
        if word in ("(", "["):
            is_tuple = found and found[0] == "()"
            self.parts(dict(enumerate(found[1])) if is_tuple else {}, STD if found == STD else inside(found), found)
        elif (word[0].islower() or word[0] == "_") and self.peek() not in ("::", "("):
            self.variables[word] = found
            if self.take("@"):
                self.pattern(found)
        elif word[0].isupper() or self.peek() == "::":
            path = [word]
            while self.take("::"):
                path.append(self.next())
            fields = self.payload(path, found)
            if self.take("(", "{"):
                self.parts(fields, STD if found == STD else None, found)
        elif word == "-":
            self.next()
        if self.take("..", "..=") and self.peek() not in (")", "]", "}", ",", "=>", "|"):
            self.next()

    def parts(self, fields, otherwise, whole):
        """The patterns inside of another one, by name or by place."""
        place = 0
        while not self.take(*CLOSING):
            name = self.peek(self.peek() in ("mut", "ref"))
            if self.peek(1) == ":":
                self.at += 2
                self.pattern(fields.get(name, otherwise))
            elif self.peek(1) == "@" and self.peek(2) == "..":
                self.variables[name] = whole
                self.at += 3
            elif not self.take(".."):
                self.pattern(fields.get(name, fields.get(place, otherwise)))
            place += 1
            self.take(",")

    def payload(self, path, found):
        """The types of the fields of a variant or a struct, by name or by place."""
        args = [*(found[1] if found else ()), None, None]
        if path[-1] in ("Some", "Ok", "Err") and len(path) == 1:
            return {0: STD if found == STD else args[path[-1] == "Err"]}
        kind = found if is_own(found) else self.type_of((tuple(path[:-1]) or (path[-1],), ()))
        if not isinstance(kind[0], Item):
            return {}
        fields = kind[0].fields.get(path[-1], {}) if kind[0].kind == "enum" else kind[0].fields
        return {int(name) if name.isdigit() else name: self.types.field(kind, one) for name, one in fields.items()}
