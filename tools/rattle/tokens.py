"""The tokens of a source, and the reading of them: types, their parameters, and fields.

Contracts and whatever else proofs alone read are left out before anything is read. It knows as much of the language as
the sources of this repository use.
"""
import re

TOKEN = re.compile(r"""\s+|(?P<comment>//[^\n]*|/\*.*?\*/)|(?P<text>b?r?"(?:\\.|[^"\\])*"|b?'(?:\\.[^']*|[^\\'\n])')"""
                   r"""|(?P<word>[^\W\d]\w*)|(?P<number>\d(?:\w|\.(?=\d))*)|(?P<life>'\w+)"""
                   r"""|(?P<sign>::|->|=>|==|!=|<=|>=|&&|\|\||\.\.=|\.\.|<<|[-+*/%&|^]=|.)""", re.S)
OPENING, CLOSING = ("(", "[", "{"), (")", "]", "}")


def behind_group(tokens, at):
    """The place behind the token there, and where it opens a group, behind that."""
    depth = 0
    while True:
        depth += (tokens[at][0] in OPENING) - (tokens[at][0] in CLOSING)
        at += 1
        if depth <= 0:
            return at


def tokens_of(text):
    """The tokens of a source, each with its line, without comments and without what proofs alone read."""
    found, line = [], 1
    for match in TOKEN.finditer(text):
        if match.lastgroup not in (None, "comment"):
            found.append((match.group(), line))
        line += match.group().count("\n")
    kept, at = [], 0
    while at < len(found):
        word, behind = found[at][0], found[at + 1][0] if at + 1 < len(found) else ""
        if word in ("requires", "ensures") or (word == "prove" and behind == "!"):
            at = behind_group(found, next(i for i in range(at, len(found)) if found[i][0] in OPENING))
        elif word == "ghost":
            while found[at][0] not in (";", ","):
                at = behind_group(found, at)
            at += 1
        elif word == "#" and behind in ("[", "!"):
            at = behind_group(found, at + 1 if behind == "[" else at + 2)
        else:
            kept.append(found[at])
            at += 1
    return kept


class Reader:
    """Tokens, and a place among them."""

    def __init__(self, tokens):
        self.tokens, self.at = tokens, 0

    def peek(self, ahead=0):
        return self.tokens[self.at + ahead][0] if self.at + ahead < len(self.tokens) else ""

    def line(self):
        return self.tokens[min(self.at, len(self.tokens) - 1)][1]

    def next(self):
        self.at += 1
        return self.tokens[self.at - 1][0]

    def take(self, *words):
        """Whether one of the words comes next. If so it is read."""
        is_next = self.at < len(self.tokens) and self.peek() in words
        self.at += is_next
        return is_next

    def group(self):
        """The tokens inside of the group that comes next, which is read."""
        start, self.at = self.at, behind_group(self.tokens, self.at)
        return self.tokens[start + 1:self.at - 1]

    def until(self, *words):
        """The tokens up to one of the words, over whole groups."""
        start = self.at
        while self.at < len(self.tokens) and self.peek() not in words:
            self.at = behind_group(self.tokens, self.at)
        return self.tokens[start:self.at]

    def list_of(self, read, close):
        """What `read` reads between commas, up to that word."""
        found = []
        while not self.take(close):
            found.append(read())
            self.take(",", ";")
        return found

    def type(self):
        """A type as it is written: the words of its path, and its arguments. References and boxes are left out."""
        while self.peek() in ("&", "&&", "*", "mut", "const", "dyn", "impl") or self.peek()[:1] == "'":
            self.next()
        if self.take("("):
            inside = self.list_of(self.type, ")")
            return inside[0] if len(inside) == 1 else (("()",), tuple(inside))
        if self.peek() == "[":
            return ("[]",), (Reader(self.group()).type(),)
        if self.take("<"):
            self.until(">")
            self.at += 2
        path, args = [self.next()], ()
        while self.take("::") and self.peek() != "<":
            path.append(self.next())
        if self.take("<"):
            args = tuple(one for one in self.list_of(self.argument, ">") if one)
        if self.peek() == "(":
            self.group()
        if self.take("->"):
            self.type()
        return args[0] if path[-1] == "Box" and args else (tuple(path), args)

    def argument(self):
        """An argument or a bound of a type, and nothing for a lifetime."""
        if self.peek()[:1] == "'":
            self.next()
            return None
        if self.peek(1) == "=":
            self.at += 2
        return self.type()

    def generics(self):
        """The parameters between angle brackets, each with its bounds."""
        found = {}
        if not self.take("<"):
            return found
        while not self.take(">"):
            self.take("const")
            name, bounds = self.next(), self.bounds()
            if self.take("="):
                self.type()
            self.take(",")
            if name[0] != "'":
                found[name] = bounds
        return found

    def bounds(self):
        found = []
        while self.take(":", "+"):
            found.append(self.argument())
        return [one for one in found if one]

    def fields(self):
        """The fields that come next, by name or by place, each with its type."""
        inside = Reader(self.group()) if self.peek() in ("{", "(") else Reader([])
        found = {}
        while inside.at < len(inside.tokens):
            if inside.take("pub"):
                if inside.peek() == "(" and inside.peek(1) == "crate":
                    inside.group()
                continue
            name = inside.next() if inside.peek(1) == ":" else str(len(found))
            inside.take(":")
            found[name] = inside.type()
            inside.take(",")
        return found
