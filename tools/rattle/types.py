"""Which function a method is, and which type std's methods give. A type is what it is and its arguments.

`None` is an unknown type. `STD` is one of std or of a library, in which nothing of the repository is.
"""
import re

from rattle.sources import NUMBER, UNIT, Item, Parameter

# The body and the comment of a function that does nothing at run time.
EMPTY, NOTHING_RUNS = re.compile(r"(let _\w* = [&\w. ]+;)?"), re.compile(r"nothing (at run time|when it runs)")
STD, NEVER = ("std", ()), ("!", ())
# Methods of std, by what they give: the same type, what is inside, or an `Option` of what is inside.
SAME = set("as_ref as_mut as_slice by_ref clone cloned copied filter iter iter_mut rev skip take take_while".split())
INSIDE = set("expect unwrap unwrap_or unwrap_or_default unwrap_or_else into_inner".split())
OPTION = set("find first get get_mut last next ok peek pop pop_back pop_front".split())
# Methods that give what the closure that they are handed gives, inside of the same type or alone.
MAPPING, GIVING = {"map"}, {"and_then", "is_some_and", "map_or", "ok_or_else", "then"}
# Methods that a type has without writing them.
DERIVED = set("clone cmp default eq fmt hash ne partial_cmp".split())


class Unclear(Exception):
    """A call whose function isn't found."""


def is_own(kind):
    """Whether a type is one of the repository, or a parameter."""
    return kind is not None and isinstance(kind[0], (Item, Parameter))


def opaque(kinds):
    """What std gives for these types: a type of its own, or an unknown one where one of the repository goes in."""
    left = list(kinds)
    while left:
        one = left.pop()
        if one is None or is_own(one):
            return None
        left += one[1]
    return STD


def inside(found):
    """What a list or an `Option` holds."""
    if found in (None, STD, NUMBER):
        return found
    return found[1][0] if found[1] and not is_own(found) else None


def either(found):
    """The type of several ways: that of one which ends, and of which most is known."""
    ending = [one for one in found if one != NEVER]
    whole = [one for one in ending if one and None not in one[1]]
    return (whole or [one for one in ending if one] or ending or [NEVER])[0]


def of_method(found, name, args, closed):
    """What a method of std gives. `closed` is what its closure gives."""
    if found == NUMBER or name in SAME:
        return found
    if name in INSIDE:
        return inside(found)
    if name in OPTION:
        return "Option", (inside(found),)
    if name in GIVING:
        return closed
    if name in MAPPING:
        return found[0], (closed, *found[1][1:])
    if name == "map_err":
        return found[0], (inside(found), closed)
    if name == "ok_or":
        return "Result", (inside(found), args[0])
    if name.startswith("reserve"):
        return "Result", (UNIT, ("AllocError", ()))
    return opaque([found, *args])


class Types:
    """The methods of types, where `for_trait` names the type that stands for each trait."""

    def __init__(self, sources, for_trait):
        self.sources, self.for_trait, self.found_by_name = sources, for_trait, []

    def field(self, found, written):
        """The type of a field of a struct or a variant, which is written that way."""
        item, args = found
        known = {**self.sources.parameters(item.file, item.generics), **dict(zip(item.generics, args))}
        return self.sources.type(item.file, written, known)

    def given(self, function, on):
        """What a function gives, called on that type."""
        known = self.sources.known_in(function)
        if on and function.owner and isinstance(on[0], Item):
            for written, one in zip(function.owner.type[1], on[1]):
                if written[0][0] in function.owner.generics:
                    known[written[0][0]] = one
        return self.sources.type(function.file, function.given, known)

    def of_type(self, found, name, args):
        """The function of that name of a type, or None where it is one of std's."""
        if isinstance(found[0], Parameter):
            return self.of_traits(found[0].traits, name)
        if not isinstance(found[0], Item):
            return None
        if found[0].kind == "trait":
            return self.of_traits([found[0]], name)
        impls = [one for one in self.sources.impls[found[0]] if name in one.functions]
        candidates = [one for one in impls if one.trait is None] or impls
        if len(candidates) > 1 and args:
            candidates = [one for one in candidates if self.takes(one.functions[name], args[0])]
        if len(candidates) == 1:
            return candidates[0].functions[name]
        if not candidates and name in DERIVED:
            return None
        raise Unclear(f"`{name}` of `{found[0].name}` has {len(candidates)} functions")

    def takes(self, function, kind):
        """Whether a function takes that type first."""
        first = self.sources.type(function.file, function.params[0][1], self.sources.known_in(function))
        return kind is not None and first[0] == kind[0]

    def of_traits(self, traits, name):
        """The function of that name of the first trait that has it, for the type that stands for the trait."""
        left = list(traits)
        while left:
            trait = left.pop(0)
            if name in trait.functions:
                wanted = self.for_trait.get(trait.name)
                impls = [one for one in self.sources.for_trait[trait] if one.type[0][-1] == wanted]
                if len(impls) != 1:
                    raise Unclear(f"`{name}` of the trait `{trait.name}`: no one type stands for it")
                return impls[0].functions.get(name, trait.functions[name])
            bounds = (self.sources.find(trait.file, bound[0]) for bound in trait.bounds)
            left += [bound for bound in bounds if bound]
        return None

    def by_name(self, function, name):
        """The only method of that name in the crate of a function and those below it, or None where there is none."""
        crates = [function.file.crate, *self.sources.below[function.file.crate]]
        impls = (impl for one in crates for file in self.sources.crates.get(one, []) for impl in file.impls)
        found = [impl.functions[name] for impl in impls if name in impl.functions and impl.functions[name].takes_self]
        if len(found) > 1:
            raise Unclear(f"`{name}` on something of unknown type, and {len(found)} types have it")
        self.found_by_name += [(function, name)] if found else []
        return found[0] if found else None

    def does_nothing(self, function):
        """Whether a function does nothing at run time, and is there for proofs alone."""
        words = " ".join(word for word, _ in function.body or ())
        known = self.sources.known_in(function)
        kinds = [self.sources.type(function.file, function.given, known), *([known["Self"]] if function.owner else [])]
        return bool(EMPTY.fullmatch(words) or NOTHING_RUNS.search(function.doc)
                    or any(self.sources.has_no_bytes(one) for one in kinds))
