"""The places in Rattle that have the parameters of the scheduler: how they are read, kept, checked and explained."""
import re

from described.comparing import PARAMETERS, plain
from described.reading import Entry, equations, fields, file, variants
from described.tables import Unclear, number

PARAMS, PARAMS_SPEC = "crates/packet_core/src/params.rt", "crates/packet_core/specs/Params.antt"
WORDS, WORDS_SPEC = "crates/packet_core/src/words.rt", "crates/packet_core/specs/Words.antt"
PLAIN, PLAIN_SPEC = "crates/link_command/src/plain.rt", "crates/link_command/specs/PlainWords.antt"
# What tc prints after a value: `maltlink` reads it there.
KINDS = {"packets": "Packets", "bytes": "Bytes", "microseconds": "Time"}
# The variants of what is no number.
CHOSEN = {"ecn": {"ecn": "Mark", "noecn": "Drop"}, "classify": {"hash": "Hash", "dport": "Dport"}}


def variants_of(ranged):
    return plain(one.variant for one in ranged)


def type_of(one):
    """The type of its field: an `Option` where it may be off."""
    return f"Option<{one.type}>" if one.is_optional else one.type


def set_to(one):
    """Its default as Rattle has it."""
    if one.is_optional:
        return "None"
    return one.default if one.is_ranged else CHOSEN[one.name][one.default]


def as_set(text):
    """A value as Rattle has it, without the name of its type."""
    plain_number = number(text)
    return plain_number if plain_number is not None else text.rpartition("::")[2]


def check_names(checks, tables):
    """The enum of names, and the fields."""
    part = file(PARAMS)
    found = variants(part, "ParamName")
    checks.same(part, "ParamName", found, [(one.variant, (one.name, one.short)) for one in tables.ranged()], PARAMETERS)
    wanted = [(one.name, (type_of(one), one.text)) for one in tables.scheduler()]
    checks.same(part, "ParamFields", fields(part, "ParamFields"), wanted, PARAMETERS)


def check_defaults(checks, tables):
    """The defaults."""
    wanted = [(one.name, set_to(one)) for one in tables.scheduler()]
    part = file(PARAMS).inside(r"^impl ParamFields ").inside(r"^        ParamFields(?= \{)")
    found = part.entries(r"(?P<name>\w+): (?P<value>.+)", lambda match, item: as_set(match["value"]))
    checks.same(part, "the defaults", found, wanted, PARAMETERS)
    part = file(PARAMS_SPEC).inside(r"^standard_fields =\s+record")
    found = part.entries(r"(?P<name>\w+) = (?P<value>.+)", lambda match, item: as_set(match["value"]), ";")
    checks.same(part, "the defaults", found, wanted, PARAMETERS)


def tested(item):
    """The name, the least and the greatest value that a test of a range has, and the variant that it answers."""
    text = item.bare()
    names = set(re.findall(r"fields ?\.(\w+)", text))
    least, greatest = (re.search(rf" {sign} (1 << \d+|[\d_]+)", text) for sign in "<>")
    if len(names) != 1 or not greatest:
        raise Unclear(f"{item.where()}: no test of the range of one field: {text!r}")
    answer = re.search(r"Err\(ParamName::(\w+)\)", text)
    fact = (number(least[1]) if least else 0, number(greatest[1]), answer and answer[1])
    return Entry(names.pop(), fact, item.line(item.text.index("fields")))


def check_ranges(checks, tables):
    """The tests of the ranges, in their order, the definitions of the ranges, and the comments that name them."""
    ranged = tables.ranged()
    part = file(PARAMS).inside(r"^impl Params ").body("try_new").until(r"^        Ok\(Params")
    tests = re.finditer(r"        if .*?\n        \}\n", part.text, re.S)
    found = [tested(part.slice(match.start(), match.end())) for match in tests]
    wanted = [(one.name, (*one.range, one.variant)) for one in ranged]
    checks.same(part, "the tests of ranges", found, wanted, PARAMETERS)
    part = file(PARAMS_SPEC)
    pairs = [Entry(entry.name, tuple(int(n) for n in re.findall(r"\d+", entry.fact)), entry.line)
             for entry in equations(part, "range_of")]
    checks.same(part, "range_of", pairs, [(one.variant, one.range) for one in ranged], PARAMETERS)
    part = part.after(r"^ranged =").until(r"\n\n")
    checks.same(part, "ranged", part.matches(r"(?P<name>\w+) ∷"), variants_of(ranged), PARAMETERS)


def check_range_clauses(checks, tables):
    """What is said of each parameter's range, and the record of all."""
    part, ranged = file(PARAMS_SPEC), tables.ranged()
    found = part.matches(r"^Is(?P<name>\w+)InRange n = IsValueOf (?P<of>\w+) n$", "of")
    checks.same(part, "the ranges by name", found, [(one.variant, one.variant) for one in ranged], PARAMETERS)
    part = part.after(r"^pub record AreInRange [^\n]*\n").until(r"\n\n")
    found = part.matches(r"^  pub (?P<name>\w+) : (?P<is>.*)$", "is")
    wanted = [(one.name, f"IfSome p.{one.name} Is{one.variant}InRange" if one.is_optional
               else f"Is{one.variant}InRange p.{one.name}") for one in ranged]
    checks.same(part, "AreInRange", found, wanted, PARAMETERS)


ACCESSOR = (r"(?P<doc>(?:^    ///[^\n]*\n)+)^    pub fn (?P<name>\w+)\(&self\) -> (?P<type>\S+)\n"
            r"(?P<clauses>(?:        ensures [^\n]*\n)+)")


def accessor(match):
    """What a comment and the clauses of an accessor say: the type, the range in words, and the clause of the range."""
    doc = " ".join(line.strip(" /") for line in match["doc"].split("\n")).replace("1,000 seconds", "1,000,000,000")
    said = re.search(r"(?:from ([\d,]+) )?(?:up )?to (2\^40|\d[\d,]*)", doc)
    clause = re.search(r"ensures range \{ (?:IfSome result (\w+)|(\w+) result) \}", match["clauses"])
    return (match["type"], (number(said[1] or "0"), number(said[2])) if said else None,
            (clause[1] or clause[2]) if clause else None)


def check_accessors(checks, tables):
    """The functions that answer the parameters."""
    part = file(PARAMS).inside(r"^impl Params ")
    found = part.matches(ACCESSOR, accessor, r"^    pub fn \w+\(&self")
    wanted = [(one.name, (type_of(one), one.range if one.is_ranged else None,
                          f"Is{one.variant}InRange" if one.is_ranged else None)) for one in tables.scheduler()]
    checks.same(part, "the functions of Params", found, wanted, PARAMETERS)


def check_setting(checks, tables):
    """How a parameter is set to a value, by its name."""
    ranged = tables.ranged()
    part = file(PARAMS).body("with_value").inside(r"match name")
    found = part.entries(r"ParamName::(?P<name>\w+) => fields\.(?P<field>\w+) = (?P<value>.*)",
                         lambda match, item: (match["field"], match["value"]))
    values = {"u32": "u32::try_from(value).ok()?", "u64": "value"}
    wanted = [(one.variant, (one.name, f"Some({values[one.type]})" if one.is_optional else values[one.type]))
              for one in ranged]
    checks.same(part, "with_value", found, wanted, PARAMETERS)
    part = file(WORDS_SPEC)
    wanted = [(one.variant, f"record p {{ {one.name} = {'Some n' if one.is_optional else 'n'} }}") for one in ranged]
    checks.same(part, "with_value", equations(part, "with_value"), wanted, PARAMETERS)
    part = file(PARAMS_SPEC)
    wanted = [(one.variant, f"p.{one.name}" if one.is_optional else f"Some p.{one.name}") for one in ranged]
    checks.same(part, "value_of", equations(part, "value_of"), wanted, PARAMETERS)


def asked(one, word, enum, name):
    """What a word asks for, as the sources and the definitions have it."""
    if one.is_ranged:
        return enum["Ranged"].format(one.variant)
    return enum["Chosen"].format(CHOSEN[one.name][word]) if word in CHOSEN[one.name] else enum["Valued"].format(name)


def words_of(tables, enum):
    return [(word, asked(one, word, enum, one.variant)) for one in tables.scheduler() for word in one.words]


def check_words(checks, tables):
    """The words that name parameters."""
    enum = {"Ranged": "ParamWord::Valued(Parameter::Ranged(ParamName::{}))", "Chosen": "ParamWord::Ecn(EcnUse::{})",
            "Valued": "ParamWord::Valued(Parameter::{})"}
    part = file(WORDS).body("param_word").inside(r"match word")
    found = part.entries(r'(?:"(?P<name>\w+)" => Some\((?P<is>.*)\)|_ => None)', "is")
    checks.same(part, "param_word", [one for one in found if one.name], words_of(tables, enum), PARAMETERS, False)
    enum = {"Ranged": "Valued (parameter.Ranged {})", "Chosen": "Ecn ecn_use.{}", "Valued": "Valued parameter.{}"}
    part = file(WORDS_SPEC).after(r"^param_word_of word =").until(r"\n\n")
    found = part.matches(r'\(codes "(?P<name>[^"]*)"\) then Some \((?P<is>[^\n]*)\)$', "is", "codes")
    checks.same(part, "param_word_of", found, words_of(tables, enum), PARAMETERS, False)
    wanted = plain(word for one in tables.scheduler() for word in (*one.words, *one.choices))
    comment = file(WORDS).after(r"(?=^/// The parameters that words say)").until(r"^pub fn read_params")
    unit_names = ("us", "usec", "usecs", "ms", "msec", "msecs", "s", "sec", "secs", "ParamFault")
    told = {entry.name: entry for entry in comment.matches(r"`(?P<name>\w+)`") if entry.name not in unit_names}
    wanted = list(dict(wanted).items())
    checks.same(comment, "the comment of read_params", list(told.values()), wanted, PARAMETERS, False)


def check_values(checks, tables):
    """Whether a value is a number or a time, and what may be chosen."""
    ranged = tables.ranged()
    part = file(WORDS).body("amount").inside(r"match name")
    found = []
    for arm in part.items():
        names, _, reads = arm.bare().partition(" => ")
        kind = {"read_numeral(text)": "numeral", "time(text)": "time"}.get(reads, reads)
        found += [Entry(name, kind, arm.line(1)) for name in re.findall(r"ParamName::(\w+)", names)]
    wanted = [(one.variant, "time" if one.unit == "microseconds" else "numeral") for one in ranged]
    checks.same(part, "amount", found, wanted, PARAMETERS, False)
    part = file(WORDS_SPEC)
    found = [Entry(name, re.sub("_of text$", "", fact), line) for name, fact, line in equations(part, "amount_of")]
    checks.same(part, "amount_of", found, wanted, PARAMETERS)
    wanted = list(CHOSEN["classify"].items())
    if [name for name, _ in wanted] != next(one for one in tables.scheduler() if one.name == "classify").choices:
        raise Unclear("docs/tables/parameters.csv: classify has other values than the enum Classify of params.rt")
    arms = file(WORDS).inside(r"Parameter::Classify => match text")
    found = arms.matches(r'"(?P<name>\w+)" => Ok\(params\.with_classify\(Classify::(?P<is>\w+)\)\)', "is", "Ok")
    checks.same(arms, "with_text", found, wanted, PARAMETERS)
    part = part.after(r"^with_classify place text p =").until(r"\n\n")
    found = part.matches(r'\(codes "(?P<name>\w+)"\) then Ok \(record p \{ classify = (?P<is>\w+) \}\)', "is", "codes")
    checks.same(part, "with_classify", found, wanted, PARAMETERS)


def check_pasted(checks, tables):
    """The words that `maltlink` reads as tc prints them, and how a parameter is written."""
    wanted = [(one.name, KINDS.get(one.unit, "Other")) for one in tables.scheduler() if one.name in one.words]
    wanted = [(name, kind) for name, kind in wanted if name != "ecn"]
    part = file(PLAIN).body("kind_of").inside(r"match word")
    found = part.entries(r'(?:"(?P<name>\w+)" => Some\(ValueKind::(?P<is>\w+)\)|_ => None)', "is")
    checks.same(part, "kind_of", [one for one in found if one.name], wanted, PARAMETERS, False)
    part = file(PLAIN_SPEC).after(r"^value_kind_of word =").until(r"\n\n")
    found = part.matches(r'\(codes "(?P<name>\w+)"\) then Some (?P<is>\w+)$', "is", "codes")
    checks.same(part, "value_kind_of", found, wanted, PARAMETERS, False)
    part = file("crates/link_command/src/mistakes.rt").body("form_of").inside(r"match name")
    found = part.entries(r'(?:"(?P<name>\w+)" => Some\("(?P<is>[^"]*)"\)|_ => None)', "is")
    wanted = [(word, one.example if word == one.name else word) for one in tables.scheduler() for word in one.words]
    checks.same(part, "form_of", [one for one in found if one.name], wanted, PARAMETERS)


CHECKS = [check_names, check_defaults, check_ranges, check_range_clauses, check_accessors, check_setting, check_words,
          check_values, check_pasted]
