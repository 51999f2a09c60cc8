"""The places in the queue disc for ns-3 and in the example of a router that have parameters, statistics and causes."""
import re

from described.comparing import CODES, COUNTS, PARAMETERS, plain
from described.counts import of_kind
from described.reading import Entry, file
from described.tables import number

DISC, DISC_HEADER = "ns3/maltcove-queue-disc.cc", "ns3/maltcove-queue-disc.h"
QUEUE, SHAPER, OVER_LINUX = (f"examples-c/shape/{name}" for name in ("queue.h", "shaper.c", "queue_linux.c"))
OVER_MALTCOVE = "examples-c/shape/queue_maltcove.c"


def of_ns3(tables):
    return [one for one in tables.scheduler() if one.ns3]


def attribute(item):
    """The name and the default of an attribute, and the range of its checker."""
    name, _, value, _, checker = (one.bare() for one in item.items())
    standard = re.fullmatch(r'\w+Value\((?:QueueSize\()?"?(.*?)"?\)*', value)[1]
    ends = re.search(r"\((.+), (.+)\)$", checker)
    ends = ends and tuple(number(re.sub(r"uint64_t\{1\}", "1", end)) for end in ends.groups())
    return Entry(name.strip('"'), (standard.replace("Time::Max(", "Time::Max()"), ends), item.line())


def wanted_range(one):
    """The range that an attribute's checker tests. Where 0 means something else here, it begins there."""
    if one.unit == "microseconds" or one.name == "limit" or not one.is_ranged:
        return None
    return (0 if one.ns3_default == "0" else one.least, one.greatest)


def check_attributes(checks, tables):
    """The attributes of the queue disc. Its seed is no parameter."""
    part = file(DISC)
    starts = [match.end() - 1 for match in re.finditer(r"\.AddAttribute\(", part.text)]
    found = [attribute(part.slice(start, len(part.text)).inside(r"\A", "(")) for start in starts]
    found = [one for one in found if one.name != "Perturbation"]
    wanted = [(one.ns3, (one.ns3_default, wanted_range(one))) for one in of_ns3(tables)]
    checks.same(part, "the attributes", found, wanted, PARAMETERS, False)
    for one in of_ns3(tables):
        value = number(one.ns3_default, one.unit) if one.is_ranged else None
        if value and value != one.default:
            checks.faults.append(f"{PARAMETERS}: {one.name} has another default as {one.ns3}: {one.ns3_default}")
    part = part.inside(r"^MaltcoveQueueDisc::Words\(\) const")
    checks.same(part, "the words", printed(part, tables), plain(said_words(tables)), PARAMETERS, False)


def printed(part, tables):
    """The words of parameters in the texts there, each once, without units and choices."""
    other = {"us", *(word for one in tables.scheduler() for word in one.choices if word not in one.words)}
    found = {word: Entry(word, None, part.line(match.start())) for match in re.finditer(r'"([^"]*)"', part.text)
             for word in match[1].split() if "%" not in word and word not in other}
    return list(found.values())


def said_words(tables):
    return [word for one in tables.scheduler() for word in one.words]


def check_reasons(checks, tables):
    """The reasons for drops and marks, and which cause and mark has which."""
    part = file(DISC_HEADER)
    found = part.matches(r"constexpr const char\* (?P<name>\w+) =")
    # Those that the disc has before the scheduler has the item.
    found = [one for one in found if one.name not in ("UNCLASSIFIED_DROP", "REFUSED_DROP")]
    checks.same(part, "the reasons", found, plain(one.ns3 for one in tables.codes if one.ns3), CODES, False)
    part = file(DISC)
    for kind, name in (("cause", "dropped[i].cause"), ("mark", "sent.mark")):
        first, other = [one for one in of_kind(tables, kind) if one.ns3]
        rest = part.after(rf"const bool byCodel = {re.escape(name)} == (?=MALTCOVE_{first.c};)").until(r"\);")
        found = rest.matches(r"byCodel \? (?P<name>\w+) : (?P<other>\w+)", "other")
        checks.same(rest, f"the reason of a {kind}", found, [(first.ns3, other.ns3)], CODES)


def check_shape_totals(checks, tables):
    """The statistics of the router's queues. Beside those of the scheduler it counts what was refused."""
    of_shape = [one for one in tables.counts if one.shape]
    part = file(QUEUE).inside(r"^struct queue_totals ")
    found = [one for one in part.matches(r"(?:uint64_t|,) (?P<name>\w+)") if one.name != "refused"]
    checks.same(part, "struct queue_totals", found, plain(one.shape for one in of_shape), COUNTS)
    part = file(OVER_MALTCOVE).inside(r"\*totals = \(struct queue_totals\)")
    found = part.entries(r"\.(?P<name>\w+) = \w+(?:\.|->)(?P<of>\w+)", "of")
    found = [one for one in found if one.name != "refused"]
    checks.same(part, "the totals", found, [(one.shape, one.name) for one in of_shape], COUNTS)
    part = file(SHAPER).after(r'(?=fprintf\(file, "  drop_codel)').until(r"\);")
    words = [word for word in re.findall(r"(\w+) %llu", part.text) if word != "refused"]
    values = [value for value in re.findall(r"totals\.(\w+)", part.text) if value != "refused"]
    found = [Entry(word, value, part.line()) for word, value in zip(words, values)]
    wanted = [(one.tc, one.shape) for one in of_shape if one.tc]
    checks.same(part, "the line of drops and marks", found, wanted, COUNTS, False)


def check_shape_fates(checks, tables):
    """The fates of packets, and which cause has which."""
    part = file(QUEUE).inside(r"^enum fate ")
    found = [one for one in part.names() if one.name not in ("FATE_SENT", "FATE_FLUSHED", "FATE_REFUSED")]
    causes = of_kind(tables, "cause")
    checks.same(part, "enum fate", found, plain(one.shape for one in causes), CODES)
    part = file(OVER_MALTCOVE)
    found = part.matches(r"\.cause == MALTCOVE_(?P<name>\w+) \? (?P<a>FATE_\w+) : (?P<b>FATE_\w+)",
                         lambda match: (match["a"], match["b"]), "MALTCOVE_BY_")
    checks.same(part, "the fate of a cause", found, [(causes[0].c, tuple(one.shape for one in causes))], CODES)
    part = file(OVER_LINUX).body_of_c("lose")
    found = part.matches(r"== (?P<name>FATE_\w+)\)\s+state->totals\.(?P<of>\w+)\+\+", "of")
    checks.same(part, "lose", found, [(one.shape, one.count) for one in causes], CODES, False)


def check_shape_words(checks, tables):
    """The parameters as the router prints them, as tc does: those of Linux are those of Maltcove that Linux has."""
    part = file(OVER_MALTCOVE).body_of_c("maltcove_kind_describe")
    wanted = plain(word for word in said_words(tables) if word != "noecn")
    checks.same(part, "the words", printed(part, tables), wanted, PARAMETERS, False)
    used = {name: Entry(name, None, part.line()) for name in re.findall(r"params\.(\w+)", part.text)}
    wanted = [name for one in tables.scheduler() for name in ([f"has_{one.c}"] if one.is_optional else []) + [one.c]]
    checks.same(part, "the parameters", list(used.values()), plain(wanted), PARAMETERS, False)


CHECKS = [check_attributes, check_reasons, check_shape_totals, check_shape_fates, check_shape_words]
