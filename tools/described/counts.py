"""The places in Rattle that have the statistics: the structs, their definitions, and the copies between them."""
import re

from described.comparing import CODES, COUNTS, plain
from described.reading import Entry, as_number, equations, fields, file, only_names, only_types, variants
from described.tables import TOP

TOTALS, JOURNAL = "crates/journal_core/src/totals.rt", "crates/journal_core/src/journal.rt"
STATISTICS, BOOKS = "crates/journal_core/specs/Statistics.antt", "crates/journal_core/specs/Books.antt"
HISTORY = "crates/journal_core/specs/History.antt"
DISC, DISC_SPEC = "crates/queue_disc_core/src/totals.rt", "crates/queue_disc_core/specs/QueueDiscTotals.antt"
RECORDS, RECORDS_SPEC = "crates/maltcove_c/src/records.rt", "crates/maltcove_c/specs/Records.antt"
PACKETS, PACKETS_SPEC = "crates/link_report/src/packets.rt", "crates/link_report/specs/Packets.antt"
# The files that may add up drops. Other checks of the gate write into folders for builds, so these aren't among them.
SUMMED = ("crates/*/src/*.rt", "crates/*/specs/*.antt", "crates/*/proofs/**/*.antt", "crates/*/README.md", "c/*.h",
          "c/bench/*.c", "c/examples/*.c", "c/tests/*.c", "ns3/*.cc", "examples-c/shape/*.[ch]",
          "examples-c/shape/tests/*.c")
LITERAL, SPEC_LITERAL = r"(?P<name>\w+)(?:: .+)?", r"(?P<name>\w+) = .+"


def of_journal(tables):
    return [one for one in tables.counts if one.journal]


def counted(tables):
    return [one for one in tables.counts if one.journal == "counted"]


def literal(part, struct):
    """The fields of the one literal of a struct there."""
    inside = part.inside(rf"\b{struct}(?= \{{)")
    return inside, inside.names(LITERAL)


def record_of(part, pattern):
    """The fields of the record that a definition is."""
    inside = part.inside(pattern)
    return inside, inside.names(SPEC_LITERAL, ";")


def check_journal(checks, tables):
    """What a journal counts, and the statistics."""
    part = file(TOTALS)
    wanted = [(one.name, (one.type, one.text)) for one in of_journal(tables)]
    checks.same(part, "Totals", fields(part, "Totals"), wanted, COUNTS)
    part = file(JOURNAL)
    wanted = [(one.name, one.type) for one in counted(tables)]
    checks.same(part, "Counts", only_types(fields(part, "Counts")), wanted, COUNTS)
    inside, found = literal(part.body("try_over"), "Counts")
    checks.same(inside, "the counts of no event", found, plain(one.name for one in counted(tables)), COUNTS)


def check_journal_copies(checks, tables):
    """The statistics that are made of what a journal counts, and those of no event."""
    part = file("crates/sched_core/src/sched.rt").inside(r"\bTotals(?= \{\n)")
    found = part.entries(r"(?P<name>\w+): (?P<is>.+)", lambda match, item: match["is"].partition("counts.")[2])
    found = [Entry(name, fact if name in [one.name for one in counted(tables)] else None, line)
             for name, fact, line in found]
    wanted = [(one.name, one.name if one in counted(tables) else None) for one in of_journal(tables)]
    checks.same(part, "Sched::totals", found, wanted, COUNTS)
    part, found = literal(file("crates/monitor_core/src/publisher.rt").body("nothing_shown"), "Totals")
    checks.same(part, "the statistics of no event", found, plain(one.name for one in of_journal(tables)), COUNTS)


def check_definitions(checks, tables):
    """The definitions of the statistics, of what is counted, and of the bounds of the counts."""
    part, found = record_of(file(STATISTICS), r"^statistics events = record")
    checks.same(part, "statistics", found, plain(one.name for one in of_journal(tables)), COUNTS)
    part, found = record_of(file(BOOKS), r"^no_counts = record")
    checks.same(part, "no_counts", found, plain(one.name for one in counted(tables)), COUNTS)
    part = file(BOOKS).after(r"^pub record IsCounted [^\n]*\n").until(r"\n\n|\Z")
    found = part.matches(r"^  pub (?P<name>\w+) : c\.(?P<of>\w+) ≤ (?P<most>[^\n]*)$",
                         lambda match: (match["of"], match["most"]), "pub ")
    wanted = [(one.name, (one.name, "65535 * n" if one.unit == "bytes" else "n")) for one in counted(tables)]
    checks.same(part, "IsCounted", found, wanted, COUNTS)
    part = file(HISTORY).after(r"^pub record AreCounts [^\n]*\n").until(r"\n\n|\Z")
    found = part.matches(r"^  pub (?P<name>\w+) : counts\.(?P<a>\w+) ≡ \(statistics events\)\.(?P<b>\w+)$",
                         lambda match: (match["a"], match["b"]), r"\(statistics events\)")
    checks.same(part, "AreCounts", found, [(one.name, (one.name, one.name)) for one in counted(tables)], COUNTS)


def disc_text(one):
    return one.disc_text or one.text


def summed(match, item):
    """The statistics of which a sum is made: of earlier schedulers and of the one that goes on."""
    return set(re.findall(r"\b(?:past|now|self) ?\.(?!saturating)(\w+)", match["is"]))


def check_disc(checks, tables):
    """The statistics of a queue disc. The order of its fields is free: nothing is laid out by it."""
    names = plain(one.name for one in tables.counts)
    part = file(DISC)
    wanted = [(one.name, (one.type, disc_text(one))) for one in tables.counts]
    checks.same(part, "QueueDiscTotals", fields(part, "QueueDiscTotals"), wanted, COUNTS, False)
    inside = part.inside(r"^impl QueueDiscTotals").body("and").inside(r"\bQueueDiscTotals(?= \{)")
    found = inside.entries(r"(?P<name>\w+): (?P<is>.+)", summed)
    wanted = [(one.name, {one.name}) for one in tables.counts]
    checks.same(inside, "QueueDiscTotals::and", found, wanted, COUNTS, False)
    part = file(DISC_SPEC)
    inside = part.inside(r"^totals_by past now flushed_counts = record")
    found = inside.entries(r"(?P<name>\w+) = (?P<is>.+)", summed, ";")
    checks.same(inside, "totals_by", found, wanted, COUNTS, False)
    inside, found = record_of(part, r"^no_totals = record")
    checks.same(inside, "no_totals", found, names, COUNTS, False)


def check_flushed(checks, tables):
    """What a queue disc takes off the statistics of its scheduler, since it was flushed."""
    flushed = [one for one in tables.counts if one.flushed_as]
    names = [one.flushed_as for one in flushed]
    part = file(DISC)
    checks.same(part, "FlushedCounts", only_names(fields(part, "FlushedCounts")), plain(names), COUNTS)
    of = part.inside(r"^impl FlushedCounts")
    for function in ("none", "and"):
        inside, found = literal(of.body(function), "FlushedCounts")
        checks.same(inside, f"FlushedCounts::{function}", found, plain(names), COUNTS)
    part = file(DISC_SPEC)
    for name in ("nothing_flushed", "more_flushed flushed_counts before after"):
        inside, found = record_of(part, rf"^{name} = record")
        checks.same(inside, name.split()[0], found, plain(names), COUNTS)
    inside = part.after(r"^pub record IsFlushedWithin [^\n]*\n").until(r"\n\n|\Z")
    found = inside.matches(r"^  pub \w+ : flushed_counts\.(?P<name>\w+) ≤ now\.(?P<of>\w+)$", "of", "pub ")
    checks.same(inside, "IsFlushedWithin", found, [(one.flushed_as, one.name) for one in flushed], COUNTS)
    inside = part.after(r"^pub record HasGrown [^\n]*\n").until(r"\n\n|\Z")
    found = inside.matches(r"^  pub \w+ : before\.(?P<name>\w+) ≤ after\.(?P<of>\w+)$", "of", "pub ")
    checks.same(inside, "HasGrown", found, [(one.name, one.name) for one in flushed], COUNTS)


def check_records(checks, tables):
    """The statistics and the parameters as C reads them."""
    part = file(RECORDS)
    found = only_types(fields(part, "MaltcoveTotals"))
    checks.same(part, "MaltcoveTotals", found, [(one.name, one.type) for one in tables.counts], COUNTS)
    inside = part.body("totals_of").inside(r"MaltcoveTotals(?= \{)")
    copied = [(one.name, one.name) for one in tables.counts]
    found = inside.entries(r"(?P<name>\w+): totals\.(?P<of>\w+)", "of")
    checks.same(inside, "totals_of", found, copied, COUNTS)
    inside = file(RECORDS_SPEC).inside(r"^totals_told t = record")
    found = inside.entries(r"(?P<name>\w+) = t\.(?P<of>\w+)", "of", ";")
    checks.same(inside, "totals_told", found, copied, COUNTS)


def of_kind(tables, kind):
    return [one for one in tables.codes if one.of == kind]


def check_codes(checks, tables):
    """The causes of drops and the kinds of marks: their names, words and numbers."""
    for kind, enum, path in (("cause", "Cause", "crates/journal_core/src/event.rt"),
                             ("mark", "Mark", "crates/codel_core/src/served.rt")):
        codes = of_kind(tables, kind)
        part = file(path)
        checks.same(part, enum, only_names(variants(part, enum)), plain(one.name for one in codes), CODES)
        part = file("crates/text_core/src/words.rt").body(f"{kind}_name").inside(rf"match {kind}")
        found = part.entries(rf'{enum}::(?P<name>\w+) => b"(?P<is>\w*)"', "is")
        checks.same(part, f"{kind}_name", found, [(one.name, one.word) for one in codes], CODES)
        part = file("crates/text_core/specs/Texts.antt")
        found = [Entry(name.removeprefix("cause."), re.sub(r'^codes "|"$|^\[\]$', "", fact), line)
                 for name, fact, line in equations(part, f"{kind}_name")]
        checks.same(part, f"{kind}_name", found, [(one.name, one.word) for one in codes], CODES)
        part = file(RECORDS).body(f"{kind}_code").inside(rf"match {kind}")
        found = part.entries(rf"{enum}::(?P<name>\w+) => (?P<is>\d+)", as_number)
        checks.same(part, f"{kind}_code", found, [(one.name, one.number) for one in codes], CODES)
        part = file(RECORDS_SPEC)
        found = [Entry(name, int(fact), line) for name, fact, line in equations(part, f"{kind}_code")]
        checks.same(part, f"{kind}_code", found, [(one.name, one.number) for one in codes], CODES)


def check_counting(checks, tables):
    """Which count each cause and each mark is counted in."""
    part = file(JOURNAL)
    for kind, enum, of in (("cause", "Cause", "drop"), ("mark", "Mark", "send")):
        arms = part.inside(r"^impl<K: Recorder> Journal<K> ").body(of).inside(rf"match (?:served\.)?{kind}")
        found = arms.entries(rf"{enum}::(?P<name>\w+) => (?:self\.counts\.(?P<is>\w+) \+= 1|\{{ ?\}})",
                             lambda match, item: match["is"] or "")
        checks.same(arms, f"Journal::{of}", found, [(one.name, one.count) for one in of_kind(tables, kind)], CODES)
    part = file(BOOKS)
    for kind, record in (("cause", "count_dropped c len cause"), ("mark", "count_sent c len mark")):
        inside = part.inside(rf"^{record} = record c")
        sum_of = rf"(?P<name>\w+) = c\.(?P=name) \+ (?P<is>1|len|\w+_of(?= {kind}))(?: {kind})?"
        added = inside.entries(sum_of, "is", ";")
        found = [Entry(name, count, line) for count, of, line in added if of not in ("1", "len")
                 for name in [name for name, fact, _ in equations(part, of) if fact == "1"] or [of]]
        wanted = [(one.name, one.count) for one in of_kind(tables, kind) if one.count]
        checks.same(inside, record.split()[0], found, wanted, CODES, False)
    part = file(STATISTICS)
    for code in tables.codes:
        function, event = (f"is_{code.word}_drop", "Dropped id moment") if code.of == "cause" else \
            (f"is_{code.count}", "Sent id moment ecn")
        if code.count:
            found = part.matches(rf"^{function} \({event} (?P<name>\w+)\) = (?P<is>\w+)$", "is")
            wanted = [(one.name, "true" if one == code else "false") for one in of_kind(tables, code.of)]
            checks.same(part, function, found, wanted, CODES)


def check_fates(checks, tables):
    """By which fate of a packet a table counts it for a cause."""
    part, spec, causes = file(PACKETS), file(PACKETS_SPEC), of_kind(tables, "cause")
    for code in causes:
        arms = part.body(f"is_{code.word}_drop")
        found = arms.matches(r"cause: Cause::(?P<name>\w+),\s+\.\.\s+\} => (?P<is>\w+)", "is")
        checks.same(arms, f"is_{code.word}_drop", found, [(code.name, "true")], CODES)
        found = spec.matches(rf"^is_{code.word} \(Dropped at (?P<name>\w+)\) = (?P<is>\w+)$", "is")
        wanted = [(one.name, "true" if one == code else "false") for one in causes]
        checks.same(spec, f"is_{code.word}", found, wanted, CODES)


def check_sums(checks, tables):
    """The sums of drops in clauses, code and proofs: where the first cause is added to other counts, all causes are."""
    causes, counts = [one.count for one in of_kind(tables, "cause")], [one.name for one in tables.counts]
    for path in sorted({path for files in SUMMED for path in TOP.glob(files)}):
        part = file(str(path.relative_to(TOP)))
        for match in re.finditer(rf"\b{causes[0]}\s*\+[^;,}}≡×]*", part.text):
            names = [name for name in dict.fromkeys(re.findall(r"\w+", match[0])) if name in counts]
            found = [Entry(name, None, part.line(match.start())) for name in names if name in causes]
            if len(names) > 1:
                checks.same(part, "the sum of drops", found, plain(causes), CODES)


def check_cases(checks, tables):
    """What has several cases by a cause or a mark has one for each. A proof may leave out marks that can't be."""
    for kind, files in (("cause", "crates/*/specs/*.antt"), ("cause", "crates/*/proofs/**/*.antt"),
                        ("mark", "crates/*/specs/*.antt")):
        codes = [one.name for one in of_kind(tables, kind)]
        case = re.compile(rf"^ *(\w+) [^=\n]*?\b({'|'.join(codes)})\b[^=\n:]*= ", re.M)
        for path in sorted(TOP.glob(files)):
            part, cases = file(str(path.relative_to(TOP))), {}
            for match in case.finditer(part.text):
                cases.setdefault(match[1], {})[match[2]] = Entry(match[2], None, part.line(match.start()))
            for name, found in cases.items():
                if len(found) > 1:
                    checks.same(part, f"the cases of {name}", list(found.values()), plain(codes), CODES)


CHECKS = [check_journal, check_journal_copies, check_definitions, check_disc, check_flushed, check_records, check_codes,
          check_counting, check_fates, check_sums, check_cases]
