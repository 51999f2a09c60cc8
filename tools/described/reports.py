"""The rows of reports and the tables of maltlink: what writes them, what defines them, and who reads them in help."""
import re

from described.comparing import CODES, COLUMNS, COUNTS, plain
from described.counts import of_journal, of_kind
from described.manuals import FQSIM, FQSIM_SHOWN, LOCKED_SHOWN, MALTLINK
from described.reading import Entry, fields, file, only_names, only_types
from described.tables import Unclear

REPORT, REPORT_SPEC = "crates/trace_core/src/report.rt", "crates/trace_core/specs/Report.antt"
TUPLES = "crates/journal_core/src/tuple_rows.rt"
SUMMARY, DIGITS_SPEC = "crates/link_report/src/summary.rt", "crates/link_report/specs/SummaryFields.antt"
SUMMARIES_SPEC = "crates/link_report/specs/Summaries.antt"
FLOWS, FLOWS_SPEC = "crates/link_report/src/flows.rt", "crates/link_report/specs/FlowTables.antt"
HEADERS = [("flows", FLOWS, FLOWS_SPEC),
           ("packets", "crates/link_report/src/packet_rows.rt", "crates/link_report/specs/PacketTables.antt"),
           ("series", "crates/link_report/src/series.rt", "crates/link_report/specs/SeriesTables.antt")]
# What a row of a five-tuple has before its counts.
TUPLE = ["PROTO", "SRC", "DST", "SPORT", "DPORT", "FLOW"]


def tuple_counts(tables):
    """The counts of a row of a five-tuple: causes of drops have one together."""
    return list(dict.fromkeys(one.tuple for one in tables.counts if one.tuple))


def monitor_counts(tables):
    """Those of a monitor's line, likewise, in its order."""
    return list(dict.fromkeys(one.monitor for one in tables.counts if one.monitor))


def row_names(text, first):
    """The names of a row that is shown as `first,NAME,NAME`."""
    return re.sub(r"\s+", "", text).removeprefix(f"{first},").split(",")


def totals_names(tables):
    return [one.row for one in of_journal(tables)]


def shown_row(part, first, ends):
    """The names of the row that is shown there, from `first,` to the text that ends it."""
    rest = part.after(rf"(?=\b{first},[A-Z_]+,[A-Z_]+,\s*[A-Z_]+,)").until(ends)
    return rest, [Entry(name, None, rest.line()) for name in row_names(rest.text, first)]


def check_totals_row(checks, tables):
    """The row of the totals."""
    part = file(REPORT).body("totals")
    written = part.inside(r"self\.row\(&(?=\[)", "[")
    fields_of = [re.match(r"(?:state_name\(totals\.)?(\w+)", item.bare())[1] for item in written.items()[1:]]
    found = [Entry(name, None, written.line()) for name in fields_of]
    wanted = plain(one.name for one in of_journal(tables))
    checks.same(written, "the row totals", found, wanted, COUNTS)
    found = part.matches(r"let (?P<name>\w+) = Digits::of\(totals\.(?P<of>\w+)\);", "of", "let ")
    copied = [(one.name, one.name) for one in of_journal(tables) if one.unit]
    checks.same(part, "the digits of totals", found, copied, COUNTS)
    part = file(REPORT_SPEC).after(r"^totals_row t =").until(r"\n\n")
    checks.same(part, "totals_row", part.matches(r"t\.(?P<name>\w+)"), wanted, COUNTS)
    for path in (FQSIM, FQSIM_SHOWN):
        part, found = shown_row(file(path), "totals", r"\n {10}")
        checks.same(part, "the row totals", found, plain(totals_names(tables)), COUNTS)
    part = file("c/tests/report.c").after(r'printf\("totals,').until(r"^\}")
    checks.same(part, "the row totals", part.matches(r"\bt\.(?P<name>\w+)"), wanted, COUNTS)


def check_tuple_row(checks, tables):
    """The row of a five-tuple."""
    wanted = tuple_counts(tables)
    part = file(TUPLES)
    found = only_types(one for one in fields(part, "TupleRow") if one.name not in ("tuple", "flow"))
    checks.same(part, "TupleRow", found, [(name, "u64") for name in wanted], COUNTS)
    part = file(REPORT).body("tuple").inside(r"self\.row\(&(?=\[)", "[")
    names = [item.bare().removesuffix(".as_bytes()").upper() for item in part.items()[1:]]
    all_names = plain([*TUPLE, *(name.upper() for name in wanted)])
    checks.same(part, "the row tuple", [Entry(name, None, part.line()) for name in names], all_names, COUNTS)
    part = file(REPORT_SPEC).after(r"^tuple_row row =").until(r"\n\n")
    found = part.matches(r"row\.(?:tuple\.)?(?P<name>\w+)")
    checks.same(part, "tuple_row", [Entry(name.upper(), None, line) for name, _, line in found], all_names, COUNTS)
    for path in (FQSIM, FQSIM_SHOWN):
        part, found = shown_row(file(path), "tuple", r"\n {10}")
        checks.same(part, "the row tuple", found, all_names, COUNTS)


def check_monitor_line(checks, tables):
    """The line of a monitor."""
    wanted = ["EVENTS", *monitor_counts(tables)]
    part = file("crates/program_core/src/monitors.rt").body("line_of")
    line = part.after(r'"monitor \{monitor\} ').until(r"\\n")
    found = [Entry(name.upper(), None, line.line()) for name in re.findall(r"\{(\w+)\}", line.text)]
    checks.same(line, "the line of a monitor", found, plain(wanted), COUNTS)
    drops = [one.name for one in tables.counts if one.tuple == "dropped"]
    part = part.after(r"let dropped = ").until(";")
    checks.same(part, "the drops of a monitor", part.matches(r"totals\.(?P<name>\w+)"), plain(drops), COUNTS)
    part = file("crates/program_core/specs/Watched.antt")
    rest = part.after(r"^seen_drops_of seen =").until(r"\n\n")
    checks.same(rest, "seen_drops_of", rest.matches(r"seen\.totals\.(?P<name>\w+)"), plain(drops), COUNTS)
    rest = part.after(r"^seen_line monitor seen =").until(r"\n\n")
    found = rest.matches(r"decimal \(?(?:seen\.(?:totals\.)?)?(?P<name>\w+)")
    found = [Entry(name.replace("seen_drops_of", "dropped").upper(), None, line) for name, _, line in found
             if name != "monitor"]
    checks.same(rest, "seen_line", found, plain(wanted), COUNTS)
    part = file(FQSIM).after(r"^  monitor I ").until(r"\n")
    found = [Entry(name, None, part.line()) for name in part.text.split()]
    checks.same(part, "the line of a monitor", found, plain(wanted), COUNTS)


def check_drop_rows(checks, tables):
    """The rows of drops, each with the word of its cause, in the help of both journals."""
    causes = plain(one.word for one in of_kind(tables, "cause"))
    part = file(FQSIM)
    for what in ("LOCKED_NOTES", "TRACE_NOTES"):
        inside = part.after(rf"^pub const {what}: ").until(r'";$')
        found = inside.matches(r"^  dropped,ID,(?P<name>\w+) ")
        checks.same(inside, f"the rows of drops in {what}", found, causes, CODES, False)
    for path in (FQSIM_SHOWN, LOCKED_SHOWN):
        part = file(path)
        checks.same(part, "the rows of drops", part.matches(r"^  dropped,ID,(?P<name>\w+) "), causes, CODES, False)
    for path in (MALTLINK, ".ci/help/maltlink.txt"):
        part = file(path).after(r"^    packets\n").until(r"^    series\n")
        found = part.matches(r"'(?P<name>\w+)'")
        checks.same(part, "the fates", found, plain(["sent", *dict(causes)]), CODES)


def check_headers(checks, tables):
    """The headers of the tables of maltlink."""
    for name, source, spec in HEADERS:
        wanted = plain(one.name for one in tables.columns if one.table == name)
        part = file(source).body("header").inside(r"\.row\(&(?=\[)", "[")
        checks.same(part, f"the header of {name}", part.names(r'b"(?P<name>\w+)"'), wanted, COLUMNS)
        part = file(spec).after(rf"^{name}_header =").until(r"\n\n")
        found = part.matches(r'codes "(?P<name>\w+)"', each="codes")
        checks.same(part, f"{name}_header", found, wanted, COLUMNS)


def summary_columns(tables):
    """The columns of `flows` that are numbers of its packets, and those of its delays."""
    names = [one.name for one in tables.columns if one.table == "flows"]
    names = names[names.index("flow") + 1:]
    delays = [name.removeprefix("delay_") for name in names if name.startswith("delay_")]
    plain_names = [name for name in names if not name.startswith("delay_")]
    return plain_names[:-1], delays, plain_names[-1]


def check_summary(checks, tables):
    """What became of some packets, in the order of the columns of `flows`."""
    before, delays, last = summary_columns(tables)
    whole = plain([*before, "delays", last])
    for path, struct, wanted in ((SUMMARY, "Summary", whole), (FLOWS, "SummaryDigits", whole),
                                 (FLOWS, "DelayDigits", plain(delays))):
        part = file(path)
        checks.same(part, struct, only_names(fields(part, struct)), wanted, COLUMNS)
    part = file(SUMMARY)
    checks.same(part, "Delays", only_names(fields(part, "Delays")), plain(delays), COLUMNS, False)
    inside = part.body("summarize").inside(r"Ok\(Summary(?= \{)")
    checks.same(inside, "summarize", inside.names(r"(?P<name>\w+)(?:: .+)?"), whole, COLUMNS)
    inside = file(SUMMARIES_SPEC).inside(r"^summary_of span packets = record")
    checks.same(inside, "summary_of", inside.names(r"(?P<name>\w+) = .+", ";"), whole, COLUMNS)
    for path, definition, letter in ((FLOWS_SPEC, "summary_fields s", "s"), (DIGITS_SPEC, "listed d", "d")):
        part = file(path).after(rf"^{definition} =").until(r"\n\n|\Z")
        checks.same(part, definition.split()[0], part.matches(rf"\b{letter}\.(?P<name>\w+)"), whole, COLUMNS)
    for path, definition in ((FLOWS_SPEC, r"delay_fields \(Some d\)"), (DIGITS_SPEC, "delays_listed d")):
        part = file(path).after(rf"^{definition} =").until(r"\n\n|\Z")
        checks.same(part, definition.split()[0], part.matches(r"\bd\.(?P<name>\w+)"), plain(delays), COLUMNS)
    part = file(FLOWS)
    every = plain([*before, *(f"delays.{name}" for name in delays), last])
    for function in ("group_row", "all_row"):
        inside = part.body(function).inside(r"table\.row\(&(?=\[)", "[")
        found = inside.matches(r"digits\.(?P<name>[\w.]+)\.as_bytes\(\)")
        checks.same(inside, function, found, every, COLUMNS)


def check_series(checks, tables):
    """What happened in a bin, in the order of the columns of `series`."""
    names = [one.name for one in tables.columns if one.table == "series"]
    names = names[names.index("tuple") + 1:]
    kept = [name if name != "delay_mean" else "delay_sum" for name in names]
    part = file("crates/link_report/src/series.rt")
    found = only_names(one for one in fields(part, "Happenings") if one.name != "has_row")
    checks.same(part, "Happenings", found, plain(kept), COLUMNS)
    part = file("crates/link_report/specs/SeriesTables.antt")
    inside = part.inside(r"^of_waiting waiting waiting_bytes = record")
    found = [one for one in inside.names(r"(?P<name>\w+) = .+", ";") if one.name != "has_row"]
    checks.same(inside, "of_waiting", found, plain(kept), COLUMNS)
    rest = part.after(r"^series_line queue from number h = line_of").until(r"\n\n")
    found = rest.matches(r"decimal(?:_of)? \(?(?:h\.)?(?P<name>\w+)")
    found = [one for one in found if one.name not in ("from", "number")]
    checks.same(rest, "series_line", found, plain(names), COLUMNS)


def check_written(checks, tables):
    """The digits of a summary, each of the number of its name."""
    before, delays, last = summary_columns(tables)
    part = file(FLOWS)
    inside = part.inside(r"^impl SummaryDigits ").body("of").inside(r"SummaryDigits(?= \{)")
    found = inside.entries(r"(?P<name>\w+): \w+::of(?:_any)?\(summary\.(?P<of>\w+)\)", "of")
    checks.same(inside, "SummaryDigits::of", found, [(name, name) for name in [*before, "delays", last]], COLUMNS)
    inside = part.inside(r"^impl DelayDigits ").inside(r"Some\(delays\) => DelayDigits(?= \{)")
    found = inside.entries(r"(?P<name>\w+): Digits::of\(delays\.(?P<of>\w+)\)", "of")
    checks.same(inside, "DelayDigits::of", found, [(name, name) for name in delays], COLUMNS)
    if [name for name in before if name.startswith("dropped_")] != [one.count for one in of_kind(tables, "cause")]:
        raise Unclear(f"{COLUMNS}: flows hasn't a column for each cause of {CODES}, in their order")


CHECKS = [check_totals_row, check_tuple_row, check_monitor_line, check_drop_rows, check_headers, check_summary,
          check_series, check_written]
