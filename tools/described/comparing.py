"""The comparison of what a place has with what the tables say."""
from described.reading import Part
from described.tables import TOP, Unclear

PARAMETERS, COUNTS = "docs/tables/parameters.csv", "docs/tables/counts.csv"
CODES, COLUMNS = "docs/tables/codes.csv", "docs/tables/columns.csv"


class Checks:
    """What was compared, and what differs. `places` has each place, with what it is and how many names it has."""

    def __init__(self):
        self.faults, self.places, self.compared = [], [], 0

    def run(self, checks, tables):
        """Runs functions that compare. One that can't read its place is a fault, too."""
        for check in checks:
            try:
                check(self, tables)
            except Unclear as why:
                self.faults.append(str(why))
            except (AttributeError, IndexError, KeyError, StopIteration, TypeError, ValueError) as why:
                self.faults.append(f"{place_of(why)}: {check.__doc__.rstrip('.')}: can't be read: {why!r}")

    def same(self, part, what, found, wanted, table, ordered=True):
        """Compares entries with pairs of a name and what is wanted of it. Without `ordered` their order is free."""
        path = part.path.relative_to(TOP)
        first = found[0].line if found else part.line()
        self.places.append((f"{path}:{first}", what, table, len(wanted)))
        wanted_of, seen = dict(wanted), {}
        for entry in found:
            where = f"{path}:{entry.line}: {what}"
            if entry.name in seen:
                self.faults.append(f"{where}: {entry.name} is there twice")
            elif entry.name not in wanted_of:
                self.faults.append(f"{where}: {entry.name} isn't wanted here ({table})")
            elif entry.fact != wanted_of[entry.name]:
                facts = f"found {said(entry.fact)}, wanted {said(wanted_of[entry.name])}"
                self.faults.append(f"{where}: {entry.name}: {facts} ({table})")
            seen[entry.name] = entry.fact
        missing = [name for name, _ in wanted if name not in seen]
        for name in missing:
            self.faults.append(f"{path}:{first}: {what}: {name} is missing ({table})")
        names = [name for name, _ in wanted if name in seen]
        if ordered and not missing and [entry.name for entry in found if entry.name in wanted_of] != names:
            self.faults.append(f"{path}:{first}: {what}: wanted in this order ({table}): {', '.join(names)}")
        self.compared += len(wanted)


def place_of(why):
    """What was read as an error came: the last part of a file that a function had at hand."""
    trace, found = why.__traceback__, "docs/tables"
    while trace:
        parts = [one for one in trace.tb_frame.f_locals.values() if isinstance(one, Part)]
        found = parts[-1].where() if parts else found
        trace = trace.tb_next
    return found


def said(fact):
    """A fact as a line shows it."""
    if isinstance(fact, (tuple, set)):
        return " ".join(said(one) for one in fact if one is not None) or "nothing"
    return repr(fact)


def plain(names):
    """Names of which nothing is wanted but that they are there."""
    return [(name, None) for name in names]
