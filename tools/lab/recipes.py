"""Tables of other tools as those of docs/FORMATS.md, by recipes that refuse what they cannot do exactly.

A recipe takes tables and gives a header and rows of texts.
"""
import re
from datetime import datetime, timedelta, timezone

from .inputs import MAX_AMOUNT, MAX_STEPS, NAME
from .records import records

DECIMAL = re.compile(r"([0-9]+)(?:\.([0-9]+))?(?:[eE]([+-]?[0-9]{1,3}))?")
CLOCKS = [f"%Y-%m-%d{between}%H:%M{seconds}{zone}" for between in ("T", " ") for seconds in ("", ":%S") for zone in ("", "%z")]


class Refused(Exception):
    """What a recipe cannot do exactly, and where."""


class Table:
    """The header of a file, and its rows, each with the line on which it begins."""

    def __init__(self, name, data):
        self.name = name
        read = [(it.line, self.texts(it)) for it in records(data)]
        if not read:
            raise Refused(f"refused: {name}: it has no line")
        self.header, self.rows = read[0][1], read[1:]
        for line, fields in self.rows:
            if len(fields) != len(self.header):
                raise self.fault(line, f"{len(fields)} fields, and the header has {len(self.header)}")

    def texts(self, record):
        try:
            return [it.decode("utf-8") for it in record.fields]
        except UnicodeDecodeError as error:
            raise self.fault(record.line, "it is not UTF-8") from error

    def fault(self, line, why):
        return Refused(f"refused: {self.name}: line {line}: {why}")

    def place_of(self, column):
        if self.header.count(column) != 1:
            raise self.fault(1, f"{'several columns are' if column in self.header else 'no column is'} called {column!r}")
        return self.header.index(column)


def scale(table, column, power):
    """The column times this power of ten, where each of its numbers is whole then."""
    place, rows = table.place_of(column), []
    for line, fields in table.rows:
        found = DECIMAL.fullmatch(fields[place])
        if not found:
            raise table.fault(line, f"{fields[place]!r} is no decimal number of 0 or more")
        whole, behind, exponent = found.group(1), found.group(2) or "", int(found.group(3) or 0)
        number = shifted(int(whole + behind), exponent - len(behind) + power)
        if number is None:
            raise table.fault(line, f"{fields[place]} times 10^{power} is not whole")
        if number > MAX_AMOUNT:
            raise table.fault(line, f"{fields[place]} times 10^{power} is above {MAX_AMOUNT}")
        rows.append([*fields[:place], str(number), *fields[place + 1 :]])
    return table.header, rows


def shifted(digits, power):
    """The number times this power of ten, or None where that is not whole."""
    if power >= 0:
        return digits * 10**power
    whole, rest = divmod(digits, 10**-power)
    return None if rest else whole


def wide(tables):
    """The matrices with nodes as columns, one a step, as rows; their numbers stay as they are."""
    rows = []
    for step, table in enumerate(tables):
        columns = table.header[1:]
        names = [fields[0] for _, fields in table.rows]
        twice = [it for it in columns if columns.count(it) > 1] + [it for it in names if names.count(it) > 1]
        if twice or not columns:
            raise table.fault(1, f"{twice[0]!r} stands twice" if twice else "it has one column")
        for line, (source, *cells) in table.rows:
            for target, cell in zip(columns, cells):
                if source != target:
                    if not DECIMAL.fullmatch(cell):
                        raise table.fault(line, f"from {source} to {target} stands {cell!r}, which is no decimal number of 0 or more")
                    rows.append([str(step), source, target, cell])
                elif cell.strip(" -") and not re.fullmatch(r"0+(\.0*)?", cell):
                    raise table.fault(line, f"from {source} to itself stands {cell!r}, and no demand goes from a node to itself")
    return ["step", "source", "target", "demand"], rows


def instant(text):
    """The time that a stamp says, and its form: seconds, or a date with a clock; None where it has neither."""
    if re.fullmatch("[0-9]{1,12}", text):
        return timedelta(seconds=int(text)), "seconds"
    for form in CLOCKS:
        try:
            time = datetime.strptime(text, form)
        except ValueError:
            continue
        start = datetime(1970, 1, 1, tzinfo=timezone.utc if time.tzinfo else None)
        return time - start, "a clock with a zone" if time.tzinfo else "a clock"
    return None


def times(table, place):
    """The rows by their times, each with its line; all stamps are of one form."""
    timed, forms = [], set()
    for line, fields in table.rows:
        found = instant(fields[place])
        if found is None:
            raise table.fault(line, f"{fields[place]!r} is neither a number of seconds nor a time like 2026-03-01T08:00 or 2026-03-01T08:00:00Z")
        forms.add(found[1])
        if len(forms) > 1:
            raise table.fault(line, f"{fields[place]!r} is {found[1]}, and another row has {(forms - {found[1]}).pop()}")
        timed.append((found[0], line, fields))
    return sorted(timed, key=lambda it: it[0])


def steps(table, column, seconds):
    """The rows by step, where a step has so many seconds and the first time is step 0; and the stamp of that time, if there is one."""
    place, rows = table.place_of(column), []
    timed, header = times(table, place), ["step" if it == column else it for it in table.header]
    for time, line, fields in timed:
        step, rest = divmod(time - timed[0][0], timedelta(seconds=seconds))
        if rest:
            since = (time - timed[0][0]) // timedelta(seconds=1)
            raise table.fault(line, f"{fields[place]} is {since} seconds after {timed[0][2][place]}, which are no whole steps of {seconds}")
        if step >= MAX_STEPS:
            raise table.fault(line, f"{fields[place]} is step {step}, and a series has at most {MAX_STEPS} steps: split the file")
        rows.append([*fields[:place], str(step), *fields[place + 1 :]])
    return header, rows, timed[0][2][place] if timed else None


def names(mapping, table):
    """The sources and targets by their new names."""
    new, old = new_names(mapping), {}
    for name, it in new.items():
        if it in old:
            raise Refused(f"refused: {mapping.name}: {old[it]!r} and {name!r} both become {it}")
        old[it] = name
    places, rows = [table.place_of(it) for it in ("source", "target")], []
    for line, fields in table.rows:
        for place in places:
            if fields[place] not in new:
                raise table.fault(line, f"{mapping.name} has no row for {fields[place]!r}")
        rows.append([new[it] if place in places else it for place, it in enumerate(fields)])
    return table.header, rows


def new_names(mapping):
    """The new name of each name in a table of these two columns."""
    own, other, new = mapping.place_of("name"), mapping.place_of("new"), {}
    for line, fields in mapping.rows:
        if fields[own] in new:
            raise mapping.fault(line, f"{fields[own]!r} stands twice")
        if not NAME.match(fields[other].encode()):
            raise mapping.fault(line, f"{fields[other]!r} is not 1 to 32 of the characters A-Z a-z 0-9 _ . -")
        new[fields[own]] = fields[other]
    return new
