"""Files at the limits of their kinds, one byte past them, and of forms that noise has; and what is said of each, as docs/FORMATS.md says.

A row is (what the file shows, its kind, the file, the reason). A file is what it begins with and a unit that fills it up to a size. With
`None` as reason it is answered as what it begins with is. The calls of a kind are those of `CALLS`.
"""
import collections
import os

from .calls import DEMAND, HEADER, ROW
from .certificates import FIRST, SECOND, SMALLEST, SMALLEST_IN_SECOND
from .witnesses import OF_SMALLEST

INPUT, FIRST_LIMIT, SECOND_LIMIT, WITNESS_LIMIT = 67_108_864, 134_217_728, 1_073_741_824, 1_073_741_824
PLAN = '{"topology":"t","matrices":"m","failures":"f","schemes":["spf"],"publish":"spf"}'
PREDICTED = PLAN.replace('"failures"', '"predictions":"q","failures"')
DEMANDS, OUTAGES = "step,source,target,demand\n", "from,to,link\n"
# Rates for any demand, and the calls that read the demands of a certificate.
RATES = "yates-rates 1\nfailures 1\n0 0\nend\n"
PROTECTED = [["protect", "c", "m", "1"], ["check-rates", "c", "m", "r"]]
# A hose of two nodes that send nothing, a hose certificate of it, and their calls.
BOUNDS = "yates-bounds 1\nsent 0 0\nreceived 0 0\nend\n"
HOSE = "yates-hose 1\nsent 0 0\nreceived 0 0\nbound 0\nblocks 0\nend\n"
HOSES = [["hose", "c", "b"], ["check-hose", "c", "h"]]
# The files of a call, of which one is exchanged; and by the kind of this one its name, and the words of the calls that read it.
GOOD = {"c": SMALLEST, "w": OF_SMALLEST, "t": HEADER + ROW, "m": DEMAND, "r": RATES, "b": BOUNDS, "h": HOSE, "f": OUTAGES + "0,0,0\n", "p": PLAN, "q": DEMAND, "s": PREDICTED}
CALLS = {
    "certificate": ("c", [["check", "c"], ["check", "c", "t"], ["check-witness", "c", "w"], ["attack", "c"], ["challenge", "c"], ["update", "c", "c", "m"], *PROTECTED, *HOSES, ["convert", "c"], ["bounds", "c"], ["reprice", "c", "t"], ["tighten", "c"], ["simulate", "c", "p"]]),
    "witness": ("w", [["check-witness", "c", "w"]]),
    "rates": ("r", [["check-rates", "c", "m", "r"]]),
    "bounds": ("b", [["hose", "c", "b"]]),
    "hose certificate": ("h", [["check-hose", "c", "h"]]),
    "topology": ("t", [["check", "c", "t"], ["reprice", "c", "t"], ["publish", "p"], ["run", "p"], ["simulate", "c", "p"], ["links", "p", "0"]]),
    "matrices": ("m", [["publish", "p"], ["run", "p"], ["simulate", "c", "p"], ["links", "p", "0"], ["update", "c", "c", "m"], *PROTECTED]),
    "predictions": ("q", [["publish", "s"], ["run", "s"], ["simulate", "c", "s"], ["links", "s", "0"]]),
    "failures": ("f", [["run", "p"], ["simulate", "c", "p"], ["pairs", "p", "0"]]),
    "plan": ("p", [["publish", "p"], ["run", "p"], ["simulate", "c", "p"], ["paths", "p", "0"]]),
}
# The bytes that are written at once.
PIECE = 1 << 20


class Filled(collections.namedtuple("Filled", "head unit size")):
    """A file of so many bytes: what it begins with, and a unit of bytes again and again, the last one as far as there is room."""

    def write(self, name, size=None):
        """Writes the file, or as much of it as this; bytes of 0 take no room on the disk."""
        size = self.size if size is None else min(size, self.size)
        with open(name, "wb") as file:
            file.write(self.head[:size])
            piece = self.unit * (PIECE // len(self.unit) + 1)
            while self.unit != b"\0" and file.tell() < size:
                # What was written ends with a whole unit.
                file.write(piece[: min(len(piece), size - file.tell())])
            file.truncate(size)

    def beginning(self, size):
        """The first bytes, as many as this."""
        return (self.head + self.unit * (size // len(self.unit) + 1))[: min(size, self.size)]


def filled_file(head, unit, size):
    return Filled(head if isinstance(head, bytes) else head.encode(), unit, size)


def whole(data):
    return filled_file(data, b"\0", len(data if isinstance(data, bytes) else data.encode()))


def at_limit(what, kind, head, unit, limit, reason):
    """A file up to the limit of its kind, and one of a byte more."""
    yield f"{what}, up to the limit", kind, filled_file(head, unit, limit), reason
    yield f"{what}, one byte past it", kind, filled_file(head, unit, limit + 1), "too long"


def certificates():
    for what, head, limit, line in (("zeros", "", FIRST_LIMIT, 1), ("zeros, first format", FIRST, FIRST_LIMIT, 2), ("zeros, second format", SECOND, SECOND_LIMIT, 2)):
        yield from at_limit(what, "certificate", head, b"\0", limit, f"shape at line {line}")
    for what, text, limit in (("first format", SMALLEST, FIRST_LIMIT), ("second format", SMALLEST_IN_SECOND, SECOND_LIMIT)):
        yield from at_limit(f"line feeds after the end, {what}", "certificate", text, b"\n", limit, "shape at line 17")
        yield from at_limit(f"no links and line feeds, {what}", "certificate", text.replace("links 1", "links 0"), b"\n", limit, "shape at line 5")
    yield "digits on the first line", "certificate", filled_file("", b"7", FIRST_LIMIT), "shape at line 1"
    yield "digits of a ratio", "certificate", filled_file(SMALLEST.partition("ratio 1000000")[0] + "ratio ", b"7", FIRST_LIMIT), "shape at line 11"


def witnesses():
    below = "yates-witness 1\n"
    for what, head, unit, line in (("zeros", "", b"\0", 1), ("zeros below the first line", below, b"\0", 2), ("line feeds after the end", OF_SMALLEST, b"\n", 8)):
        yield from at_limit(what, "witness", head, unit, WITNESS_LIMIT, f"shape at line {line}")
    yield "numbers of one line", "witness", filled_file(OF_SMALLEST.partition(" 1000000\n1\n")[0], b" 1", INPUT), "shape at line 4"


def hoses():
    for kind, text, lines in (("bounds", BOUNDS, 4), ("hose certificate", HOSE, 6)):
        below = text.partition("\n")[0] + "\n"
        for what, head, unit, line in (("zeros", "", b"\0", 1), ("zeros below the first line", below, b"\0", 2), ("line feeds after the end", text, b"\n", lines + 1)):
            yield from at_limit(what, kind, head, unit, INPUT, f"shape at line {line}")
        yield "numbers of one line", kind, filled_file(text.partition("\nreceived")[0], b" 0", INPUT), "shape at line 2"


def rates():
    below = "yates-rates 1\n"
    for what, head, unit, line in (("zeros", "", b"\0", 1), ("zeros below the first line", below, b"\0", 2), ("line feeds after the end", RATES, b"\n", 5)):
        yield from at_limit(what, "rates", head, unit, INPUT, f"shape at line {line}")
    yield "numbers of one line", "rates", filled_file(RATES.partition("\nend")[0], b" 0", INPUT), "shape at line 3"


def inputs():
    for kind, (name, _) in list(CALLS.items())[5:]:
        yield from at_limit("blanks" if kind == "plan" else "line feeds", kind, GOOD[name], b" " if kind == "plan" else b"\n", INPUT, None)
    for what, unit in (("commas", b","), ("quotes", b'"'), ("line feeds", b"\n"), ("bytes of 255", b"\xff")):
        for kind, header in (("topology", HEADER), ("matrices", DEMANDS), ("predictions", DEMANDS), ("failures", OUTAGES)):
            yield f"{what} alone", kind, filled_file("", unit, INPUT), "header"
            reason = "fields at row 1" if unit != b"\n" else "empty" if kind == "topology" else None
            yield f"{what} below the header", kind, filled_file(header, unit, INPUT), reason


def nested_plans():
    yield "ten million open brackets", "plan", filled_file("", b"[", 10_000_000), "not json"
    yield "a hundred thousand open objects", "plan", filled_file("", b'{"":', 500_000), "not json"
    for levels, of_lists, of_objects in ((127, "kind of plan", "unknown key"), (128, "not json", "not json")):
        yield f"lists of {levels} levels", "plan", whole("[" * levels + "]" * levels), of_lists
        yield f"objects of {levels} levels", "plan", whole('{"":' * levels + "0" + "}" * levels), of_objects


def spellings():
    """Each kind of file with CRLF, with a byte order mark, and in UTF-16."""
    reasons = {"certificate": ["shape at line 1"] * 3, "witness": ["shape at line 1"] * 3, "rates": ["shape at line 1"] * 3, "bounds": ["shape at line 1"] * 3, "hose certificate": ["shape at line 1"] * 3, "plan": [None, "not json", "not json"]}
    for kind, (name, _) in CALLS.items():
        text = GOOD[name].replace(",", ",\n") if kind == "plan" else GOOD[name]
        spelled = (("CRLF", text.replace("\n", "\r\n").encode()), ("a byte order mark", b"\xef\xbb\xbf" + text.encode()), ("UTF-16", text.encode("utf-16")))
        for (what, data), reason in zip(spelled, reasons.get(kind, [None, None, "header"])):
            yield what, kind, whole(data), reason


def rows():
    """All rows, those of small files first."""
    return [*spellings(), *nested_plans(), *inputs(), *rates(), *hoses(), *witnesses(), *certificates()]


def small_files(kind, file, reason):
    """The files of a call whose answer that of a row is: with what the file begins with, or the good one; or None where it is refused."""
    name = CALLS[kind][0]
    if reason is not None:
        return None
    return {**GOOD, name: file.head} if file.size > len(file.head) else GOOD


def write(folder, kind, file):
    """Writes the files of a row's calls."""
    name = CALLS[kind][0]
    for other, text in GOOD.items():
        if other != name:
            with open(os.path.join(folder, other), "wb") as small:
                small.write(text.encode())
    file.write(os.path.join(folder, name))
