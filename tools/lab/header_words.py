"""In words: what is wrong with the first line of a CSV file, or with the file as a whole, and what to do."""
import re

from .contents import SAVE_AS, foreign, is_utf_16, text_kind
from .inputs import FAILURES, MATRICES, TOPOLOGY
from .letters import look_alikes, plain_text, shown
from .records import MARK

HEADERS = {"topology": TOPOLOGY, "matrices": MATRICES, "failures": FAILURES}
COLUMNS = {kind: ",".join(it.decode() for it in header) for kind, header in HEADERS.items()}
# Writes the matrix of one step, with nodes as columns and rows, as the rows of a matrix file.
AS_ROWS = (
    "awk -F, 'NR == 1 { for (i = 2; i <= NF; i++) n[i] = $i; print \"step,source,target,demand\"; next } "
    "{ for (i = 2; i <= NF; i++) if ($1 != n[i]) print \"0,\" $1 \",\" n[i] \",\" $i }' WIDE"
)


class Heading:
    """The first line of a file of this kind, and its names as a reader may have meant them."""

    def __init__(self, kind, data, net):
        self.kind, self.data, self.net = kind, data, net
        self.wanted, self.order = COLUMNS[kind], COLUMNS[kind].split(",")
        self.first = re.split(rb"\r\n|\r|\n", data[3:] if data.startswith(MARK) else data, maxsplit=1)[0]
        self.text = self.first.decode("utf-8", "replace")
        self.fields = [it.strip().strip('"').strip() for it in re.split(r"[,;\t|]", self.text[:10_000])]
        self.names = [it.lower() for it in self.fields]


def header_words(kind, data, net):
    """Why the file has no header of this kind, and what to do; `net` has the nodes that are known."""
    heading = Heading(kind, data, net)
    kinds = (whole_file_words, exchange_words, separator_words, shape_words, row_words, wide_words)
    return next(filter(None, (words(heading) for words in kinds)), None) or columns_words(heading)


def whole_file_words(heading):
    data, wanted = heading.data, heading.wanted
    if not data.strip(b"\r\n"):
        return "the file is empty", f"its first line must be {wanted}"
    if foreign(data):
        return foreign(data)
    if is_utf_16(data):
        return "the file is UTF-16: each character takes two bytes", f"{SAVE_AS}, or: iconv -f UTF-16 -t UTF-8 FILE"
    if heading.first.startswith(MARK):
        return "the file begins with two byte order marks, of which one is skipped", "delete one: tail -c +4 FILE"
    if not data.strip():
        return "the file has blanks alone", f"its first line must be {wanted}"
    if heading.first.startswith((b"#", b"//", b"%")):
        return "the file begins with a comment, and comments are no part of these files", "delete the line"
    if heading.first.count(b'"') % 2:
        return "a double quote of the first line is not closed, so its field goes on over the next lines", f"the first line must be exactly {wanted}"
    if re.match(r"sep=", heading.text, re.I):
        return "the first line tells a spreadsheet what stands between fields, and is no part of these files", "delete the line"
    return None


def exchange_words(heading):
    """The file is one of another kind."""
    what = text_kind(heading.data)
    if what is None or heading.names == heading.order:
        return None
    do = f"give the {heading.kind} file, whose first line must be exactly {heading.wanted}"
    swapped = "are two files of the plan exchanged? " if what in ("a topology", "a matrix file", "a failure file") else ""
    return f"this is {what}, given as {heading.kind}", f"{swapped}{do[0].upper()}{do[1:]}" if swapped else do


def separator_words(heading):
    first = heading.first
    if b";" in first and b"," not in first:
        return "its fields stand apart by semicolons, as some spreadsheets write CSV", f"{SAVE_AS}; numbers with decimal commas need another unit then"
    if b"\t" in first:
        return "its fields stand apart by tabs", f"{SAVE_AS}, or: tr '\\t' , < FILE"
    if b"|" in first and b"," not in first:
        return "its fields stand apart by upright strokes", "put commas: tr '|' , < FILE"
    if b"," not in first and heading.text.lower().split() == heading.order:
        return "its fields stand apart by blanks", "put commas: tr -s ' ' , < FILE"
    return None


def shape_words(heading):
    """The right names, written otherwise."""
    names, order, wanted = heading.names, heading.order, heading.wanted
    if names == order:
        return "the first line has capitals, blanks or quotes that the header has not", f"write it exactly so: {wanted}"
    if plain_text(heading.text).strip().lower() == wanted:
        return f"the first line has characters that are not what they look like: {look_alikes(heading.text)}", f"type it anew: {wanted}"
    if names[0] == "" and names[1:] == order:
        return "the first line begins with a comma, so it has an empty column more (pandas writes one for its index)", "delete the first column; in pandas: to_csv(FILE, index=False)"
    if [it for it in names if it] == order:
        return "the first line ends in a comma, so it has an empty column more", "delete the empty column in each line"
    if sorted(names) == sorted(order):
        return "the columns stand in another order", f"the order must be {wanted}, in each row too"
    return None


def is_count(text):
    return re.fullmatch("[0-9]+", text) is not None


def row_words(heading):
    """The first line is a row already."""
    fields, texts = heading.fields, {"topology": (2, 3), "matrices": (0, 3), "failures": (0, 1, 2)}[heading.kind]
    if len(fields) != len(heading.order) or not all(is_count(fields[it]) for it in texts):
        return None
    return "the header is missing: the first line is a row already", f"put a line before it, exactly {heading.wanted}: sed '1i {heading.wanted}' FILE"


def wide_words(heading):
    """A matrix with nodes as columns, or without any names."""
    if heading.kind == "failures":
        return None
    one = "demand" if heading.kind == "matrices" else "link"
    nodes = {it.decode() for it in heading.net.nodes}
    below = [it.split(b",")[0].strip(b' "').decode("utf-8", "replace") for it in re.split(rb"[\r\n]+", heading.data[:100_000])[1:]]
    columns = [it for it in heading.fields[1:] if it in nodes or it and it in below]
    if len(columns) >= 2 and len(columns) >= len(heading.fields) - 2:
        do = f"write a row for each {one}: {heading.wanted}"
        return f"this is a table with nodes as columns ({columns[0]}, {columns[1]}, ..)", f"{do}; {AS_ROWS}" if heading.kind == "matrices" else do
    pairs = [it for it in heading.fields if re.fullmatch(r"\S+(->|>|_|-|:)\S+", it) and set(re.split("->|>|_|-|:", it)) <= nodes]
    if pairs:
        return f"this is a table with pairs of nodes as columns ({pairs[0]}, ..)", f"write a row for each {one}: {heading.wanted}"
    if all(re.fullmatch(r"[-+0-9.eE]+", it) for it in re.split(r"[\s,]+", heading.text.strip())):
        return "this is a table of numbers without names", f"write a row for each {one}: {heading.wanted}"
    return None


def columns_words(heading):
    """Columns of other names."""
    names, order, wanted = heading.names, heading.order, heading.wanted
    lacking, added = [it for it in order if it not in names], [it for it in names if it not in order]
    added += [f"{it} twice" for it in order if names.count(it) > 1]
    said = [f"lacks {', '.join(lacking)}"] * bool(lacking) + [f"has {', '.join(shown(it) or 'a column without a name' for it in added)}"] * bool(added)
    return f"the first line {' and '.join(said)}", f"the first line must be exactly {wanted}"
