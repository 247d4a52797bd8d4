"""What a file is that was given in the place of another."""
import re

SAVE_AS = "save it as 'CSV UTF-8 (comma delimited)'"
# How a file begins that is no text of this program: what it is, and what to do.
BEGINNINGS = [
    (b"\xd0\xcf\x11\xe0", "the file is an old spreadsheet (.xls)", f"open it, and {SAVE_AS}"),
    (b"\x1f\x8b", "the file is compressed", "unpack it: gunzip FILE"),
    (b"BZh", "the file is compressed", "unpack it: bunzip2 FILE"),
    (b"\xfd7zXZ", "the file is compressed", "unpack it: unxz FILE"),
    (b"\x28\xb5\x2f\xfd", "the file is compressed", "unpack it: unzstd FILE"),
    (b"7z\xbc\xaf", "the file is a 7z archive", "unpack it: 7z x FILE"),
    (b"%PDF", "the file is a PDF", "copy its table into a spreadsheet, and save that as CSV"),
    (b"PAR1", "the file is a Parquet table", "in pandas: read_parquet(FILE).to_csv(OTHER, index=False)"),
    (b"\x93NUMPY", "the file is an array of NumPy", "write its rows as text"),
    (b"SQLite format", "the file is a database of SQLite", "write its rows as CSV"),
    (b"\x89PNG", "the file is a picture", "give the file of numbers"),
    (b"{\\rtf", "the file is formatted text (RTF)", "save it as plain text"),
]
# The first line of a file of text, in small letters: what it is.
FIRST_LINES = [
    (r"yates-ratio ", "a certificate, which attack, bounds, challenge, check, check-hose, check-rates, check-witness, convert, hose, protect, reprice, tighten and update read"),
    (r"yates-witness ", "a witness, which attack and challenge write and check-witness reads"),
    (r"yates-rates ", "rates, which protect writes and check-rates reads"),
    (r"yates-hose ", "a hose certificate, which hose writes and check-hose reads"),
    (r"yates-bounds ", "bounds on what nodes send and receive, which hose reads"),
    (r"yates-update ", "the plan of an update, which update writes and no command reads"),
    (r"source,target,capacity,cost\Z", "a topology"),
    (r"step,source,target,demand\Z", "a matrix file"),
    (r"from,to,link\Z", "a failure file"),
    (r"scheme,step,offered,", "a report, which run writes and no command reads"),
    (r"step,link,source,target,|source,target,paths,hops,", "a table of tools/links, which no command reads"),
    (r"fibre,source,target,links\Z|step,cut\Z", "a list of tools/fibre_cuts, which no command reads"),
    (r"yes ratio |no link \d|no network\Z", "the answer of check, and not the file that it read"),
    (r"refused: |fault: |no path: ", "a message of the program"),
    (r"<!doctype html|<html", "a page of the web, as where a download leads to a page"),
    (r"<\?xml|<graphml|<gexf", "XML, a format of another tool"),
    (r"graph\s*\[|(di|)graph\s+\w*\s*{|creator ", "a graph in a format of another tool"),
]


def of_zip(data):
    """What an archive is: a spreadsheet of today is one."""
    if b"opendocument.spreadsheet" in data[:200] or b"xl/" in data or b"[Content_Types].xml" in data[:200]:
        return "the file is a spreadsheet (.xlsx or .ods)", f"open it, and {SAVE_AS}"
    return "the file is a ZIP archive", "unpack it: unzip FILE"


def is_utf_16(data):
    return data[:2] in (b"\xff\xfe", b"\xfe\xff") or b"\0" in data[:40]


def foreign(data):
    """What the bytes are that are no text, and what to do; None of what may be one."""
    if data[:4] == b"PK\x03\x04":
        return of_zip(data)
    for beginning, what, do in BEGINNINGS:
        if data.startswith(beginning):
            return what, do
    if data[:512] and not data[:512].strip(b"\0"):
        return "the file begins with zero bytes alone, as after a crash or a copy that broke off", "copy it again"
    return None


def text_kind(data):
    """What a text is by its first line, or None."""
    line = re.split(rb"\r\n|\r|\n", data[:1000].lstrip(b"\xef\xbb\xbf \r\n\t\""), maxsplit=1)[0].decode("utf-8", "replace")
    line = line.strip().replace('"', "").lower()
    if line.startswith("{"):
        return "JSON, as a plan is"
    return next((what for pattern, what in FIRST_LINES if re.match(pattern, line)), None)


def is_certificate(data):
    """Whether the file means to be a certificate, whatever became of its first bytes."""
    start = data[:200].replace(b"\0", b"").lstrip(b"\xef\xbb\xbf\xff\xfe \r\n\t\"'#")
    return start[:11].lower() == b"yates-ratio"
