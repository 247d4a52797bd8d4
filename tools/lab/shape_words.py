"""In words: at which line a certificate leaves its grammar, what must stand there, and what stands there."""
import re

import reference_check

from .contents import foreign, is_utf_16, text_kind
from .letters import look_alikes, shown

GREATEST = 2**64 - 1
AGAIN = "publish it again, or copy the whole file again; a certificate is not to be edited"
PLACE_OF_NAME = "one name of 1 to 32 of the characters A-Z a-z 0-9 _ . -"


def plural(number, noun):
    return f"{number} {noun}{'s' if number != 1 else ''}"


class Line:
    """What a line must be: in words, its first word, how many numbers follow, and the range of the last of these."""

    def __init__(self, text, word=None, count=1, low=0, high=GREATEST):
        self.text, self.word, self.count, self.low, self.high = text, word, count, low, high


def counts(word, low, high):
    return Line(f"{word} and a number from {low} to {high}", word, 1, low, high)


def numbers(text, count, low=0, high=GREATEST):
    return Line(text, None, count, low, high)


def lines_of_grammar():
    """What each line must be: is sent the one before it, as words."""
    first = yield Line("yates-ratio 1 or yates-ratio 2", "yates-ratio", 1, 1, 2)
    _, most_nodes, most_links, most_pairs, most_paths, most_hops, _ = reference_check.FORMATS[int(first[1])]
    nodes = int((yield counts("nodes", 2, most_nodes))[1])
    for node in range(nodes):
        yield Line(f"the name of node {node}: {PLACE_OF_NAME}", count=0)
    links = int((yield counts("links", 1, most_links))[1])
    for link in range(links):
        yield numbers(f"link {link}: TAIL HEAD CAPACITY COST, four numbers", 4)
    pairs = int((yield counts("pairs", 0, most_pairs))[1])
    for pair in range(pairs):
        row = yield numbers(f"pair {pair}: SRC DST K, three numbers, of which K, its number of paths, is 1 to {most_paths}", 3, 1, most_paths)
        for path in range(int(row[2])):
            yield numbers(f"path {path} of pair {pair}: WEIGHT L and then L numbers of links, L from 1 to {most_hops}", None, 1, most_hops)
    blocks = yield from lines_of_set(first[1], pairs, links)
    for block in range(blocks[0]):
        yield from lines_of_block(block, nodes, links, pairs, blocks[1], most_nodes)
    yield Line("end", "end", 0)
    yield Line("nothing: the file ends with the line end")


def lines_of_set(form, pairs, links):
    """The lines from the set on to the number of blocks, which is given, with whether the set has bounds."""
    other = "set margin NUM DEN" if form == "1" else "set box"
    words = yield Line(f"set all or {other}", "set", None)
    for word in {"all": [], "margin": ["base"], "box": ["lower", "upper"]}[words[1]]:
        yield Line(f"{word} and {plural(pairs, 'number')}, one for each pair", word, pairs)
    yield Line("ratio and a number", "ratio", 1)
    blocks = int((yield counts("blocks", 0, reference_check.FORMATS[int(form)][2]))[1])
    return blocks, words[1] != "all"


def lines_of_block(block, nodes, links, pairs, has_bounds, most_rows):
    row = yield numbers(f"block {block}: LINK A B ROWS, four numbers, of which ROWS is 0 to {most_rows}", 4, 0, most_rows)
    yield numbers(f"the weights of block {block}: {plural(links, 'number')}, one for each link", links)
    for number in range(int(row[3])):
        yield numbers(f"row {number} of block {block}: SOURCE and {nodes} potentials", nodes + 1)
    for word in ["plus", "minus"] * has_bounds:
        yield Line(f"{word} of block {block} and {plural(pairs, 'number')}, one for each pair", word, pairs)


def line_wanted(lines, number):
    """What line `number` must be, where the lines before it are good."""
    walk = lines_of_grammar()
    wanted = next(walk)
    for line in lines[: number - 1]:
        wanted = walk.send(line.decode("ascii").split(" "))
    return wanted


def shape_words(data, number):
    """What must stand in line `number` of a file that leaves the grammar there, the line, why it is refused, and what to do."""
    lines = data.split(b"\n")
    wanted, found = line_wanted(lines, number), lines[number - 1] if number <= len(lines) else b""
    if number == 1:
        why = whole_file_words(data)
        if why:
            return wanted.text, found, why[0], why[1]
    if number == len(lines):
        return wanted.text, found, *end_words(wanted, found, number)
    return wanted.text, found, *line_words(wanted, found, number)


def whole_file_words(data):
    if not data:
        return "the file is empty", "publish the certificate again; is the disk full?"
    if foreign(data):
        return foreign(data)
    if data.startswith(b"\xef\xbb\xbf"):
        return "the file begins with a byte order mark, which an editor wrote", AGAIN
    if is_utf_16(data):
        return "the file is UTF-16, as PowerShell writes what it redirects", "in PowerShell: cmd /c \"yates publish PLAN > FILE\""
    what = text_kind(data)
    return (f"this is {what}, and no certificate", "give the file that publish wrote") if what and not what.startswith("a certificate") else None


def end_words(wanted, found, number):
    """Where the last line is not ended, or is not there."""
    if not found:
        return f"the file ends after line {number - 1}: it was cut, or the disk was full", AGAIN
    if wanted.word == "end" and found == b"end":
        return "the last line is not ended by a line feed, as where an editor saved the file", AGAIN
    return f"the file ends within line {number}, without a line feed: it was cut, or the disk was full", AGAIN


def line_words(wanted, found, number):
    text = found.decode("utf-8", "replace")
    if found.endswith(b"\r"):
        return "the line ends in CR LF, as where the file was saved or fetched under Windows", "fetch it again as it is (binary), or: tr -d '\\r' < FILE"
    if not found:
        return "an empty line", AGAIN
    if wanted.text.startswith("nothing"):
        return "something stands behind the line end, as where two files were put together", AGAIN
    if not text.isascii():
        return f"the line has characters that are none of the format{': ' + look_alikes(text) if look_alikes(text) else ''}", AGAIN
    if found.lstrip().startswith((b"#", b"//")):
        return "the line is a comment, and certificates have none", AGAIN
    if re.search(r"^ | $|  |\t", text):
        return "words stand apart by one blank, with none before the first and none behind the last", AGAIN
    return words_of(wanted, text)


def words_of(wanted, text):
    """What is wrong with a line of plain words."""
    words = text.split(" ")
    if wanted.count == 0 and wanted.word is None:
        return f"the name has {len(text)} characters" if len(text) > 32 else f"{shown(text)} is no name", AGAIN
    if wanted.word and words[0] != wanted.word:
        return first_word_words(wanted, words), AGAIN
    rest = words[1:] if wanted.word else words
    if wanted.word == "set" and rest[:1] != ["margin"] or rest[:1] == ["margin"] and "margin" not in wanted.text:
        return set_line_words(wanted, rest), AGAIN
    for word in rest[1:] if wanted.word == "set" else rest:
        odd = odd_number(word)
        if odd:
            return f"{shown(word)} {odd}", AGAIN
    return amount_words(wanted, [int(it) for it in (rest[1:] if wanted.word == "set" else rest)]), AGAIN


def set_line_words(wanted, rest):
    kind = rest[0] if rest else ""
    if kind not in ("all", "margin", "box"):
        return f"{shown(kind) or 'nothing'} is no set"
    return f"set {kind} has no more words" if kind in wanted.text else "the first format has margins, and the second boxes"


def first_word_words(wanted, words):
    if re.fullmatch("[0-9]+", words[0]):
        return f"a row of numbers stands where {wanted.word} is due: a count above is too small, or a line too much"
    return f"the first word is {shown(words[0])} in place of {wanted.word}: a count above does not fit, or a line is missing"


def odd_number(word):
    """What is wrong with the spelling of a number; nothing where it is good."""
    if re.fullmatch("[0-9]+", word):
        if len(word) > 1 and word[0] == "0":
            return "has a leading zero"
        return "is above 18446744073709551615" if len(word) > 20 or int(word) > GREATEST else ""
    if re.fullmatch("[a-z]+", word):
        return "is a word where a number is due: a count above is too great, or a line is missing"
    return "is no number: digits alone, without sign, point, comma or exponent"


def amount_words(wanted, values):
    """What is wrong with a line of good numbers."""
    if wanted.count is None and wanted.word is None:
        if len(values) < 2 or not wanted.low <= values[1] <= wanted.high:
            return f"L is {values[1] if len(values) > 1 else 'missing'}"
        return f"L is {values[1]}, and {plural(len(values) - 2, 'link')} stand there"
    count = 2 if wanted.count is None else wanted.count
    if len(values) != count:
        return f"it has {plural(len(values), 'number')} in place of {count}"
    return f"{values[-1]} is not from {wanted.low} to {wanted.high}"
