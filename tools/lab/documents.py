"""How long the lines and sentences of a document are."""
import re

MOST_CHARACTERS, MOST_WORDS = 200, 60
# Of the page that a newcomer reads first, which ends where the README says what is proved.
MOST_WORDS_AT_FIRST, END_OF_FIRST_PAGE = 40, "\n## What is proved\n"
# Where a sentence ends: a mark, blanks, and what a sentence begins with.
END = re.compile(r"(?<=[.:!?])\s+(?=[A-Z`*\[\"\d(])")
LINK = re.compile(r"\]\([^)]*\)")
# What begins a paragraph of its own without an empty line before it.
ITEM = re.compile(r"\s*(?:[-*]|\d+\.)\s")


def paragraphs(text):
    """The texts that sentences stand in, without what is printed as it stands: paragraphs, items of lists and cells of tables."""
    is_printed, lines = False, []
    for line in [*text.split("\n"), ""]:
        is_fence, is_row = line.lstrip().startswith("```"), line.startswith("|")
        if is_fence or is_row or is_printed or not line.strip() or line.startswith("#") or ITEM.match(line):
            yield " ".join(lines)
            lines = []
        if is_row:
            yield from (cell.strip() for cell in line.strip("|").split(" | "))
        elif line.strip() and not is_fence and not is_printed and not line.startswith("#"):
            lines.append(line.strip())
        is_printed ^= is_fence


def faults_of(name, text):
    """The lines, tables aside, and the sentences that are too long."""
    faults, is_printed = [], False
    for number, line in enumerate(text.split("\n"), 1):
        is_printed ^= line.lstrip().startswith("```")
        if len(line) > MOST_CHARACTERS and not line.startswith("|") and not is_printed:
            faults.append(f"{name}:{number}: {len(line)} characters")
    return faults + long_sentences(name, text, MOST_WORDS)


def long_sentences(name, text, most):
    """The sentences of more words."""
    sentences = [it for paragraph in paragraphs(text) for it in END.split(LINK.sub("]", paragraph))]
    return [f"{name}: {len(it.split())} words: {it[:60]}" for it in sentences if len(it.split()) > most]


def faults_of_first_page(name, text):
    """The sentences that are too long for a newcomer; and where the page does not end."""
    page, end, _ = text.partition(END_OF_FIRST_PAGE)
    return long_sentences(name, page, MOST_WORDS_AT_FIRST) if end else [f"{name}: there is no heading{END_OF_FIRST_PAGE.strip().strip('#')}"]
