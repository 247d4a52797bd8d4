"""The forms of the commands and the statuses, as docs/FORMATS.md has them, in the form that `man` reads."""
import re

NAME = "checks, makes and compares routings with proved oblivious ratios"


def plain(text):
    """The words of a cell without marks and links."""
    return re.sub(r"[`*]", "", re.sub(r"\[([^\]]*)\]\([^)]*\)", r"\1", text)).strip()


def line_of(text):
    """A line that begins with no control character, and whose hyphens and backslashes stay what they are."""
    safe = text.replace("\\", "\\e").replace("-", "\\-")
    return f"\\&{safe}" if safe[:1] in ".'" else safe


def man_page(version, formats):
    """The page, from the text of docs/FORMATS.md."""
    forms = re.search(r"^```forms\n(.*?)^```$", formats, re.M | re.S).group(1).splitlines()
    statuses = re.search(r"^\| Status \| When .*?\n\|[-|]+\n((?:\|.*\n)+)", formats, re.M).group(1).splitlines()
    lines = [f'.TH YATES 1 "" "yates {version}"', ".SH NAME", f"yates \\- {line_of(NAME)}", ".SH SYNOPSIS"]
    for form in (it for it in forms if it.startswith("yates ")):
        words, _, says = form.partition("  ")
        lines += [".TP", f".B {line_of(words)}", line_of(says.strip())]
    lines += [".SH DESCRIPTION", *(line_of(it) for it in forms if not it.startswith("yates "))]
    lines += ["Files, texts and messages are described in docs/FORMATS.md.", ".SH EXIT STATUS"]
    for row in statuses:
        status, when, said = (plain(it) for it in row.strip("|").split("|"))
        lines += [".TP", f".B {status}", line_of(when) + ("" if said == "nothing" else f"; standard error: {line_of(said)}")]
    lines += [".SH SEE ALSO", line_of("docs/GUIDE.md, which begins with an example; docs/FORMATS.md")]
    return "\n".join(lines) + "\n"
