"""In words: what is wrong with a row of a CSV file, its names and its place among the others, and what to do."""
import difflib
import re

from .contents import SAVE_AS
from .header_words import HEADERS
from .inputs import MAX_LINKS, MAX_NODES, MAX_STEPS
from .letters import look_alikes, plain_text, shown, some
from .number_words import COUNT_STEPS, UNIT

NAMES = "a name is 1 to 32 of the characters A-Z a-z 0-9 _ . -"


def fields_words(record, header, data):
    """What is wrong with a row that has not as many fields as the header."""
    wanted, have, line = len(header), len(record.fields), record.data.strip()
    counts = f"it has {have} field{'s' if have > 1 else ''} in place of {wanted}"
    if line.startswith((b"#", b"//", b"%")):
        return "the row is a comment, and comments are no part of these files", "delete the line"
    if not line.strip(b"\x1a\0"):
        what = "blanks alone, and only a line without a byte is skipped" if not line else "no text: bytes that a program left behind"
        return f"the row has {what}", "delete the line"
    if have < wanted and any(it in line for it in (b";", b"\t", b"|")):
        mark = "semicolons" if b";" in line else "tabs" if b"\t" in line else "upright strokes"
        return f"its fields stand apart by {mark}", SAVE_AS
    if b"\n" in record.data or b"\r" in record.data:
        return "a double quote is not closed on its line, so the field goes on over the next lines", "close the quote, or delete it"
    if have == 1 and len(line.split()) == wanted:
        return "its fields stand apart by blanks", "put commas between them"
    if have == wanted + 1 and record.fields[-1] == b"":
        return "the row ends in a comma, so it has an empty field more", "delete the last comma"
    if have < wanted and data.endswith(record.data):
        return f"{counts}, and the file ends in this row, without a line's end: it may have been cut", "copy the whole file again, or write the row whole"
    if have > wanted and record.fields[wanted].lstrip().startswith((b"#", b"//")):
        return "a comment stands behind the row, and comments are no part of these files", "delete the comment and the comma before it"
    if have > wanted and all(it.strip(b" .\"").isdigit() for it in record.fields[2 if header[0] == b"source" else 3 :]):
        return f"it has {have} fields in place of {wanted}: a decimal comma or a thousands mark takes a number apart", f"write whole numbers without marks; {UNIT}"
    return counts, f"each row is {b','.join(header).decode()}"


def is_header(record, header):
    return [it.strip().lower() for it in record.fields] == list(header)


def header_again_words():
    return "the row is the header once more, as where two files were put together", "delete the line, and sort rows and steps as one file has them"


def name_words(name, column):
    """What is wrong with a name that breaks the rule for names."""
    place, text = f"the {column}", name.decode("utf-8", "replace")
    if not name:
        return f"{place} is empty (a spreadsheet writes rows of commas for cells that were emptied)", "delete the row, or write a name"
    if is_good_name(plain_text(text).strip()) and look_alikes(text):
        return f"{place} has characters that are not what they look like: {look_alikes(text)}", f"type it anew, in all files: {plain_text(text).strip()}"
    if "\ufffd" in text:
        return f"{place} is no UTF-8, as where a file is saved as Latin-1; {NAMES}", f"rename it in all files, for instance to {better_name(text)}"
    if text != text.strip():
        return f"{place} begins or ends with a blank, which belongs to the name here", "delete the blanks beside the commas"
    if len(name) > 32 and re.match(rb"[A-Za-z0-9_.-]+\Z", name):
        return f"{place} has {len(name)} characters", f"{NAMES}: choose a shorter one"
    bad = sorted({it for it in text if not re.match(r"[A-Za-z0-9_.-]", it)})
    said = ", ".join("a blank" if it == " " else shown(it) for it in bad)
    return f"{place} has {said}; {NAMES}", f"rename it in all files, for instance to {better_name(text)}"


def is_good_name(text):
    return re.fullmatch(r"[A-Za-z0-9_.-]{1,32}", text) is not None


def better_name(text):
    return re.sub(r"[^A-Za-z0-9_.-]+", "-", plain_text(text))[:32].strip("-") or "a name of these"


def unknown_words(name, column, net):
    """What is wrong with a name that the topology has not."""
    place, text = f"the {column}", name.decode("utf-8", "replace")
    names = [it.decode() for it in net.nodes]
    if not name:
        return f"{place} is empty", "delete the row, or write the name of a node"
    alike = plain_text(text).strip()
    if alike in names and look_alikes(text):
        return f"{place} {shown(name)} is no node, although it looks like one: {look_alikes(text)}", f"type it anew: {alike}"
    near = [it for it in names if it.lower() == text.strip().strip('"').lower()]
    if near:
        return f"{place} {shown(name)} is no node; names are told apart by capitals and blanks, and the topology has {near[0]}", "write it as the topology does"
    if re.fullmatch("[0-9]+", text) and int(text[:9]) <= len(names):
        return f"{place} is {shown(name)}, and nodes go by their names here, not by numbers", f"write the names of the topology: {some(names)}"
    close = difflib.get_close_matches(shown(name), names, 1)
    hint = f" (is it {close[0]}?)" if close else ""
    return f"{place} {shown(name)} is no node of the topology{hint}", f"its nodes are {some(names)}"


def too_many_words(fault):
    nodes, links = fault.other
    if nodes > MAX_NODES:
        return f"the row brings node {nodes}, and a topology has at most {MAX_NODES}", "leave nodes out that no demand needs, or take a site's routers together"
    return f"the row is link {links}, and a topology has at most {MAX_LINKS}", "take parallel links together: one row with the sum of their capacities"


def too_many_steps_words(step):
    if int(step) > 100_000_000:
        return f"step {shown(step)} looks like a time stamp; steps go from 0 to {MAX_STEPS - 1}", COUNT_STEPS
    if re.match(rb"(19|20)[0-9]{6}", step) or re.match(rb"(19|20)[0-9]{2}\Z", step):
        return f"step {shown(step)} looks like a date; steps go from 0 to {MAX_STEPS - 1}", COUNT_STEPS
    return f"steps go from 0 to {MAX_STEPS - 1}", "begin at step 0, and split a longer series into several files"


def no_step_words(fault):
    if fault.other == 0:
        return "the series has no step, since there is no row below the header", "write a row for each demand: step,source,target,demand"
    return f"the series has the steps 0 to {fault.other - 1}: it ends with the greatest step of a row", "count steps from 0"


def no_route_words(fault):
    source, target = map(shown, fault.record.fields[1:3])
    return f"the certificate declares no pair from {source} to {target}", "publish a plan whose matrices have the pair, or drop its rows"


def order_words(fault):
    return f"step {shown(fault.record.fields[0])} comes after step {fault.other}", "sort the rows by step, as numbers: sort -s -t, -k1,1n FILE keeps the header first"


def repeated_words(fault):
    return f"line {fault.other} has a demand of the same step, source and target", "keep one of the two rows, or write their sum"


def failure_number_words(text, column, net):
    """What is wrong with a field of a failure file that has other characters than digits."""
    if column == "link":
        return link_words(text, net)
    if text.encode() in net.nodes:
        return f"{column} is a step here, and {shown(text)} is a node", f"from and to are the first and the last step of the outage; the link goes by its number{numbers_hint(net)}"
    if text in ("", "-", "*", "end", "inf", "None", "NaN"):
        return f"{column} is {shown(text) or 'empty'}, and must be a step", "an outage from the first step on is from 0; one to the end has the last step in to"
    return f"the step {shown(text)} is no whole number", "from and to are steps, counted from 0"


def link_words(text, net):
    ends = re.fullmatch(r"(.+?)(?:->|>|-|:|/)(.+)", text)
    found = links_between(net, *(it.strip().encode() for it in ends.groups())) if ends else []
    said = f": {shown(text)} may be link {' or '.join(map(str, found))}" if found else ""
    return f"the link {shown(text) or '(empty)'} is no number", f"a link goes by its number, which is its row in the topology less 1{said}; tools/fibre_cuts NET lists them"


def numbers_hint(net):
    return " (tools/fibre_cuts NET lists the links by their ends)" if net.links else ""


def links_between(net, source, target):
    return [i for i, it in enumerate(net.links) if {it[0], it[1]} == {net.nodes.get(source), net.nodes.get(target)}]


def no_link_words(fault):
    link, links = fault.record.fields[2].decode(), fault.other
    hint = ": the links were counted from 1" if int(link) == links else ""
    return f"there is no link {link}{hint}; the topology has links 0 to {links - 1}", "a link's number is its row in the topology less 1; tools/fibre_cuts NET lists them"


def interval_words(fault):
    first, last, steps = int(fault.record.fields[0]), int(fault.record.fields[1]), fault.other
    if first > last:
        return f"from, {first}, is after to, {last}", "write the first step of the outage, and then the last"
    if steps == 0:
        return "the matrix file has no step at all", "write demands first"
    return f"step {last} is past the last one: the matrix file has steps 0 to {steps - 1}", f"steps are counted from 0; an outage to the end has to {steps - 1}"
