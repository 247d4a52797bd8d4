"""In words: what is wrong with a plan, and what to do."""
import difflib
import json
import re

from .contents import foreign, is_utf_16, text_kind
from .letters import look_alikes, plain_text, shown
from .plans import FILES, KEYS, OBLIVIOUS, RECOVERIES, SCHEMES, Written

# What each key takes, as a user would write it.
VALUES = {
    "topology": "the name of a file, in quotes",
    "matrices": "the name of a file, in quotes",
    "failures": "the name of a file, in quotes; leave the key out where nothing fails",
    "predictions": "the name of a matrix file, in quotes; leave the key out where schemes are given the matrices themselves",
    "schemes": "a list of 1 to 16 of " + ", ".join(f'"{it}"' for it in SCHEMES),
    "recovery": "one of " + ", ".join(f'"{it}"' for it in RECOVERIES),
    "publish": "one of " + ", ".join(f'"{it}"' for it in OBLIVIOUS),
    "margin": "two whole numbers of 1 to 1000 in a list, the first no less than the second: [2, 1] is half to twice, [3, 2] two thirds to one and a half",
    "k": "a whole number from 1 to 32, without quotes",
    "budget": "a whole number from 1 to 32, without quotes",
    "trees": "a whole number from 1 to 16, without quotes",
    "seed": "a whole number from 0 to 18446744073709551615, without quotes",
    "seeds": "a whole number from 1 to 64, without quotes",
    "envelope": "true or false, without quotes; true is for the matrices between the least and the greatest demand of each pair, and not beside a margin",
}
OTHER_NAMES = {"raecke": "racke", "räcke": "racke", "optimal": "mcf", "opt": "mcf", "semimcf": "smore", "semimcfraecke": "smore", "ospf": "spf", "shortest": "spf", "vlb": "valiant", "oblivious": "robust"}
OTHER_KEYS = {"demands": "matrices", "traffic": "matrices", "network": "topology", "net": "topology", "scheme": "schemes", "paths": "k"}
LEAST_PLAN = '{"topology": "net.csv", "matrices": "tm.csv"}'
# What the reader of JSON in Python finds, what that means, and what to do.
JSON_FAULTS = [
    ("Extra data", "something stands behind the end of the value", "a plan is one object, from { to the } that closes it: delete what stands behind"),
    ("Unterminated string", "a double quote is not closed", "close it with another"),
    ("Invalid control character", "a quote is not closed on its line, or a text has a tab", "close the quote, or write \\t"),
    ("Invalid \\escape", "a backslash stands in a text, as in names of files of Windows", "write / in its place, or two of them"),
    ("Invalid \\u", "\\u stands without four digits", "write / in place of a backslash, or two of them"),
    ("Expecting ',' delimiter", "a comma or a closing bracket is missing before this", "write a comma between two members, and close each bracket"),
    ("Expecting ':' delimiter", "a colon is missing between a key and its value", 'write "key": value'),
    ("Expecting property name", "a key must stand here, in double quotes", 'write "key": value, and no comma behind the last member'),
]


def in_json(value):
    """A value as the plan has it."""
    if isinstance(value, Written):
        return value.text
    if isinstance(value, list):
        return "[" + ", ".join(map(in_json, value)) + "]"
    if isinstance(value, dict):
        return "{" + ", ".join(f"{in_json(key)}: {in_json(it)}" for key, it in value.items()) + "}"
    return json.dumps(value, ensure_ascii=False)


def kind_of(value):
    """What a value of JSON is."""
    kinds = [(bool, "a truth value"), (str, "a text"), (list, "a list"), (dict, "an object"), (int, "a whole number"), (Written, "a number")]
    return next((what for kind, what in kinds if isinstance(value, kind)), "null")


def plan_words(fault, data):
    """Why the plan is refused, and what to do."""
    if fault.kind == "not json":
        return not_json_words(fault.value, data)
    if fault.kind == "unknown key":
        return unknown_key_words(fault.value)
    if fault.kind == "missing":
        return f"the plan does not name its {fault.key} file", f'add "{fault.key}": "FILE"'
    if fault.key == "plan":
        return f"the file is JSON, and {kind_of(fault.value)}, not an object", f"write an object: {LEAST_PLAN}"
    return value_words(fault)


def value_words(fault):
    """What is wrong with the value of a key."""
    key, value, takes = fault.key, fault.value, f"{fault.key} is {VALUES[fault.key]}"
    if fault.kind == "scheme name of":
        return scheme_words(key, value, takes)
    said = f"the value of {key}, {shown(in_json(value))},"
    if isinstance(value, str):
        return text_words(key, value, said, takes)
    if fault.kind == "range of":
        return range_words(key, value, said), takes
    if value is None:
        return f"{said} is JSON's word for nothing, and no value of a key", f"leave the key out, or: {takes}"
    if isinstance(value, Written) and key not in (*FILES, "schemes", "recovery", "publish"):
        return f"{said} {written_fault(value.text)}", takes
    if isinstance(value, int) and not isinstance(value, bool) and value < 0:
        return f"{said} is below 0", takes
    if isinstance(value, int) and value >= 2**64:
        return f"{said} is too great for 64 bits", takes
    if key == "margin" and isinstance(value, list) and len(value) == 2:
        return f"{said} is a list of two, of which one is no whole number", takes
    if key == "schemes" and isinstance(value, list):
        return f"{said} is a list, and {in_json(next(it for it in value if not isinstance(it, str)))} in it no text", takes
    return f"{said} is {kind_of(value)}, of the wrong kind", takes


def written_fault(text):
    """Why a number that is not written in digits alone is none that a plan takes."""
    if text.lstrip("-").isdigit():
        return "is too great for 64 bits" if text[0] != "-" else "has a sign"
    return "is written with an exponent" if "e" in text.lower() else "has a fraction"


def range_words(key, value, said):
    if key == "envelope":
        return "envelope is true beside a margin, and a certificate is of one set"
    if value == []:
        return f"{said} is an empty list"
    if key == "schemes":
        return f"{said} has {len(value)} entries"
    if key == "margin" and value[0] < value[1]:
        return f"{said} has its numbers in the wrong order"
    return f"{said} is out of range"


def text_words(key, value, said, takes):
    """A text that is wrong, or stands where none may."""
    bare = value.strip()
    if key in ("k", "budget", "trees", "seed", "seeds") and re.fullmatch("[0-9]+", bare):
        return f"the number stands in quotes: {shown(in_json(value))}", takes
    if key == "envelope" and bare.lower() in ("true", "false"):
        return f"{said} stands in quotes", takes
    if key in FILES:
        return f"{said} is empty", takes
    if key == "recovery":
        alike = plain_text(bare).lower()
        return f"{said} is no recovery" + (f": the name is {alike}" if alike in RECOVERIES else ""), takes
    if key == "schemes":
        return f"{said} is a text and no list", f'write ["{bare.lower()}"]; {takes}' if bare.lower() in SCHEMES else f"leave the key out for the six of a plan without it; {takes}"
    return f"{said} is a text, of the wrong kind", takes


def scheme_words(key, value, takes):
    bad = value if not isinstance(value, list) else next(it for it in value if it not in SCHEMES)
    if key == "publish" and bad in SCHEMES:
        return f"{bad} follows each matrix, so it has no one routing to publish", f"{takes}; run compares {bad}"
    alike = plain_text(bad).strip().lower()
    name = OTHER_NAMES.get(bad.strip().lower(), alike if alike in SCHEMES else None)
    near = [] if name else difflib.get_close_matches(alike, SCHEMES, 1, 0.7)
    why = f": {look_alikes(bad)}" if look_alikes(bad) else ""
    if bad.lower() in ("all", "*") and key == "schemes":
        return f"{shown(in_json(bad))} is no scheme", f"leave the key out for the six of a plan without it; {takes}"
    hint = f" here: the name is {name}{why}" if name else f" (is it {near[0]}?)" if near else ""
    return f"{shown(in_json(bad))} is no scheme{hint}", takes


def unknown_key_words(key):
    alike = plain_text(key).strip().lower()
    near = difflib.get_close_matches(alike, KEYS, 1, 0.6)
    hint = OTHER_KEYS.get(key.lower()) or (near[0] if near else None)
    keys = f"the keys are {', '.join(KEYS)}"
    seen = f", although it looks like one: {look_alikes(key)}" if alike in KEYS and look_alikes(key) else ""
    if key.startswith(("_", "#", "//")) or "comment" in key.lower():
        do = f"a plan has no comments: delete it; {keys}"
    elif key.strip().lower() in KEYS:
        do = f"is it {key.strip().lower()}? A key has no capitals and no blanks; {keys}"
    else:
        do = f"is it {hint}? {keys[0].upper()}{keys[1:]}" if hint else keys
    return f"{shown(in_json(key))} is no key of a plan{seen}", do


def not_json_words(error, data):
    """What stands in the way of reading the bytes as JSON."""
    at = getattr(error, "pos", None)
    place = f"line {error.lineno}, column {error.colno}: " if at is not None and hasattr(error, "lineno") else ""
    text = data.decode("utf-8", "replace")
    return whole_plan_words(error, data, text) or place_words(place, text, at) or json_words(error, place, text, at)


def whole_plan_words(error, data, text):
    """The file is no text of JSON at all."""
    if not data.strip():
        return "the file is empty", f"write an object: {LEAST_PLAN}"
    if foreign(data):
        return foreign(data)
    if data.startswith(b"\xef\xbb\xbf"):
        return "the file begins with a byte order mark (Notepad and PowerShell write one)", "save it as UTF-8 without a mark, or: sed -i '1s/^\\xef\\xbb\\xbf//' FILE"
    if is_utf_16(data):
        return "the file is UTF-16", "save it as UTF-8"
    what = text_kind(data)
    if what and not what.startswith("JSON"):
        return f"this is {what}, and no plan", f"give a plan, which names its files: {LEAST_PLAN}"
    if isinstance(error, UnicodeDecodeError):
        return f"byte {error.start} is no UTF-8", "save the file as UTF-8"
    if re.match(r"\s*[A-Za-z_]+\s*:", text) or text.lstrip().startswith("---"):
        return "this is YAML, and a plan is JSON", f"write {LEAST_PLAN}"
    if re.match(r"\s*(\[\w+\]\s*\n|[A-Za-z_]+\s*=)", text):
        return "this is TOML or a list of settings, and a plan is JSON", f"write {LEAST_PLAN}"
    return None


def place_words(place, text, at):
    """What stands at the place where JSON ends to be JSON."""
    if re.match(r"\s*(#|//|/\*)", text) or at is not None and re.match(r"\s*(#|//|/\*)", text[at:]):
        return f"{place}JSON has no comments", "delete the comment"
    if at is None:
        return None
    rest = text[at:]
    if rest[:1] == "'":
        return f"{place}JSON takes double quotes alone", "write \" in place of '"
    if rest[:1] in ("\u201c", "\u201d", "\u201e", "\u00ab"):
        return f"{place}these are typographic quotes", 'write plain quotes: "'
    if re.search(r",\s*\Z", text[:at]) and re.match(r"\s*[\]}]", rest) or re.match(r".?,?\s*[\]}]", rest, re.S) and re.search(r",\s*[\]}]", text[max(0, at - 1) :][:80]):
        return f"{place}a comma stands before the closing bracket", "delete that comma"
    if re.match(r"(True|False|None|TRUE|FALSE|NULL|Null)\b", rest):
        return f"{place}JSON writes true, false and null in small letters", f"write {rest[:5].strip(',} ').lower() if rest[0] in 'TFtf' else 'null'}"
    if not rest.strip():
        return f"{place}the file ends before the value does", "close each bracket and each quote, or copy the whole file again"
    if re.match(r"[+.]?[0-9]", rest) or re.match(r"\.?[0-9_xX.]", rest) and text[at - 1 : at].isdigit():
        return f"{place}JSON has no sign + before a number, no zeros in front of one, no point at an end and no marks in it", "write digits alone"
    if plain_text(rest[:1]) != rest[:1]:
        return f"{place}a character is not what it looks like: {look_alikes(rest[:1])}", "type it anew"
    return None


def json_words(error, place, text, at):
    """What the reader of JSON says, in the words of JSON."""
    said = getattr(error, "msg", str(error))
    if isinstance(error, UnicodeEncodeError):
        return "a text has half of a surrogate pair, as \\ud800 alone", "write the character itself"
    if isinstance(error, RecursionError):
        return "the values nest more than 127 deep", f"write an object: {LEAST_PLAN}"
    for beginning, what, do in JSON_FAULTS:
        if said.startswith(beginning):
            return f"{place}{what}", do
    if said.startswith("Expecting value"):
        word = re.match(r"[^\s,\]}]*", text[at:]).group()
        return f"{place}a value must stand here" + (f", and {shown(word)} is none" if word else ""), "a name or a text stands in double quotes, a number does not"
    return f"{place}{said}", "python3 -m json.tool PLAN shows the place"
