"""In words: what is wrong with a field that does not spell a number within its limits, and what to do."""
import re
import unicodedata

from .inputs import MAX_AMOUNT, MAX_COST, MAX_STEPS, number
from .letters import called, look_alikes, plain_text, shown

LIMITS = {"capacity": (1, MAX_AMOUNT), "cost": (1, MAX_COST), "demand": (0, MAX_AMOUNT)}
MOST_OF_TEN_DIGITS = 9_999_999_999
UNIT = "choose one unit for all capacities and demands in which each is whole: in kbit/s they may go up to 4.29 Tbit/s, in Mbit/s up to 4.29 Pbit/s"
# Units that are coarser than bit/s, each with the digits that it takes away.
COARSER = [(3, "kbit"), (6, "Mbit"), (9, "Gbit"), (12, "Tbit")]
COUNT_STEPS = "number the times in order: the first is step 0, the next 1"
MARK = "[,'_\u2019\u00a0\u2009\u202f ]"


def wanted(column, low, high):
    """What a column takes. A step or a link of more digits than it has is refused later, by another reason."""
    if column in LIMITS:
        return f"a {column} is a whole number from {low} to {high}"
    return "a link goes by its number, from 0 on" if column == "link" else f"a step is a whole number from 0 to {MAX_STEPS - 1}"


class Field:
    """A field, its column, what the column takes, and what to do where no better is known."""

    def __init__(self, data, column, net):
        self.data, self.column, self.net = data, column, net
        self.raw = data.decode("utf-8", "replace")
        self.text = self.raw.strip()
        self.low, self.high = LIMITS.get(column, (0, MOST_OF_TEN_DIGITS))
        self.wanted = wanted(column, self.low, self.high)
        self.unit = "round costs, or multiply all of them by the same number" if column == "cost" else UNIT

    def is_good(self, text):
        return number(text.encode(), self.low, self.high) is not None

    def says(self, what, do):
        return f"the {self.column} {shown(self.text)} {what}; {self.wanted}", do


def number_words(data, column, net):
    """Why the field is no number for this column, and what to do; `net` has the nodes that are known."""
    field = Field(data, column, net)
    kinds = (blank_words, empty_words, time_words, look_alike_words, whole_words, point_words, comma_words, written_words, other_words)
    return next(filter(None, (words(field) for words in kinds)))


def blank_words(field):
    if field.raw == field.text or not field.is_good(field.text):
        return None
    side = "begins" if field.raw[0] != field.text[0] else "ends"
    seen = look_alikes(field.raw.replace(field.text, ""))
    what = f"{side} with a blank{f' ({seen})' if seen else ''}, and blanks belong to their field here"
    return field.says(what, f"write {field.text}, without blanks beside the commas")


def empty_words(field):
    if field.text:
        return None
    return f"the {field.column} is empty; {field.wanted}", "write 0" if field.column == "demand" else f"write the {field.column}"


def time_words(field):
    if field.column not in ("step", "from", "to"):
        return None
    if re.search(r"\d[-/:T]\d|\d\.\d+\.\d{4}", field.text):
        return f"the {field.column} {shown(field.text)} is a date or a time", COUNT_STEPS
    if re.fullmatch("[0-9]+", field.text) and len(field.text.lstrip("0")) > 10:
        return f"the {field.column} {shown(field.text)} looks like a time stamp; steps go from 0 to {MAX_STEPS - 1}", COUNT_STEPS
    return None


def look_alike_words(field):
    """Digits of another script, and letters and signs that look like digits."""
    text = plain_text("".join(str(unicodedata.decimal(it)) if it.isdecimal() else it for it in field.text))
    if text != field.text and field.is_good(text):
        odd = next(it for it in field.text if not it.isascii())
        return field.says(f"has characters that only look like its digits, as {called(odd)}", f"write {text}")
    if re.fullmatch("[0-9OolI|]*[0-9][0-9OolI|]*", field.text) and not field.text.isdecimal():
        text = re.sub("[lI|]", "1", re.sub("[Oo]", "0", field.text))
        return field.says("has letters that look like 0 or 1", f"write {text}, if that is meant")
    odd = next((it for it in field.text if it.isdigit() and not it.isdecimal()), None)
    return field.says(f"has {called(odd)}, which is no digit", "write the number out") if odd else None


def whole_words(field):
    """Digits alone, which are out of range or too many."""
    if not re.fullmatch("[0-9]+", field.text):
        return None
    digits = field.text.lstrip("0") or "0"
    if len(digits) > 20:
        return field.says("is too great", "is it several numbers without a comma between them?")
    value = int(digits)
    if value < field.low:
        what = "a link without capacity is no link: drop the row, or let it fail by a failure file" if field.column == "capacity" else "write 1 or more"
        return f"the {field.column} is {value}; {field.wanted}", what
    if value <= field.high:
        return f"the {field.column} has more than 10 digits; {field.wanted}", "leave leading zeros out"
    if field.column == "cost":
        return f"the cost {value} is too great; {field.wanted}", "divide all costs by the same number"
    if field.column not in LIMITS:
        return f"the {field.column} {value} is too great; {field.wanted}", f"write the number of the {field.column}"
    places, name = next((places, name) for places, name in COARSER if value // 10**places <= field.high)
    return f"the {field.column} {value} is too great, as where it is given in bit/s; {field.wanted}", f"in {name}/s it would be {shifted(value, places)}; {UNIT}"


def shifted(value, places):
    """The number with its point so many places to the left, without needless digits."""
    return f"{value // 10**places}.{value % 10**places:0{places}d}".rstrip("0").rstrip(".")


def point_words(field):
    """Digits with points."""
    text = field.text
    if re.fullmatch(r"[1-9][0-9]{0,2}(\.[0-9]{3})+", text):
        return marks_words(field, ".", "point")
    if re.fullmatch(r"[0-9]+\.0+", text):
        return field.says("has decimals", f"write {text.partition('.')[0].lstrip('0') or '0'}")
    if re.fullmatch(r"[0-9]*\.[0-9]+|[0-9]+\.", text):
        return field.says("has decimals", field.unit)
    return None


def comma_words(field):
    """Digits with commas, which stand in quotes, or with other marks."""
    text = field.text
    if re.fullmatch(r"[1-9][0-9]{0,2}(,[0-9]{3})+", text):
        return marks_words(field, ",", "comma")
    if re.fullmatch(r"[0-9]+,[0-9]+", text):
        return field.says("has a decimal comma", field.unit)
    if re.fullmatch(rf"[0-9]{{1,3}}({MARK}[0-9]{{3}})+", text):
        return field.says("has a thousands mark", f"write {re.sub('[^0-9]', '', text)}")
    if re.fullmatch(rf"[0-9]{{1,3}}([.]|{MARK})[0-9]{{3}}(\1[0-9]{{3}})*[.,][0-9]+", text):
        return field.says("has a thousands mark and decimals", field.unit)
    return None


def marks_words(field, mark, name):
    """Groups of three digits: where there are two, the mark may stand before decimals too."""
    groups = field.text.split(mark)
    joined = "".join(groups)
    if len(groups) > 2:
        return field.says("has a thousands mark", f"write {joined}")
    decimals = f"write {groups[0]}" if not int(groups[1]) else field.unit
    return field.says(f"may have a thousands mark or decimals: is it {joined}, or {groups[0]} and {groups[1]} thousandths?", f"where the {name} is a thousands mark, write {joined}; where it is a decimal {name}, {decimals}")


def written_words(field):
    """A number that is written otherwise than in digits."""
    text = field.text
    if re.fullmatch(r"([0-9]+\.?[0-9]*|\.[0-9]+)[eE][+-]?[0-9]+", text):
        return exponent_words(field)
    if re.fullmatch(r"[0-9.,]+ *([kKMGTP][A-Za-z/]*|[A-Za-z]+(/s)?|[%$\u20ac])", text):
        return field.says("has a unit", f"write the number alone; {UNIT}" if field.column in ("capacity", "demand") else "write the number alone")
    if re.fullmatch(r"[+][0-9]+", text):
        return field.says("has a sign", "write it without the sign")
    if re.fullmatch(r"[-\u2212][0-9.,]+|\([0-9.,]+\)", text):
        return field.says("has a sign", "there are no amounts below 0")
    if re.fullmatch(r"0[xX][0-9a-fA-F]+", text):
        return field.says("is written to the base 16", "write it in decimal digits")
    if re.fullmatch(r"[0-9]+ *(-|\.\.|/|\*) *[0-9]+", text):
        return field.says("has two numbers", "write one")
    return None


def exponent_words(field):
    """What digits with an exponent stand for, exactly, where that is whole and not too long."""
    digits, _, power = field.text.lower().partition("e")
    whole, _, decimals = digits.partition(".")
    places = int(power[:9]) - len(decimals)
    digits = (whole + decimals).lstrip("0")
    if digits and len(digits) + places > 20:
        return field.says("is written with an exponent, and too great", field.unit)
    value = digits + "0" * min(places, 20) if places >= 0 else digits[:places]
    if places < 0 and digits[places:].strip("0"):
        return field.says("is written with an exponent, and has decimals", field.unit)
    value = value.lstrip("0") or "0"
    if not field.is_good(value):
        return field.says(f"is written with an exponent, and is {value}, which is out of range", field.unit)
    return field.says("is written with an exponent", f"write it out: {value}")


def other_words(field):
    text, column = field.text, field.column
    skip = "write 0, or leave the row out" if column == "demand" else f"write the {column}"
    if re.fullmatch(r"#+", text):
        return field.says("is what a spreadsheet shows where a column is too narrow", "widen the column, and save the file again")
    if re.match(r"#[A-Z/0]+[!?]?", text):
        return field.says("is a fault of a spreadsheet's formula", "mend the formula, and save the file again")
    if text.startswith("="):
        return field.says("is a formula", "save the file with values in place of formulas")
    if text.lower() in ("nan", "na", "n/a", "null", "none", "nil", "inf", "-inf", "infinity", "-", "--", "?", "x"):
        return field.says("is no number", skip)
    if field.data in field.net.nodes:
        return field.says("is a node", "do the columns of this row stand in the order of the header?")
    if re.search("[\"'\u201c\u201d\u2018\u2019\u00ab\u00bb`]", text):
        return field.says("has quotes that belong to the field", "delete them")
    return field.says("is no number", field.unit)
