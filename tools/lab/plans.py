"""Plans, read as docs/FORMATS.md says."""
import json

from .faults import Fault

DEFAULT_SCHEMES = ("spf", "ecmp", "ksp", "mcf", "racke", "smore")
SCHEMES = (*DEFAULT_SCHEMES, "valiant", "robust")
OBLIVIOUS = ("spf", "ecmp", "ksp", "racke", "valiant", "robust")
RECOVERIES = ("none", "scale", "bypass", "reroute", "adapt")
KEYS = (
    "topology", "matrices", "failures", "predictions", "schemes", "recovery", "publish", "margin", "k", "budget", "trees", "seed", "seeds", "envelope",
)
FILES = ("topology", "matrices", "failures", "predictions")
COUNTS = {"k": (1, 32), "budget": (1, 32), "trees": (1, 16), "seed": (0, 2**64 - 1), "seeds": (1, 64)}
MAX_DEPTH = 127


class NotJson(Exception):
    """What the program's reader refuses and Python's takes."""


class Written(float):
    """A number that is not written in digits alone, or too great for 64 bits, and how it is written."""

    def __new__(cls, text):
        made = super().__new__(cls, text)
        made.text = text
        return made


class Plan:
    """The values of the keys, with those that are not there; and the keys that stand twice."""

    def __init__(self, members, twice):
        self.topology, self.matrices = members["topology"], members["matrices"]
        self.failures, self.predictions = members.get("failures"), members.get("predictions")
        self.schemes = members.get("schemes", list(DEFAULT_SCHEMES))
        self.recovery = members.get("recovery", "none")
        self.publish, self.names_publish = members.get("publish", "racke"), "publish" in members
        self.k, self.budget = members.get("k", 4), members.get("budget", 4)
        self.trees, self.seed, self.seeds = members.get("trees", 8), members.get("seed", 0), members.get("seeds", 1)
        self.margin = members.get("margin")
        self.envelope = members.get("envelope", False)
        self.twice = twice


def read_plan(data):
    """The plan and no fault, or None and the faults, the first of which is the program's."""
    twice = []
    try:
        value = parse(data, twice)
    except (UnicodeDecodeError, ValueError, NotJson, RecursionError) as error:
        return None, [Fault("not json", value=error)]
    if not isinstance(value, dict):
        return None, [Fault("kind of", key="plan", value=value)]
    faults = [Fault("unknown key", value=key) for key in value if key not in KEYS]
    faults += [Fault("missing", key=key) for key in ("topology", "matrices") if key not in value]
    for key in KEYS:
        if key in value:
            kind = value_fault(key, value[key], value)
            if kind:
                faults.append(Fault(kind, key=key, value=value[key]))
    return (None, faults) if faults else (Plan(value, twice), [])


def parse(data, twice):
    """The JSON value of the bytes. Keys that stand twice are added to `twice`; the last one counts."""

    def pairs(members):
        keys = [key for key, _ in members]
        twice.extend(key for key in dict.fromkeys(keys) if keys.count(key) > 1)
        return dict(members)

    def constant(word):
        raise NotJson(f"{word} is no number of JSON")

    def floating(text):
        if abs(float(text)) == float("inf"):
            raise NotJson(f"{text[:40]}{'..' if len(text) > 40 else ''} is too great for a number")
        return Written(text)

    def whole(text):
        return floating(text) if text == "-0" or len(text) > 20 else int(text)

    text = data.decode("utf-8")
    value = json.loads(text, object_pairs_hook=pairs, parse_constant=constant, parse_float=floating, parse_int=whole)
    json.dumps(value, ensure_ascii=False).encode("utf-8")
    if depth(value) > MAX_DEPTH:
        raise NotJson("the values nest more than 127 deep")
    return value


def depth(value):
    if isinstance(value, (dict, list)):
        return 1 + max((depth(it) for it in (value.values() if isinstance(value, dict) else value)), default=0)
    return 0


def is_count(value):
    return isinstance(value, int) and not isinstance(value, bool) and 0 <= value < 2**64


def value_fault(key, value, members):
    """What is wrong with the value of a key, beside these members: kind, then range, then scheme name; or None."""
    if key in FILES:
        return "kind of" if not isinstance(value, str) else None if value else "range of"
    if key == "schemes":
        return schemes_fault(value)
    if key == "recovery":
        return "kind of" if not isinstance(value, str) else None if value in RECOVERIES else "range of"
    if key == "publish":
        return "kind of" if not isinstance(value, str) else None if value in OBLIVIOUS else "scheme name of"
    if key == "margin":
        return margin_fault(value)
    if key == "envelope":
        return "kind of" if not isinstance(value, bool) else "range of" if value and "margin" in members else None
    low, high = COUNTS[key]
    return "kind of" if not is_count(value) else None if low <= value <= high else "range of"


def schemes_fault(value):
    if not isinstance(value, list) or not all(isinstance(it, str) for it in value):
        return "kind of"
    if not 1 <= len(value) <= 16:
        return "range of"
    return None if all(it in SCHEMES for it in value) else "scheme name of"


def margin_fault(value):
    if not isinstance(value, list) or len(value) != 2 or not all(map(is_count, value)):
        return "kind of"
    return None if 1 <= value[1] <= value[0] <= 1000 else "range of"
