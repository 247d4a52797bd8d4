"""Witnesses that are drawn for certificates that are drawn, most of the set and with a bound near the one that they show, and changes of those of
the tables; whether `check-witness` says of them what the second checker does; and whether both say yes to what `attack` and `challenge` write, and the
second has no lesser bound than the first.
"""
import random

import reference_check
import reference_witness

from .changes import CERTIFICATE, Alphabet, with_changes
from .drawn_certificates import OF_ONE, answer_of, drawn_certificate, numbers_text, paths_of, weights_of
from .folders import write_files
from .witnesses import SAMPLES

WITNESS = Alphabet(
    CERTIFICATE.pieces,
    [b"0", b"1", b"2", b"3", b"32", b"33", b"127", b"128", b"00", b"4294967295", b"4294967296", b"4294967297", b"68719476736", b"68719476737", b"999999",
     b"1000000", b"1000001", b"9999999999999999999", b"10000000000000000000", b"18446744073709551615", b"18446744073709551616", b"bound", b"scale",
     b"demand", b"end", b"a", b"yates-witness", b""],
    b" ",
)
NAME, SEPARATOR, CASES_OF_CAMPAIGN = "w", WITNESS.separator, 1_000_000
# Of how many certificates one is attacked and challenged.
ATTACKED = 4


def demands_of(draw, certificate, x, y):
    """A demand for each pair, of the set where there is a multiple for it and it is not drawn otherwise."""
    if not certificate["set"]:
        return [draw.choice((0, 1, 10, draw.randint(0, 1000), 2**32)) for _ in certificate["pairs"]]
    lower, upper = reference_check.bounds(certificate)
    return [min(2**32, draw.choice((-(-x * least // y), x * most // y, draw.randint(x * least // y, x * most // y)))) for least, most in zip(lower, upper)]


def rival_of(draw, certificate, demands):
    """The paths of each pair with a demand, and their weights: those of the certificate, or drawn ones."""
    links, rival = certificate["links"], []
    for (src, dst, own), demand in zip(certificate["pairs"], demands):
        drawn = paths_of(draw, links, src, dst) if draw.randrange(3) else []
        paths = [(weight, list(path)) for weight, path in zip(weights_of(draw, len(drawn)), drawn)] if drawn else own
        rival.append(paths if demand or draw.randrange(2) else [])
    return rival


def text_of(witness):
    rows = []
    for paths in witness["rival"]:
        rows += [str(len(paths)), *(f"{weight} {len(path)}{numbers_text(path)}" for weight, path in paths)]
    lines = [f"bound {witness['bound']}", f"scale {witness['x']} {witness['y']}", f"demand{numbers_text(witness['demand'])}", *rows, "end"]
    return "".join(f"{line}\n" for line in ["yates-witness 1", *lines]).encode()


def files_of(draw, seed, number):
    """The bytes of a certificate and of a witness; one of four is changed at some place."""
    head, ratio, rest = drawn_certificate(seed, number // OF_ONE)
    data = f"{head}ratio {ratio}\n{rest}".encode()
    certificate = reference_check.read(data)
    x, y = draw.choice(((1, 1), (1, draw.randint(1, 100)), (draw.randint(0, 100), draw.randint(1, 100))))
    demands = demands_of(draw, certificate, x, y)
    witness = {"bound": 0, "x": x, "y": y, "demand": demands, "rival": rival_of(draw, certificate, demands)}
    shown = reference_witness.performance_ratio(certificate, witness)
    witness["bound"] = max(0, shown + draw.choice((0, 0, 0, -1, 1)))
    text = text_of(witness)
    return data, text if draw.randrange(4) else with_changes(draw, text, WITNESS)


def case(seed, number):
    """The files of a case: half are drawn, and half are changes of the witnesses of the tables."""
    draw = random.Random(f"{seed} witness {number}")
    if draw.randrange(2):
        return dict(zip("cw", files_of(draw, seed, number)))
    certificate, witness = draw.choice(SAMPLES)
    return {"c": certificate, "w": with_changes(draw, witness, WITNESS)}


def judge(files, folder, number):
    """What the second checker says of the case, and what is wrong with the program's answers."""
    want, got = reference_witness.check_witness("c", files["c"], "w", lambda: files["w"]), answer_of(["check-witness", "c", "w"], folder)
    faults = [] if got == want else [f"check-witness: want {want}, got {got}"]
    if number % ATTACKED == 0:
        faults += faults_of_search(files["c"], folder)
    label = {0: "yes", 1: "no"}.get(want[2], "rule" if "rule" in want[1] else "shape")
    return label, faults


def bound_of(text):
    """The bound of a witness of this text."""
    return int(text.split()[3])


def faults_of_search(data, folder):
    """What is wrong with the witnesses that `attack` and `challenge` write of a certificate that is accepted."""
    texts, faults = [], []
    for command in ("attack", "challenge"):
        out, err, status = answer_of([command, "c"], folder)
        if (err, status) != ("", 0):
            return [*faults, f"{command}: {err!r}, status {status}"]
        texts.append(out)
        faults += faults_of_made(command, data, out, folder)
    lesser, greater = (bound_of(text) for text in texts)
    return [*faults, f"challenge shows {greater}, and attack {lesser}"] if greater < lesser else faults


def faults_of_made(command, data, out, folder):
    """What is wrong with the witness that the command wrote, which both say yes to."""
    made = out.encode()
    write_files(folder, {"a": made})
    yes = f"yes bound {bound_of(out)}\n", "", 0
    said = reference_witness.check_witness("c", data, "a", lambda: made), answer_of(["check-witness", "c", "a"], folder)
    return [f"{name} of what {command} writes: {it}" for name, it in zip(("the second checker", "check-witness"), said) if it != yes]
