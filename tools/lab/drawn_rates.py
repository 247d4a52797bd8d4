"""Rates that are drawn for certificates that are drawn, most of them near what fits and near what is guarded, and changes of those of the tables;
whether `check-rates` says of them what the second checker does; and whether what `protect` writes is answered yes and keeps its promises.
"""
import random

import reference_check
import reference_rates
from reference_update import series_of

from .changes import CERTIFICATE, INPUT, Alphabet, with_changes
from .drawn_certificates import answer_of, numbers_text, paths_of
from .drawn_updates import certificate_text, ends_of, matrices_text, routes_of
from .folders import write_files
from .rates import SAMPLES

RATES = Alphabet(
    CERTIFICATE.pieces,
    [b"0", b"1", b"2", b"3", b"8", b"9", b"00", b"4294967295", b"4294967296", b"4294967297", b"18446744073709551615", b"18446744073709551616", b"failures",
     b"end", b"a", b"yates-rates", b""],
    b" ",
)
NAMES, SEPARATOR, CASES_OF_CAMPAIGN = "cmr", RATES.separator, 1_000_000
ALPHABETS = CERTIFICATE, INPUT, RATES
# Of how many cases one is protected, and of how many of these one is converted too.
PROTECTED, CONVERTED = 2, 8


def with_sums(draw, links, routes, allocations):
    """The links with capacities that the allocations fill, or leave a little of, but for one link of some networks that they pass."""
    sums = reference_rates.sums_on_links(routes, allocations)
    room = draw.choice(((0, 0), (0, 1), (0, 9)))
    found = [(tail, head, min(2**32, max(1, sums[place] + draw.randint(*room))), cost) for place, (tail, head, _, cost) in enumerate(links)]
    if draw.randrange(8) == 0:
        place = draw.randrange(len(links))
        tail, head, capacity, cost = found[place]
        found[place] = tail, head, max(1, capacity - 1), cost
    return found


def allocations_of(draw, paths):
    """An allocation for each path: one number for all, or numbers of their own."""
    most = draw.choice((3, 10, 10, 100, 2**32))
    even = draw.randint(0, most)
    return [even for _ in paths] if draw.randrange(3) == 0 else [draw.randint(0, most) for _ in paths]


def near(draw, number, steps):
    """A number, or one near it."""
    return min(2**32, max(0, number + draw.choice(steps)))


def text_of(rates):
    rows = [numbers_text([grant, *allocation])[1:] for grant, allocation in zip(rates.grants, rates.allocations)]
    return "".join(f"{line}\n" for line in ["yates-rates 1", f"failures {rates.failures}", *rows, "end"]).encode()


def files_of(draw):
    """The bytes of a certificate, matrices and rates: of some the pairs differ, and of some a file is changed somewhere."""
    nodes = draw.choice((2, 2, 3, 4))
    links = ends_of(draw, nodes)
    reached = [(src, dst) for src in range(nodes) for dst in range(nodes) if src != dst and paths_of(draw, links, src, dst)]
    pairs = sorted(draw.sample(reached, min(len(reached), draw.choice((0, 1, 1, 2, 4, 6)))))
    drawn = routes_of(draw, links, pairs)
    routes = [[path for _, path in paths] for _, paths in drawn]
    failures = draw.choice((0, 1, 1, 1, 2, 3, 8)) if draw.randrange(40) else draw.choice((9, 2**32 - 1, 2**32, 2**32 + 1, 2**64 - 1))
    allocations = [allocations_of(draw, paths) for paths in routes]
    guards = [reference_rates.guard(paths, failures, allocation) for paths, allocation in zip(routes, allocations)]
    grants = [near(draw, guard, (0, 0, 0, 0, 0, 0, 0, 0, -1, 1)) for guard in guards]
    demands = [near(draw, grant, (0, 0, 0, 0, 0, 0, 0, 5, -1, 1)) for grant in grants]
    if grants and draw.randrange(40) == 0:
        grants[-1] = 2**32 + 1
    how, has_pair = draw.randrange(20), draw.randrange(20) > 0
    files = [
        certificate_text(draw, nodes, with_sums(draw, links, routes, allocations), drawn),
        matrices_text(draw, pairs if has_pair else pairs[1:], demands if has_pair else demands[1:]),
        text_of(reference_rates.Rates(failures, grants, allocations)),
    ]
    if how >= 16:
        place = draw.choice((0, 1, 2, 2))
        files[place] = with_changes(draw, files[place], ALPHABETS[place])
    return files


def case(seed, number):
    """The files of a case: most are drawn, and the others are changes of the rates of the tables."""
    draw = random.Random(f"{seed} rates {number}")
    if draw.randrange(4):
        return dict(zip(NAMES, files_of(draw)))
    certificate, matrices, rates = draw.choice(SAMPLES)
    return {"c": certificate, "m": matrices, "r": with_changes(draw, rates, RATES)}


def judge(files, folder, number):
    """What the second checker says of the case, and what is wrong with the program's answers."""
    want, got = reference_rates.answer(NAMES, files.__getitem__), answer_of(["check-rates", *NAMES], folder)
    faults = [] if got == want else [f"check-rates: want {want}, got {got}"]
    if number % PROTECTED == 0:
        is_converted = number % (PROTECTED * CONVERTED) == 0
        faults += faults_of_protection(files, folder, number // PROTECTED % 9, answer_of(["convert", "c"], folder) if is_converted else None)
    return kind_of(*want), faults


def kind_of(out, err, status):
    """What is answered, without numbers: yes, the line of a no, or the first word of a reason."""
    return "yes" if status == 0 else out.partition(" place")[0].strip() if status == 1 else err.split()[2]


def faults_of_protection(files, folder, failures, converted):
    """What is wrong with what `protect` says of the files for so many failures, and of those with a converted certificate."""
    said = answer_of(["protect", "c", "m", str(failures)], folder)
    faults = faults_of_protected(files, folder, failures, said)
    if converted and converted[2] == 0:
        write_files(folder, {"v": converted[0].encode()})
        again = answer_of(["protect", "v", "m", str(failures)], folder)
        alike = again == said if said[2] != 3 else again[2] == 3
        faults += [] if alike else [f"protect of the converted certificate: want {said}, got {again}"]
    return faults


def faults_of_protected(files, folder, failures, said):
    """What is wrong with what `protect` answers."""
    try:
        certificate = reference_check.certificate_of("c", files["c"])
        series = series_of("m", files["m"], certificate["names"])
    except reference_check.Refused as refusal:
        text, status = refusal.args
        return [] if said == ("", text, status) else [f"protect: want {refusal.args}, got {said}"]
    if reference_rates.ends_of(certificate) != series.pairs:
        return [] if said == ("no pairs\n", "", 1) else [f"protect: other pairs, got {said}"]
    if said[1:] != ("", 0):
        return [f"protect: got {said}"]
    made = said[0].encode()
    write_files(folder, {"a": made})
    yes, known = (f"yes failures {failures}\n", "", 0), {**files, "a": made}
    answers = reference_rates.answer("cma", known.__getitem__), answer_of(["check-rates", *"cma"], folder)
    faults = [f"{name} of what protect writes: {it}" for name, it in zip(("the second checker", "check-rates"), answers) if it != yes]
    if faults:
        return faults
    rates = reference_rates.rates_of("a", made, certificate)
    return [f"protect: {it}" for it in reference_rates.faults_of_made(certificate, reference_rates.first_demands(series), failures, rates)]
