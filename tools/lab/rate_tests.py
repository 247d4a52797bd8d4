"""What tools/reference_rates.py says of rates: the rows that the gate runs the program on, and drawn ones beside guards by their definition."""
import collections
import itertools
import random

import reference_check

from .calls import CHAIN_PROTECTIONS, CHAIN_RATES
from .drawn_rates import NAMES, case, kind_of
from .inside_tests import differences
from .rates import CUT_RATES, PROTECTIONS, RATES, TWICE


def cases(load, call):
    """Each case by its name, with what is wrong."""
    tool = load("reference_rates.py")
    for name, names, rows in (("rows", NAMES, RATES), ("cuts", NAMES, CUT_RATES), ("chains", NAMES, CHAIN_RATES), ("a file twice", "c", TWICE)):
        faults = []
        for place, (texts, status, said) in enumerate(rows):
            words = list(NAMES) if len(names) == 3 else ["c", "c", "c"]
            faults += [f"row {place}: {it}" for it in differences(call, tool, dict(zip(names, texts)), words, (said, status))]
        yield f"reference_rates.py, {name}", faults
    yield "reference_rates.py: other words", [] if [call(tool, words, ".")[1] for words in ([], ["c", "m"], ["c", "m", "r", "r"])] == [2, 2, 2] else ["another status"]
    made = [(failures, *row) for table in (PROTECTIONS, CHAIN_PROTECTIONS) for failures, rows in table.items() for row in rows if row[1] == 0]
    yield "reference_rates.py: rates that are made", [f"{texts}: {it}" for failures, texts, _, said in made for it in faults_of_row(tool, failures, texts, said)]
    yield "reference_rates.py: rates that are not made so", wrong_rates(tool)
    yield "reference_rates.py: a search", search(tool)
    yield "drawn rates", drawn(tool)


def read(tool, texts, said):
    """The certificate, the demands and the rates of these texts."""
    certificate = reference_check.certificate_of("c", texts[0].encode())
    series = tool.series_of("m", texts[1].encode(), certificate["names"])
    return certificate, tool.first_demands(series), tool.rates_of("r", said.encode(), certificate)


def faults_of_row(tool, failures, texts, said):
    """What is wrong with rates that are written for so many failures."""
    certificate, demands, rates = read(tool, texts, said)
    judged = tool.judged(certificate, demands, rates)
    return tool.faults_of_made(certificate, demands, failures, rates) + ([] if judged == (f"yes failures {failures}\n", "", 0) else [judged])


def wrong_rates(tool):
    """Rates that are guarded and are not as `protect` makes them are told, each for its own reason."""
    parallel, shared, three = ([texts for texts, _, _ in PROTECTIONS[1]][place] for place in (0, 8, 6))
    wrong = [
        (parallel, 0, "20 10 10", ["failures 1"]),
        (parallel, 1, "10 10 11", ["pair 0 has different allocations"]),
        (shared, 1, "0 5 5", ["pair 0 has no path left, and an allocation or a grant"]),
        (parallel, 1, "9 10 10", ["the grant of pair 0 is not the lesser of its demand and 1 times 10"]),
        (three, 1, "45 24 24 24", ["pair 0 has more than its demand asks for"]),
        (three, 1, "44 22 22 22", ["one more on each path of pair 0 fits"]),
    ]
    faults = []
    for texts, failures, line, wanted in wrong:
        certificate, demands, rates = read(tool, texts, f"yates-rates 1\nfailures 1\n{line}\nend\n")
        got = tool.faults_of_made(certificate, demands, failures, rates)
        faults += [] if got == wanted else [f"{line}: want {wanted}, got {got}"]
    certificate, _, rates = read(tool, parallel, "yates-rates 1\nfailures 1\n11 10 10\nend\n")
    return faults + ([] if tool.first_loss(certificate, rates) == ((0,), 0) else ["a loss is not told"])


def search(tool):
    """Of paths that are drawn the guard is at most what any failed links leave, and it is what they leave where no two paths share a link."""
    faults, draw = [], random.Random(13)
    for _ in range(500):
        paths = [sorted(draw.sample(range(5), draw.randint(1, 2))) for _ in range(draw.randint(1, 4))]
        allocation, failures = [draw.randint(0, 5) for _ in paths], draw.randint(0, 3)
        left = min(
            sum(amount for path, amount in zip(paths, allocation) if not set(path) & set(failed)) for failed in itertools.combinations(range(5), failures)
        )
        is_apart, guard = max(tool.paths_on(paths).values()) == 1, tool.guard(paths, failures, allocation)
        if guard > left or is_apart and guard < left:
            faults.append(f"{paths}, {allocation}, {failures} failures: {guard} is guarded, and {left} left")
    return faults


def drawn(tool):
    """Of the rates that are drawn there are some of each kind of answer."""
    kinds = collections.Counter()
    for number in range(400):
        files = case(17, number)
        kinds[kind_of(*tool.answer(NAMES, files.__getitem__))] += 1
    return [f"no answer {it!r}: {kinds}" for it in ("yes", "no rule F1", "no rule F2", "no rule F3", "no pairs", "shape", "rule", "header") if not kinds[it]]
