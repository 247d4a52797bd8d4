"""Certificates with a plan over their network, drawn, of which one file was mostly changed; and whether `simulate` says of them what the readers of
`tools/explain` and a second reading of the simulated steps do.
"""
import random

import reference_check

from . import program
from .campaigns import SECONDS, faults_of_time
from .certificate_report import MOST_BYTES, refusal
from .changes import CERTIFICATE, INPUT, with_changes
from .drawn_certificates import head_over
from .drawn_folders import reading_in
from .drawn_networks import FAILURES, HEADERS, MATRICES, MOST_AMOUNT, NETWORK, PLAN, PREDICTIONS, failures, matrices, plan, topology
from .inputs import read_topology
from .reading import REFUSED, NotRegular, outcome
from .simulation_tests import report_by

NAME, SEPARATOR, CASES_OF_CAMPAIGN = "c", INPUT.separator, 100_000
MOST_NODES, MOST_LINKS, MOST_STEPS = 6, 12, 4


def certificate_over(draw, net):
    """A certificate of the network, whose blocks need not prove its ratio, which `simulate` does not ask."""
    links = [link[:4] for link in net.links]
    head = head_over(draw, draw.choice((1, 2)), [name.decode() for name in net.names], links)
    return f"{head}ratio {draw.choice((0, 1_000_000, 2_500_000))}\nblocks 0\nend\n"


def demands_of(draw, names, pairs):
    """Rows of demands for some of the pairs in drawn steps; and how many steps the series has."""
    rows, count, most = [], 0, draw.choice((1, 10, 1000, 1_000_000, MOST_AMOUNT))
    for step in range(draw.randint(0, MOST_STEPS)):
        for source, target in pairs:
            if draw.randrange(3):
                rows.append(f"{step},{names[source]},{names[target]},{draw.choice((0, most, draw.randint(0, most), draw.randint(0, most)))}\n")
                count = step + 1
    return HEADERS[MATRICES] + "".join(rows), count


def pairs_to_send(draw, certificate, names):
    """The pairs of the certificate; now and then with one more, which may have no route."""
    pairs = [tuple(pair[:2]) for pair in reference_check.read(certificate.encode())["pairs"]]
    return sorted({*pairs, tuple(draw.sample(range(names), 2))}) if draw.randrange(8) == 0 else pairs


def simulation(draw):
    """The files of a certificate and of a plan over its network."""
    rows, ends = topology(draw, draw.randint(2, MOST_NODES), draw.randint(1, MOST_LINKS))
    net, _ = read_topology(rows.encode())
    names, certificate = [name.decode() for name in net.names], certificate_over(draw, net)
    series, count = demands_of(draw, names, pairs_to_send(draw, certificate, len(names)))
    predicted, _ = matrices(draw, ends, draw.randint(0, MOST_STEPS), len(names))
    files = {
        NAME: certificate, PLAN: plan(draw, len(ends)), NETWORK: rows, MATRICES: series, FAILURES: failures(draw, len(ends), count), PREDICTIONS: predicted,
    }
    return {name: text.encode() for name, text in files.items()}


def case(seed, number):
    """The files of a folder, of which two in three have a file that was changed."""
    draw = random.Random(f"{seed} simulation {number}")
    files = simulation(draw)
    if draw.randrange(3):
        name = draw.choice(sorted(files))
        files[name] = with_changes(draw, files[name], CERTIFICATE if name == NAME else INPUT)
    return files


def wanted(files, folder):
    """A word for what the files are, and the status, the text and the line that they decide."""
    refused, cert = refusal(NAME, files[NAME][: MOST_BYTES + 1])
    if refused:
        return "certificate refused", (refused.status, "", refused.line + "\n")
    reading = reading_in(folder, cert=cert)
    line, status = outcome(reading)
    if status:
        return f"{reading.files[-1].kind} {'refused' if status == REFUSED else 'unread'}", (status, "", line + "\n")
    return "simulated", (0, report_by(cert, reading.plan.recovery, reading.series, reading.outages or []), "")


def judge(files, folder, _):
    """What the second readers make of the files, and what is wrong with the answer of `simulate`."""
    try:
        word, want = wanted(files, folder)
    except NotRegular:
        return "a device", []
    words = ["simulate", NAME, PLAN]
    got = program.answer(words, folder, SECONDS)
    said = got.status, got.out.decode("utf-8", "replace"), got.err
    return word, ([] if said == want else [f"simulate: want {want!r}, got {said!r}"]) + faults_of_time(words, got)
