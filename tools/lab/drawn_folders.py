"""Folders with a plan and its files, drawn or of the tables of mistakes, and changed; and whether `run`, `publish` and the breakdowns of a step
say of them what the readers of `tools/explain` do, and the breakdowns what a second reading of the step does.
"""
import os
import random

from . import program
from .breakdown_tests import Inputs, faults_of_step
from .campaigns import SECONDS, faults_of_time
from .cases import GOOD
from .changes import INPUT, with_changes
from .drawn_networks import PLAN, experiment
from .more_cases import CASES
from .reading import REFUSED, NotRegular, Reading, outcome

SEPARATOR, CASES_OF_CAMPAIGN = INPUT.separator, 100_000
HEADER = b"scheme,step,offered,"
BREAKDOWNS = ("links", "pairs", "paths")


def case(seed, number):
    """The files of a folder, of which one was mostly changed."""
    draw = random.Random(f"{seed} folder {number}")
    if draw.randrange(2):
        files = experiment(draw, draw.randint(2, 6), draw.randint(1, 12), draw.randint(0, 4), draw.randint(1, 6))
    else:
        files = {**GOOD, **(draw.choice(CASES)[1] if draw.randrange(2) else {})}
        files = {name: text.encode() if isinstance(text, str) else text for name, text in files.items()}
    if draw.randrange(8):
        name = draw.choice(sorted(files))
        files[name] = with_changes(draw, files[name] or b"", INPUT)
    return files


def reading_in(folder, step=None, cert=None):
    """What the readers of `tools/explain` find in the folder, of a series that has to have the step, and of a network and pairs that have to be those
    of the certificate, where one is given.
    """
    before = os.getcwd()
    os.chdir(folder)
    try:
        return Reading(PLAN, False, step, cert)
    finally:
        os.chdir(before)


def faults_of_answer(words, reading, got):
    """What is wrong with the answer of `run` or `publish` over files that are accepted."""
    if words[0] == "run":
        lines = 1 + len(reading.plan.schemes) * (1 + len(reading.series.steps))
        is_good = (got.status, got.err) == (0, "") and got.out.startswith(HEADER) and got.out.count(b"\n") == lines
    else:
        is_good = got.status == 0 and got.err == "" and got.out.endswith(b"\nend\n") or got.status == 7 and got.err.startswith("no path: ")
    return [] if is_good else [f"{words[0]}: want an answer, got {got.err!r}, status {got.status}"]


def faults_of_breakdowns(reading, folder, step):
    """What is wrong with the breakdowns of a step of files that are accepted."""

    def answer(words):
        said = program.answer(words, folder, SECONDS)
        return said.status, said.out.decode(), said.err

    pairs = sorted(reading.series.declared | (reading.predictions or reading.series).declared)
    return faults_of_step(answer, Inputs(reading.plan, reading.net, pairs, reading.series, reading.outages or [], step), PLAN)


def wanted(words, reading):
    """The line and status that the files decide for these words."""
    # `publish` does not read the failures.
    is_published = reading.series is not None and (reading.predictions is not None or not reading.plan.predictions)
    return ("", 0) if words[0] == "publish" and is_published else outcome(reading)


def words_of(number):
    """The words of a case."""
    kind = (*BREAKDOWNS, "run", "publish")[number % 5]
    return [kind, PLAN, str(number // 5 % 4)] if kind in BREAKDOWNS else [kind, PLAN]


def judge(_, folder, number):
    """Which file is refused, and what is wrong with the answer on the words of the case."""
    words = words_of(number)
    try:
        reading = reading_in(folder, int(words[2]) if words[0] in BREAKDOWNS else None)
    except NotRegular:
        return "a device", []
    line, status = wanted(words, reading)
    got = program.answer(words, folder, SECONDS)
    if status:
        is_wrong = (got.status, got.out, got.err) != (status, b"", line + "\n")
        faults = [f"{words[0]}: want {line}, status {status}, got {got.err!r}, status {got.status}"] * is_wrong
        label = f"{reading.files[-1].kind if reading.files else 'plan'} {'refused' if status == REFUSED else 'unread'}"
    else:
        is_breakdown = words[0] in BREAKDOWNS
        faults = faults_of_breakdowns(reading, folder, int(words[2])) if is_breakdown else faults_of_answer(words, reading, got)
        label = "accepted"
    return label, faults + faults_of_time(words, got)
