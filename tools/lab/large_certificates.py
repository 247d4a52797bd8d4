"""Certificates of 20 to 600 MB, as `bench/check_speed` takes them, changed at one place; and whether `check` says of them what the second checker
does.
"""
import functools
import importlib.util
import io
import os
import random

from . import program
from .block_by_block import Checker
from .campaigns import SECONDS, faults_of_time
from .changes import CERTIFICATE, with_change, with_number
from .drawn_certificates import NAME

SEPARATOR, CASES_OF_CAMPAIGN = CERTIFICATE.separator, 200
# How many are drawn of one network, and the nodes by format: a file grows with the third power of them.
OF_ONE, NODES = 8, {1: (41, 64), 2: (41, 125)}


def writer():
    """The module that writes the certificates of `bench/check_speed`."""
    spec = importlib.util.spec_from_file_location("make_certificate", os.path.join(program.TOP, "bench", "make_certificate.py"))
    module = importlib.util.module_from_spec(spec)
    spec.loader.exec_module(module)
    return module


@functools.lru_cache(maxsize=1)
def drawn_certificate(seed, number, most=None):
    """A certificate that holds, of a drawn size, or of so many nodes at most."""
    draw = random.Random(f"{seed} large network {number}")
    format_number = draw.choice((1, 2))
    least, greatest = NODES[format_number]
    out = io.StringIO()
    writer().write(out, draw, format_number, most or draw.randint(least, greatest))
    return out.getvalue().encode()


def case(seed, number, most=None):
    """One of six as it is, three with a number that is slightly wrong, and two changed somehow."""
    draw = random.Random(f"{seed} large {number}")
    data, how = drawn_certificate(seed, number // OF_ONE, most), draw.randrange(6)
    return {NAME: data if how == 0 else with_number(draw, data, CERTIFICATE) if how < 4 else with_change(draw, data, CERTIFICATE)}


@functools.lru_cache(maxsize=1)
def checker_of(_):
    """The second checker for the cases of one network, by the number of that network: most of their lines are the same."""
    return Checker(NAME)


def judge(files, folder, number):
    words = ["check", NAME]
    got = program.answer(words, folder, SECONDS)
    said, want = (got.out.decode("utf-8", "replace"), got.err, got.status), checker_of(number // OF_ONE).answer(files[NAME])
    label = {0: "yes", 1: "no"}.get(want[2], "rule" if "rule" in want[1] else "shape")
    return label, ([] if said == want else [f"check: want {want}, got {said}"]) + faults_of_time(words, got)
