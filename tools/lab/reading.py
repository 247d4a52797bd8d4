"""The files of an experiment, read in the order of the program, as far as it would read them."""
import os
import stat

from .claim_words import network_words
from .faults import Fault
from .inputs import INPUT_LIMIT, MATRICES, Table, read_failures, read_matrices, read_topology
from .plans import read_plan
from .unread_words import unread_words

REFUSED, UNREAD = 3, 4


class Unread(Exception):
    """A file that cannot be read, in words."""


class NotRegular(Exception):
    """A file that can be read once alone, if at all: a pipe or a device."""


class Input:
    """A file: what it is, its name as given, its bytes, what they give, and its faults."""

    def __init__(self, kind, name, faults, data, value=None):
        self.kind, self.name, self.faults, self.data, self.value = kind, name, faults, data, value


def input_of(kind, name, plan, reader):
    """The file of this name, which the plan names, as the reader takes it."""
    data = bytes_of(name, plan)
    value, faults = (None, [Fault("too long")]) if len(data) > INPUT_LIMIT else reader(data)
    return Input(kind, name, faults, data, value)


def check_regular(name):
    """Raises where the file is neither regular nor a folder."""
    mode = os.stat(name).st_mode
    if not stat.S_ISREG(mode) and not stat.S_ISDIR(mode):
        raise NotRegular(f"{name} is a pipe or a device, and tools/explain reads regular files alone")


def bytes_of(name, plan, most=INPUT_LIMIT):
    """The bytes of a file, and one more at most than the program would read."""
    try:
        check_regular(name)
        with open(name, "rb") as file:
            return file.read(most + 1)
    except (OSError, ValueError) as error:
        raise Unread(unread_words(name, plan, getattr(error, "strerror", None) or str(error))) from error


def with_step(step, series, faults):
    """The series and its faults, of which the last is that it does not have this step, where one is given."""
    lacks = step is not None and not faults and step >= len(series.steps)
    return series, [*faults, *([Fault("no step", value=step, other=len(series.steps))] if lacks else [])]


def of_network(cert, net, faults):
    """The network and its faults, of which the last is that it is not the certificate's, where one is given."""
    difference = network_words(cert, net) if cert and not faults else None
    return net, [*faults, *([Fault("not the network", value=difference)] if difference else [])]


def of_pairs(cert, net, data, series, faults):
    """The series and its faults, of which the last is the first row of a pair that the certificate does not declare, where one is given."""
    if cert is None or faults:
        return series, faults
    declared = {tuple(it[:2]) for it in cert["pairs"]}
    outside = (it for it in Table(data, MATRICES).rows if tuple(net.nodes[name] for name in it.fields[1:3]) not in declared)
    first = next(outside, None)
    return series, [Fault("no route", first.number, first)] if first else []


class Reading:
    """The files in the order of the program, and the plan, network, series and outages, as far as they were read.

    Where a file cannot be read, `unread` says so in words, and no file after it is looked at. A step that is given is one that the series has
    to have; a certificate that is given is one whose network and pairs the files have to have.
    """

    def __init__(self, name, goes_on, step=None, cert=None):
        self.name, self.goes_on, self.step, self.cert = name, goes_on, step, cert
        self.files, self.unread = [], None
        self.plan = self.net = self.series = self.predictions = self.outages = None
        try:
            self.read()
        except Unread as error:
            self.unread = str(error)

    def read(self):
        self.plan = self.next("plan", self.name, read_plan)
        if self.plan is not None:
            self.net = self.next("topology", self.plan.topology, lambda it: of_network(self.cert, *read_topology(it)))
        if self.net is not None:
            self.series = self.next("matrices", self.plan.matrices, self.series_of)
        if self.series is not None and self.plan.predictions:
            self.predictions = self.next("matrices", self.plan.predictions, lambda it: read_matrices(it, self.net))
        if self.series is not None and self.plan.failures and (self.predictions is not None or not self.plan.predictions):
            links, steps = len(self.net.links), len(self.series.steps)
            self.outages = self.next("failures", self.plan.failures, lambda it: read_failures(it, links, steps))

    def series_of(self, data):
        return with_step(self.step, *of_pairs(self.cert, self.net, data, *read_matrices(data, self.net)))

    def next(self, kind, name, reader):
        """What the file gives; None where that is not to be used, since the program stops there."""
        file = input_of(kind, name, self.name, reader)
        self.files.append(file)
        return None if file.faults and not self.goes_on else file.value

    def refused(self):
        """The files with faults: the first alone, or all."""
        return [file for file in self.files if file.faults]


def outcome(reading):
    """The program's line and status, as far as the reading of files decides them."""
    if reading.refused():
        file = reading.refused()[0]
        return f"refused: {file.name}: {file.faults[0].reason}", REFUSED
    return ("", 0) if reading.unread is None else ("fault: read", UNREAD)


def size(reading):
    net, series = reading.net, reading.series
    counts = (len(net.nodes), len(net.links), len(series.pairs), len(series.steps), len(reading.outages or []))
    return "{} nodes, {} links, {} pairs, {} steps, {} outages".format(*counts)
