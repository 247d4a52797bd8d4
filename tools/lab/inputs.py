"""Topologies, matrices and failures, read as docs/FORMATS.md says, with every fault in place of the first alone.

A reader gives what the good rows say and a list of faults, one at most for each row, in the order of the rows. The first
of them is the one that the program names; where the list is empty the program takes the file.
"""
import re

from .faults import Fault
from .records import records

INPUT_LIMIT = 67_108_864
MAX_NODES, MAX_LINKS, MAX_STEPS = 128, 1024, 1024
MAX_AMOUNT, MAX_COST = 2**32, 65535
NAME = re.compile(rb"[A-Za-z0-9_.-]{1,32}\Z")
NUMBER = re.compile(rb"[0-9]{1,10}\Z")
TOPOLOGY = (b"source", b"target", b"capacity", b"cost")
MATRICES = (b"step", b"source", b"target", b"demand")
FAILURES = (b"from", b"to", b"link")


def number(field, low=0, high=None):
    """The number that a field spells, where it is one within these limits."""
    if not NUMBER.match(field):
        return None
    value = int(field)
    return value if low <= value and (high is None or value <= high) else None


class Table:
    """The records of a file below its header, or the fault of the header."""

    def __init__(self, data, header):
        self.rows = records(data)
        first = next(self.rows, None)
        self.faults = []
        if first is None or tuple(first.fields) != header:
            self.faults.append(Fault("header", record=first))
            self.rows = iter(())


class Network:
    """The nodes by name, in order, and for each link its tail, head, capacity, cost and record."""

    def __init__(self):
        self.nodes, self.links = {}, []

    @property
    def names(self):
        return list(self.nodes)

    def number_of(self, name):
        return self.nodes.setdefault(name, len(self.nodes))


class Series:
    """The declared pairs, ascending, and for each step its demands by pair; of the last step the line of each."""

    def __init__(self):
        self.steps, self.declared, self.lines = [], set(), {}

    @property
    def pairs(self):
        return sorted(self.declared)

    def add(self, step, pair, demand, line):
        """Adds a row; the steps of rows never fall."""
        if step >= len(self.steps):
            self.steps += [{} for _ in range(len(self.steps), step + 1)]
            self.lines = {}
        self.steps[step][pair] = demand
        self.lines[pair] = line
        self.declared.add(pair)

    def demand(self, step, pair):
        return self.steps[step].get(pair, 0)


def read_topology(data):
    """The network of the rows, and the faults."""
    table, net = Table(data, TOPOLOGY), Network()
    for record in table.rows:
        fault = link_fault(record) or count_fault(record, net)
        if fault:
            table.faults.append(fault)
            continue
        source, target, capacity, cost = record.fields
        net.links.append((net.number_of(source), net.number_of(target), int(capacity), int(cost), record))
    if not net.links and not table.faults:
        table.faults.append(Fault("empty"))
    return net, table.faults


def link_fault(record):
    row, fields = record.number, record.fields
    if len(fields) != 4:
        return Fault("fields", row, record)
    for place in (0, 1):
        if not NAME.match(fields[place]):
            return Fault("name", row, record, place)
    for place, high in ((2, MAX_AMOUNT), (3, MAX_COST)):
        if number(fields[place], 1, high) is None:
            return Fault("number", row, record, place)
    if fields[0] == fields[1]:
        return Fault("self link", row, record)
    return None


def count_fault(record, net):
    nodes = set(net.nodes) | set(record.fields[:2])
    if len(nodes) > MAX_NODES or len(net.links) >= MAX_LINKS:
        return Fault("too many", record.number, record, other=(len(nodes), len(net.links) + 1))
    return None


def read_matrices(data, net):
    """The series of the rows for the nodes of this network, and the faults."""
    table, series, latest = Table(data, MATRICES), Series(), 0
    for record in table.rows:
        fault = demand_fault(record, net) or place_fault(record, net, series, latest)
        if fault:
            table.faults.append(fault)
            continue
        step, source, target, demand = record.fields
        latest, pair = int(step), (net.nodes[source], net.nodes[target])
        series.add(latest, pair, int(demand), record.line)
    return series, table.faults


def demand_fault(record, net):
    row, fields = record.number, record.fields
    if len(fields) != 4:
        return Fault("fields", row, record)
    for place in (1, 2):
        if fields[place] not in net.nodes:
            return Fault("unknown node", row, record, place)
    for place, high in ((0, None), (3, MAX_AMOUNT)):
        if number(fields[place], 0, high) is None:
            return Fault("number", row, record, place)
    return None


def place_fault(record, net, series, latest):
    row, fields = record.number, record.fields
    step, pair = int(fields[0]), (net.nodes[fields[1]], net.nodes[fields[2]])
    if step < latest:
        return Fault("order", row, record, 0, other=latest)
    if step < len(series.steps) and pair in series.steps[step]:
        return Fault("repeated", row, record, other=series.lines[pair])
    if pair[0] == pair[1]:
        return Fault("self pair", row, record)
    if step >= MAX_STEPS:
        return Fault("too many steps", row, record, 0)
    return None


def read_failures(data, links, steps):
    """The outages of the rows, each (from, to, link), for a network and a series of this size, and the faults."""
    table, outages = Table(data, FAILURES), []
    for record in table.rows:
        fault = outage_fault(record, links, steps)
        if fault:
            table.faults.append(fault)
        else:
            outages.append(tuple(int(field) for field in record.fields))
    return outages, table.faults


def outage_fault(record, links, steps):
    row, fields = record.number, record.fields
    if len(fields) != 3:
        return Fault("fields", row, record)
    for place in range(3):
        if number(fields[place]) is None:
            return Fault("number", row, record, place)
    first, last, link = (int(field) for field in fields)
    if link >= links:
        return Fault("no such link", row, record, 2, other=links)
    if first > last or last >= steps:
        return Fault("interval", row, record, other=steps)
    return None
