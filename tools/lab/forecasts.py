"""Forecasts of the matrices of a series from those before them, in whole numbers."""
import collections

from .inputs import MATRICES, NAME, Network, read_matrices
from .recipes import Refused
from .records import records

# How many numbers a way of forecasting takes, and what it makes of the demands of a pair before a step, its last forecast and these numbers.
Way = collections.namedtuple("Way", "numbers next")


def last(demands, step, _, __):
    return demands[step - 1]


def mean(demands, step, _, numbers):
    kept = demands[max(0, step - numbers[0]):step]
    return sum(kept) // len(kept)


def ewma(demands, step, forecast, numbers):
    part, whole = numbers
    return (part * demands[step - 1] + (whole - part) * forecast) // whole


HOW = {"last": Way(0, last), "mean": Way(1, mean), "ewma": Way(2, ewma)}


def series_of(name, data):
    """The names of the nodes that have rows, and the series of the rows."""
    net = Network()
    for record in records(data):
        for node in record.fields[1:3] if record.number > 0 and len(record.fields) == len(MATRICES) else ():
            if not NAME.match(node):
                raise Refused(f"refused: {name}: line {record.line}: {node.decode('utf-8', 'replace')!r} is not 1 to 32 of the characters A-Z a-z 0-9 _ . -")
            net.number_of(node)
    series, faults = read_matrices(data, net)
    if faults:
        raise Refused(f"refused: {name}: {faults[0].reason}")
    return [it.decode("ascii") for it in net.names], series


def forecasts_of_pair(how, numbers, demands):
    """The forecast of each step from the demands of a pair."""
    made = demands[:1]
    for step in range(1, len(demands)):
        made.append(how.next(demands, step, made[-1], numbers))
    return made


def forecasts(how, numbers, series):
    """For each step the forecast of each pair."""
    steps = range(len(series.steps))
    of_pairs = [forecasts_of_pair(how, numbers, [series.demand(step, pair) for step in steps]) for pair in series.pairs]
    return [[made[step] for made in of_pairs] for step in steps]


def rows_of(names, pairs, made):
    """The rows: all of the first step, those that are not 0 of the others, and all of the last one where it has none."""
    for step, demands in enumerate(made):
        is_whole = step == 0 or step == len(made) - 1 and not any(demands)
        for (source, target), demand in zip(pairs, demands):
            if is_whole or demand:
                yield f"{step},{names[source]},{names[target]},{demand}\n"
