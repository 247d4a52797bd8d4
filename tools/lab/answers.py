"""Whole calls of `run`, `publish` and `simulate` on drawn networks, and what must hold of their answers, as docs/FORMATS.md says."""
import json
import random
import re

import reference_check

from . import polish, program
from .calls import COLUMNS
from .campaigns import SECONDS, faults_of_time
from .changes import INPUT
from .drawn_networks import NETWORK, PLAN, experiment
from .drawn_folders import reading_in
from .folders import write_files
from .polish import up
from .simulation_tests import report_by

SEPARATOR, CASES_OF_CAMPAIGN = INPUT.separator, 10_000
# The greatest product of links and pairs of which the polish is reckoned anew.
POLISHED = 60
# The nodes, links, steps and pairs of a network at most, and how often it is of such a size.
SIZES = [((5, 12, 4, 6), 70), ((12, 40, 4, 12), 22), ((40, 160, 3, 20), 6), ((128, 1024, 2, 20), 2)]


def case(seed, number):
    draw = random.Random(f"{seed} answer {number}")
    nodes, links, steps, pairs = draw.choices([size for size, _ in SIZES], [often for _, often in SIZES])[0]
    return experiment(draw, draw.randint(2, nodes), draw.randint(1, links), draw.randint(0, steps), draw.randint(1, pairs))


def judge(files, folder, _):
    """What is wrong with the answers of a plan, of its publication and of those of the schemes whose shares its report shows."""
    reading = reading_in(folder)
    if reading.files[-1].faults or reading.unread:
        return "refused", ["drawn: the files are refused"]
    rows, faults = report_of(folder, reading)
    published, faults_of_own = publication_of(folder, PLAN, reading)
    faults += faults_of_own + (faults_of_simulation(published, folder, reading) if published else [])
    for scheme in {"spf", *(["ksp"] if reading.plan.k <= reading.plan.budget else [])} & set(reading.plan.schemes):
        other = {**json.loads(files[PLAN]), "publish": scheme}
        write_files(folder, {"other.json": json.dumps(other)})
        certificate, more = publication_of(folder, "other.json", reading)
        faults += more + (faults_of_parts(certificate, scheme, rows, reading) if certificate else [])
    return "published" if published else "no path", faults


def faults_of_simulation(certificate, folder, reading):
    """What is wrong with the report of the routing that was published, whose file is in the folder."""
    got, faults = twice(["simulate", "c", PLAN], folder)
    want = report_by(certificate, reading.plan.recovery, reading.series, reading.outages or [])
    is_right = (got.status, got.out.decode("ascii", "replace"), got.err) == (0, want, "")
    return faults + ([] if is_right else [f"simulate: want {want!r}, got {got.status}, {got.out!r}, {got.err!r}"])


def twice(words, folder):
    """What a call answers, and what is wrong where the second one answers otherwise."""
    first, second = (program.answer(words, folder, SECONDS) for _ in range(2))
    is_other = (first.status, first.out, first.err) != (second.status, second.out, second.err)
    return first, faults_of_time(words, first) + [f"{words[0]}: another answer the second time"] * is_other


def report_of(folder, reading):
    """The rows of a report, and what is wrong with them."""
    got, faults = twice(["run", PLAN], folder)
    lines = got.out.decode("ascii", "replace").split("\n")
    steps, schemes = len(reading.series.steps), reading.plan.schemes
    names = [(scheme, step) for scheme in schemes for step in [*map(str, range(steps)), "total"]]
    rows = [line.split(",") for line in lines[1:-1]]
    if (got.status, got.err, lines[0] + "\n") != (0, "", COLUMNS) or [tuple(row[:2]) for row in rows] != names or any(len(row) != 10 for row in rows):
        return [], faults + [f"run: status {got.status}, {got.err!r}, {len(rows)} rows"]
    for row in rows:
        faults += [f"run: {fault}: {','.join(row)}" for fault in faults_of_row(row, reading)]
    for place, scheme in enumerate(schemes):
        part = rows[place * (steps + 1) : (place + 1) * (steps + 1)]
        faults += [f"run: the totals of {scheme}"] * (part[-1][2:] != totals(part[:-1]))
    return rows, faults


def faults_of_row(row, reading):
    offered, delivered, full, failed, no_path, peak, parts = map(int, row[2:9])
    if offered != delivered + full + failed + no_path:
        yield "the amounts do not add up"
    if row[1] != "total" and offered != sum(reading.series.steps[int(row[1])].values()):
        yield "not all demands are offered"
    if peak > 1_000_000:
        yield "a link carries more than its capacity"
    if row[9] != "-" and int(row[9]) > parts:
        yield "the lower bound is above parts"
    # What bounds the routings of the predictions bounds none of what is sent.
    has_low = row[0] in ("mcf", "smore") and row[1] != "total" and reading.predictions is None
    if (row[9] != "-") != has_low:
        yield "a lower bound that is not stated, or one that is"


def totals(rows):
    """The last columns of the line of totals."""
    numbers = [[int(it) for it in row[2:9]] for row in rows]
    columns = list(zip(*numbers)) or [()] * 7
    return [*(str(sum(it)) for it in columns[:5]), *(str(max(it, default=0)) for it in columns[5:]), "-"]


def declared_pairs(reading):
    """The pairs that stand in a row of the matrices or of the predictions, in order."""
    return sorted(reading.series.declared | (reading.predictions or reading.series).declared)


def first_without_path(reading):
    """The first declared pair of which no links lead from the source to the destination."""
    after = {}
    for tail, head, *_ in reading.net.links:
        after.setdefault(tail, set()).add(head)
    for source, target in declared_pairs(reading):
        found, waiting = {source}, [source]
        while waiting:
            for head in after.get(waiting.pop(), ()):
                if head not in found:
                    found.add(head)
                    waiting.append(head)
        if target not in found:
            return source, target
    return None


def publication_of(folder, plan, reading):
    """The certificate of a plan, as the second checker reads it, or None; and what is wrong."""
    got, faults = twice(["publish", plan], folder)
    lost, names = first_without_path(reading), [name.decode() for name in reading.net.names]
    if lost is not None:
        wanted = (7, b"", f"no path: {names[lost[0]]} {names[lost[1]]}\n")
        return None, faults + ([] if (got.status, got.out, got.err) == wanted else [f"publish: want {wanted}, got {got.status}, {got.err!r}"])
    if (got.status, got.err) != (0, ""):
        return None, faults + [f"publish: status {got.status}, {got.err!r}"]
    write_files(folder, {"c": got.out})
    want = reference_check.check_bytes("c", got.out)
    if want[2] != 0:
        return None, faults + [f"publish: the second checker says {want}"]
    certificate = reference_check.read(got.out)
    faults += faults_of_answers(folder, got.out, want) + faults_of_size(certificate)
    faults += [f"publish: pairs {len(certificate['pairs'])}"] * ([pair[:2] for pair in certificate["pairs"]] != declared_pairs(reading))
    if len(certificate["links"]) * len(certificate["pairs"]) <= POLISHED:
        faults += [f"publish: {it}" for it in polish.faults_of(polish.Made(got.out))]
    return certificate, faults


def faults_of_size(certificate):
    is_small = len(certificate["names"]) <= 64 and len(certificate["links"]) <= 512
    is_box = bool(certificate["set"]) and certificate["set"][0] == "box"
    wanted = 1 if is_small and not is_box else 2
    return [] if certificate["format"] == wanted else [f"publish: a file of format {certificate['format']}"]


def faults_of_answers(folder, text, want):
    """What is wrong with what `check` says of a published certificate, beside its network too, and of what `convert` makes of it."""
    faults = []
    converted = program.answer(["convert", "c"], folder, SECONDS)
    write_files(folder, {"d": converted.out})
    again = (re.sub(r" set margin .*", " set box", want[0]), *want[1:])
    for words, wanted in ((["check", "c"], want), (["check", "c", NETWORK], want), (["check", "d"], again)):
        got = program.answer(words, folder, SECONDS)
        said = got.out.decode("utf-8", "replace"), got.err, got.status
        faults += [] if said == wanted else [f"{' '.join(words)}: want {wanted}, got {said}"]
    if (converted.status, converted.err) != (0, "") or text.startswith(b"yates-ratio 2\n") and converted.out != text:
        faults.append(f"convert: status {converted.status}, {converted.err!r}, or another text")
    return faults


def utilisation(certificate, step):
    """What the shares of a certificate make of the demands of a step: the greatest load over capacity, in millionths, rounded up."""
    loads = [0] * len(certificate["links"])
    for source, target, paths in certificate["pairs"]:
        demand = step.get((source, target), 0)
        for weight, path in paths:
            for link in path:
                loads[link] += demand * weight
    return max(up(load, link[2]) for load, link in zip(loads, certificate["links"]))


def faults_of_parts(certificate, scheme, rows, reading):
    """What is wrong where the report has another utilisation than the published routing, in the steps in which it is the scheme's on the whole network."""
    faults = []
    for name, step, *amounts in rows:
        if name != scheme or step == "total":
            continue
        has_failed = any(first <= int(step) <= last for first, last, _ in reading.outages or [])
        wanted = utilisation(certificate, reading.series.steps[int(step)])
        if not (reading.plan.recovery == "reroute" and has_failed) and int(amounts[6]) != wanted:
            faults.append(f"run: parts of {scheme} at step {step}: {amounts[6]} and not {wanted}")
    return faults
