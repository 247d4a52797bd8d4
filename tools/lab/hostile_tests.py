"""The cases of `limits`, `failing_calls` and `campaign`: without the program their tables and their judges, and with it a few calls."""
import contextlib
import io
import os
import tempfile
import types

import reference_check
import reference_hose
import reference_rates
import reference_witness

from . import (
    answers, block_by_block, campaigns, changes, drawn_certificates, drawn_folders, drawn_hoses, drawn_rates, drawn_simulations, drawn_updates, failing_calls,
    large_certificates, limits, program,
)
from .inputs import read_failures, read_matrices, read_topology
from .plans import read_plan

# How much of a large file is read here, and how many cases of a kind are drawn.
MOST_READ, DRAWN = 300, 24
OWN = (0, b"text\n", "")
# A judge of a failed call, an answer, and whether it may be left of a call that answers `OWN`.
JUDGED = [
    (failing_calls.is_as_it_was, OWN, True),
    (failing_calls.is_as_it_was, (0, b"text", ""), False),
    (failing_calls.is_without_memory, OWN, True),
    (failing_calls.is_without_memory, (6, b"", "fault: memory\n"), True),
    (failing_calls.is_without_memory, (6, b"t", "fault: memory\n"), False),
    (failing_calls.is_without_memory, (-11, b"", ""), False),
    (failing_calls.is_unread, (4, b"", "fault: read\n"), True),
    (failing_calls.is_unread, OWN, False),
    (failing_calls.is_unread, (4, b"t", "fault: read\n"), False),
    (failing_calls.is_unopened, (4, b"", "fault: read\n"), True),
    (failing_calls.is_unopened, (6, b"", "fault: memory\n"), True),
    (failing_calls.is_unopened, (5, b"", "fault: write\n"), False),
    (failing_calls.is_cut_short, (5, b"te", "fault: write\n"), True),
    (failing_calls.is_cut_short, (5, b"text\n", "fault: write\n"), False),
    (failing_calls.is_cut_short, (5, b"tx", "fault: write\n"), False),
    (failing_calls.is_cut_short, (0, b"te", ""), False),
    (failing_calls.is_without_message, OWN, True),
    (failing_calls.is_without_message, (5, b"text\n", ""), False),
]


def faults_of_judges():
    return [f"{judge.__name__} of {got!r}" for judge, got, may_be in JUDGED if judge(OWN, got) is not may_be]


def faults_of_report():
    """A report of the calls that failed is read, and a call that leaves something else, or did not fail, is found."""
    counts = (2, 1, 0, 0, 0, 0, 1, *[0] * 7)
    own = failing_calls.Counted(OWN[1], OWN[2], OWN[0], counts)
    # The first request for memory is the one to open a file.
    left = {("memory", 1): (4, b"", b"fault: read\n"), ("memory", 2): (6, b"", b"fault: memory\n"), ("open", 1): (4, b"", b"fault: read\n")}
    answers_of = [(place, failure, number, left[failure.kind, number]) for place, failure in enumerate(failing_calls.FAILURES) for number in (1, 2) if (failure.kind, number) in left]
    answers_of = [(place, number, (0, b"text\n", b"") if failure.judge is failing_calls.is_as_it_was else told) for place, failure, number, told in answers_of]

    def found(told_of):
        data = b"".join(failing_calls.CHILD.pack(place, number, told[0], len(told[1]), len(told[2])) + told[1] + told[2] for place, number, told in told_of)
        data += failing_calls.NUMBER.pack(failing_calls.NO_FAILURE) + failing_calls.COUNTS.pack(*counts)
        failed, numbers = failing_calls.read_report(io.BytesIO(data))
        got = failing_calls.Counted(OWN[1], OWN[2], OWN[0], numbers, failed)
        return [*failing_calls.faults_of_whole(own, got, 3000, 97), *filter(None, failing_calls.faults_of_failed(own, got))]

    place, number, _ = answers_of[-1]
    tries = [(answers_of, 0), (answers_of[:-1], 1), ([*answers_of[:-1], (place, number, (6, b"t", b""))], 1)]
    return [f"{len(found(told_of))} faults in place of {count}" for told_of, count in tries if len(found(told_of)) != count]


def reason_of_bounds(data):
    try:
        reference_hose.bounds_of("b", data, reference_check.certificate_of("c", limits.GOOD["c"].encode()))
    except reference_check.Refused as refusal:
        return refusal.args[0].partition("refused: b: ")[2].rstrip("\n")
    return None


def reason_of(kind, data):
    """The reason of the second readers for a file of a row of `limits`, or none."""
    if kind == "certificate":
        return reference_check.check_bytes("c", data)[1].partition("refused: c: ")[2].rstrip("\n") or None
    if kind == "witness":
        said = reference_witness.check_witness("c", limits.GOOD["c"].encode(), "w", lambda: data)[1]
        return said.partition("refused: w: ")[2].rstrip("\n") or None
    if kind == "rates":
        files = {"c": limits.GOOD["c"].encode(), "m": limits.GOOD["m"].encode(), "r": data}
        return reference_rates.answer("cmr", files.__getitem__)[1].partition("refused: r: ")[2].rstrip("\n") or None
    if kind == "hose certificate":
        files = {"c": limits.GOOD["c"].encode(), "h": data}
        return reference_hose.answer("ch", files.__getitem__)[1].partition("refused: h: ")[2].rstrip("\n") or None
    if kind == "bounds":
        return reason_of_bounds(data)
    net = read_topology(limits.GOOD["t"].encode())[0]
    readers = {"topology": read_topology, "plan": read_plan, "matrices": lambda it: read_matrices(it, net), "predictions": lambda it: read_matrices(it, net), "failures": lambda it: read_failures(it, 1, 1)}
    faults = readers[kind](data)[1]
    return faults[0].reason if faults else None


def faults_of_limits():
    """The reasons of the table are those of the second readers, on the beginnings of large files; and a file is written as its beginning says."""
    faults = []
    for what, kind, file, reason in limits.rows():
        data = file.beginning(len(file.head) + MOST_READ)
        if reason != "too long" and reason_of(kind, data) != reason:
            faults.append(f"{kind}: {what}: {reason_of(kind, data)}")
        with tempfile.TemporaryDirectory() as folder:
            file.write(os.path.join(folder, "file"), len(data))
            with open(os.path.join(folder, "file"), "rb") as written:
                faults += [f"{kind}: {what}: written otherwise"] * (written.read() != data)
    return faults


def faults_of_smaller():
    """Of a file the lines and tokens are left without which it would not fail."""
    got = changes.smaller(b"a b c\nd\ne f g\nh", b" ", lambda it: b"b" in it and b"g" in it, 200)
    return [] if got == b"b\ng" else [repr(got)]


def faults_of_drawn():
    """Drawn certificates hold, and of their cases at least a fifth are yes and a fifth no; the same case is drawn again the same."""
    faults, statuses = [], []
    for number in range(0, 4 * drawn_certificates.OF_ONE, 2):
        head, ratio, rest = drawn_certificates.drawn_certificate(7, number // drawn_certificates.OF_ONE)
        told = reference_check.check_bytes("c", f"{head}ratio {ratio}\n{rest}".encode())
        faults += [f"network {number // drawn_certificates.OF_ONE}: {told}"] * (told[2] != 0)
        statuses.append(reference_check.check_bytes("c", drawn_certificates.case(7, number)["c"])[2])
    faults += [f"{statuses.count(it)} of {len(statuses)} have status {it}" for it in (0, 1, 3) if 5 * statuses.count(it) < len(statuses)]
    kinds = (drawn_certificates, drawn_updates, drawn_rates, drawn_hoses, drawn_folders, drawn_simulations, answers)
    cases = [(kind.case(7, number), kind.case(7, number)) for kind in kinds for number in range(4)]
    return faults + ["another case the second time"] * any(first != second for first, second in cases)


@contextlib.contextmanager
def program_that_answers(answer):
    """Another program in the place of the one that is built."""
    modules, other = (answers, drawn_certificates, drawn_folders, drawn_simulations, large_certificates), types.SimpleNamespace(answer=answer, TOP=program.TOP)
    for module in modules:
        module.program = other
    try:
        yield
    finally:
        for module in modules:
            module.program = program


def silent(*_):
    return program.Answer(b"", "", 0)


def faults_of_silence():
    """Over a program that answers nothing each kind finds something wrong."""
    faults = []
    with tempfile.TemporaryDirectory() as work, program_that_answers(silent):
        for kind in (drawn_certificates, drawn_updates, drawn_folders, drawn_simulations, answers):
            campaign = campaigns.Campaign(kind, 7, work, work)
            found = [campaign.judged(kind.case(7, number), number) for number in range(DRAWN)]
            right = sum(not wrong for _, wrong in found)
            faults += [f"{kind.__name__}: nothing is wrong with {right} of {DRAWN}"] * (right > 0)
            faults += [f"{kind.__name__}: {wrong[0]}" for word, wrong in found if word == campaigns.UNJUDGED]
        found = large_certificates.judge(large_certificates.case(7, 1, most=9), work, 1)
        faults += [f"a large certificate: {found[0]}"] * (not found[1])
    return faults


def faults_of_record():
    """What differs is kept, as drawn and smaller; and a campaign goes on where it ended, and is then as one that was not interrupted."""
    told, faults = [], []
    with tempfile.TemporaryDirectory() as folder, program_that_answers(lambda *_: program.Answer(b"", "refused: c: shape at line 1\n", 3)):
        made = campaigns.Campaign(drawn_certificates, 7, os.path.join(folder, "kept"), folder)
        first = campaigns.run(made, 2, 1, None, told.append)
        last = campaigns.run(made, 4, 1, None, told.append)
        other = campaigns.run(campaigns.Campaign(drawn_certificates, 7, os.path.join(folder, "other"), folder), 4, 1, None, told.append)
        sizes = [os.path.getsize(os.path.join(folder, "kept", "0", which, "c")) for which in ("drawn", "smaller")]
    if (first.next, last.next, last.words, last.differences) != (2, 4, other.words, other.differences) or len(told) != 2 * last.differences:
        faults.append(f"{first.next}, {last.line()}, {other.line()}, {len(told)} told")
    return faults + [f"sizes {sizes}"] * (not 0 <= sizes[1] < sizes[0])


def faults_of_block_by_block():
    """Over files in a row that differ in few lines the checker of large files says what the second checker does."""
    faults = []
    for network in range(4):
        checker = block_by_block.Checker("c")
        for number in range(network * drawn_certificates.OF_ONE, (network + 1) * drawn_certificates.OF_ONE):
            data = drawn_certificates.case(7, number)["c"]
            told, want = checker.answer(data), reference_check.check_bytes("c", data)
            faults += [f"case {number}: want {want}, got {told}"] * (told != want)
    return faults


def said_by(module, words):
    """What a tool writes on these words, and its status."""
    said = io.StringIO()
    with contextlib.redirect_stdout(said), contextlib.redirect_stderr(said):
        status = module.main(words)
    return said.getvalue(), status


def faults_of_words(load):
    """Words that are no call of a tool."""
    wrong = {"limits": [["--all"], ["--jobs"], ["--jobs", "0"]], "failing_calls": [["--most"], ["--most", "0"], ["--any", "1"]], "campaign": [[], ["small"], ["large", "--cases"], ["large", "--cases", "x"]]}
    return [f"{name} {words}" for name, calls in wrong.items() for words in calls if said_by(load(name), words)[1] != 2]


def faults_with_program(load):
    """A few calls of each tool with the program."""
    calls = [("limits", ["UTF-16"], f"limits: {len(limits.CALLS)} of {len(limits.CALLS)} rows"), ("failing_calls", ["--most", "1", "--step", "1000000", "usage", "loop"], "failing calls: ")]
    faults = []
    for name, words, text in calls:
        said, status = said_by(load(name), words)
        faults += [said] if status or text not in said else []
    with tempfile.TemporaryDirectory() as folder:
        for kind, cases in (("certificates", 12), ("updates", 8), ("inputs", 8), ("simulations", 8), ("answers", 1)):
            said, status = said_by(load("campaign"), [kind, "--cases", str(cases), "--seed", "7", "--jobs", "1", "--folder", os.path.join(folder, kind)])
            faults += [said] if status or f"{kind}: {cases} cases" not in said else []
    return faults


def cases(load, has_program):
    """Each case by its name, with what is wrong; `load` gives a tool by its name."""
    yield "failing_calls: what may be left of a call", faults_of_judges()
    yield "failing_calls: what is found of the calls that fail", faults_of_report()
    yield "limits: the reasons of the second readers", faults_of_limits()
    yield "campaign: a file made smaller", faults_of_smaller()
    yield "campaign: what is drawn", faults_of_drawn()
    yield "campaign: a program that answers nothing", faults_of_silence()
    yield "campaign: what is kept", faults_of_record()
    yield "campaign: large files, block by block", faults_of_block_by_block()
    yield "limits, failing_calls, campaign: words", faults_of_words(load)
    if has_program:
        yield "limits, failing_calls, campaign: with the program", faults_with_program(load)
