"""Series that tools/split takes apart and tools/join puts together; with the program, beside one run."""
import json
import os
import shutil
import subprocess
import tempfile

from . import program
from .folders import write_files

NET = "source,target,capacity,cost\na,b,10,1\nb,a,10,1\nb,c,10,1\nc,b,10,1\na,c,5,3\n"
MATRICES = "step,source,target,demand\n0,a,b,7\n0,b,a,3\n3,a,c,9\n3,a,b,1\n4,a,c,12\n4,b,a,0\n"
FAILURES = "from,to,link\n0,3,0\n2,2,2\n4,4,1\n"
PLAN = {"topology": "net.csv", "matrices": "tm.csv", "failures": "failures.csv", "schemes": ["spf", "mcf", "spf"], "seed": 2**64 - 1}
FILES = {"net.csv": NET, "tm.csv": MATRICES, "failures.csv": FAILURES, "plan.json": json.dumps(PLAN)}
PART_1 = {
    "part-1-matrices.csv": "step,source,target,demand\n0,a,b,0\n0,a,c,0\n0,b,a,0\n1,a,b,1\n1,a,c,9\n2,a,c,12\n2,b,a,0\n",
    "part-1-failures.csv": "from,to,link\n0,1,0\n0,0,2\n2,2,1\n",
}
# The first part ends with a step that no row has.
PART_0 = {"part-0-matrices.csv": "step,source,target,demand\n0,a,b,7\n0,a,c,0\n0,b,a,3\n1,a,b,0\n", "part-0-failures.csv": "from,to,link\n0,1,0\n"}
# Predictions for two steps of five.
PREDICTIONS = "step,source,target,demand\n0,a,b,5\n1,b,c,2\n"
PREDICTED = {
    "part-0-predictions.csv": "step,source,target,demand\n0,a,b,5\n0,b,c,0\n1,b,c,2\n",
    "part-1-predictions.csv": "step,source,target,demand\n0,a,b,0\n0,b,c,0\n2,a,b,0\n",
}
HEADER = "scheme,step,offered,delivered,lost_full,lost_failed,lost_no_path,peak,parts,low\n"
REPORTS = {
    "parts.json": '{"schemes": ["mcf", "spf"], "steps": [1, 2]}',
    "part-0-report.csv": HEADER + "mcf,0,5,4,1,0,0,1000000,1100000,7\nmcf,total,5,4,1,0,0,1000000,1100000,-\nspf,0,5,5,0,0,0,3,3,-\nspf,total,5,5,0,0,0,3,3,-\n",
    "part-1-report.csv": HEADER + "mcf,0,1,0,0,1,0,9,9,-\nmcf,1,2,0,0,0,2,8,10,0\nmcf,total,3,0,0,1,2,9,10,-\n" + "spf,0,1,1,0,0,0,4,4,-\nspf,1,2,2,0,0,0,2,2,-\nspf,total,3,3,0,0,0,4,4,-\n",
}
JOINED = HEADER + (
    "mcf,0,5,4,1,0,0,1000000,1100000,7\nmcf,1,1,0,0,1,0,9,9,-\nmcf,2,2,0,0,0,2,8,10,0\nmcf,total,8,4,1,1,2,1000000,1100000,-\n"
    "spf,0,5,5,0,0,0,3,3,-\nspf,1,1,1,0,0,0,4,4,-\nspf,2,2,2,0,0,0,2,2,-\nspf,total,8,8,0,0,0,4,4,-\n"
)
CUT, WHOLE = REPORTS["part-1-report.csv"][:-20], REPORTS["part-1-report.csv"]
# What is wrong with a report, and what stands in its place.
SPOILED = [("is cut", CUT), ("is empty", ""), ("is of other schemes", WHOLE.replace("spf", "ksp")), ("has a step more", WHOLE.replace("spf,total", "spf,2,1,1,0,0,0,4,4,-\nspf,total"))]
# A plan, the folder in which it runs, and the number of parts.
RUNS = [("bypass.json", "examples/cuts", 4), ("reroute.json", "examples/cuts", 3), ("adapt.json", "examples/cuts", 5), ("plan.json", "examples/backbone", 5)]


def cases(load, call, has_program):
    """Each case by its name, with what is wrong: `load` gives a tool, `call` what its `main` writes in a folder, and its status."""
    tools = load("split"), load("join")
    with tempfile.TemporaryDirectory() as folder:
        write_files(folder, FILES)
        yield "split", wrong(call(tools[0], ["plan.json", "2", "made"], folder), ("", 0))
        for name, text in {**PART_0, **PART_1}.items():
            yield f"split: {name}", wrong(read(folder, "made", name), text)
        members = {**PLAN, "matrices": "part-1-matrices.csv", "failures": "part-1-failures.csv"}
        yield "split: the plan of a part", wrong(json.loads(read(folder, "made", "part-1.json")), members)
        yield "split: a folder that is there", wrong(call(tools[0], ["plan.json", "2", "made"], folder), ("made is there already\n", 3))
        write_files(folder, {"q.csv": PREDICTIONS, "predicted.json": json.dumps({**PLAN, "predictions": "q.csv"})})
        call(tools[0], ["predicted.json", "2", "predicted"], folder)
        for name, text in PREDICTED.items():
            yield f"split: {name}", wrong(read(folder, "predicted", name), text)
        yield "split: the predictions of a part", wrong(json.loads(read(folder, "predicted", "part-0.json"))["predictions"], "part-0-predictions.csv")
        call(tools[0], ["plan.json", "99", "steps"], folder)
        yield "split: as many parts as steps", wrong(json.loads(read(folder, "steps", "parts.json"))["steps"], [1] * 5)
        yield "split: words", wrong(call(tools[0], ["plan.json", "0", "none"], folder)[1], 2)
        write_files(folder, {"tm.csv": MATRICES.replace("7", "x")})
        refused = "refused: tm.csv: number at row 1 (tools/explain plan.json says more)\n"
        yield "split: a refusal", wrong(call(tools[0], ["plan.json", "2", "none"], folder), (refused, 3))
    yield from joins(tools[1], call)
    for name, words in [("a series", (FILES, 2)), ("a series without steps", ({**FILES, "tm.csv": MATRICES[:26], "failures.csv": FAILURES[:13]}, 2))] * has_program:
        yield f"split: {name} beside one run", of_files(tools, call, *words)
    predicted = {**FILES, "q.csv": PREDICTIONS, "plan.json": json.dumps({**PLAN, "predictions": "q.csv"})}
    if has_program:
        yield "split: predictions beside one run", of_files(tools, call, predicted, 2)
    for plan, place, count in RUNS * has_program:
        yield f"split: {place}/{plan} beside one run", beside_one_run(tools, call, plan, os.path.join(program.TOP, place), count)


def joins(tool, call):
    with tempfile.TemporaryDirectory() as folder:
        write_files(folder, REPORTS)
        yield "join", wrong(call(tool, ["."], folder), (JOINED, 0))
        for what, text in SPOILED:
            write_files(folder, {"part-1-report.csv": text})
            told = "part-1-report.csv is not the whole report of part 1: 2 steps of mcf spf\n"
            yield f"join: a report that {what}", wrong(call(tool, ["."], folder), (told, 3))
        os.remove(os.path.join(folder, "part-1-report.csv"))
        yield "join: no report", wrong(call(tool, ["."], folder)[1], 3)
        yield "join: no folder", wrong(call(tool, ["none"], folder)[1], 3)


def read(*names):
    with open(os.path.join(*names), encoding="utf-8", newline="") as file:
        return file.read()


def wrong(got, wanted):
    return [] if got == wanted else [f"want {wanted!r}", f"got  {got!r}"]


def of_files(tools, call, files, count):
    with tempfile.TemporaryDirectory() as folder:
        write_files(folder, files)
        return beside_one_run(tools, call, "plan.json", folder, count)


def beside_one_run(tools, call, plan, place, count):
    """What is wrong where the parts, run by make in a folder with a blank in its name, are not joined to the bytes of one run."""
    with tempfile.TemporaryDirectory() as above:
        folder = os.path.join(above, "the parts")
        said = call(tools[0], [plan, str(count), folder], place)
        if said != ("", 0):
            return [f"{said}"]
        run_parts(folder)
        return wrong(call(tools[1], [folder], above), (program.answer(["run", plan], place).out.decode(), 0))


def run_parts(folder):
    """Runs the parts by their Makefile; without make, one after the other."""
    if shutil.which("make"):
        subprocess.run(["make", "-s", "-j2", "-C", folder, f"YATES='{program.PROGRAM}'"], stdin=subprocess.DEVNULL, check=False)
        return
    for part in range(len(json.loads(read(folder, "parts.json"))["steps"])):
        write_files(folder, {f"part-{part}-report.csv": program.answer(["run", f"part-{part}.json"], folder).out})
