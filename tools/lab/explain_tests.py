"""What tools/explain says: of the tables of mistakes and of certificates, and where a file or a program is in its way."""
import os
import re
import subprocess
import tempfile
import types

from . import certificate_report, program, warning_tests
from .cases import GOOD
from .certificate_cases import CERTIFICATE_CASES, FILES
from .certificates import SMALLEST, SMALLEST_WITH_LESS
from .folders import write_files
from .header_words import AS_ROWS
from .more_cases import CASES

STATUS = {"refused": 3, "fault": 4, "": 0, "yes": 0, "no": 1}
# What a program says of a certificate, its status, and what is then said of one that holds and of one that does not.
LARGE = [
    ("yes ratio 1000000 set all\n", 0, (["program: says so; of a large file"], ["program: SAYS SOMETHING ELSE"])),
    ("no link 0 rule I4 place 0\n", 1, (["yes ratio", "SAYS SOMETHING ELSE"], ["no link 0 rule I4 place 0", "10000000000000 is above", "says so; of a large file"])),
    ("no link 7 rule I1 place 3\n", 1, (["yes ratio", "SAYS SOMETHING ELSE"], ["SAYS SOMETHING ELSE"])),
    ("", None, (["yes ratio", "still at work after 20 seconds"], ["no link 0 rule I4 place 0", "still at work"])),
]
WIDE = "node,a,b,c\na,0,7,3\nb,1,0,2\nc,0,9,0\n"
ROWS_OF_WIDE = b"step,source,target,demand\n0,a,b,7\n0,a,c,3\n0,b,a,1\n0,b,c,2\n0,c,a,0\n0,c,b,9\n"


def faults_of(said, status, line, words, has_program):
    """What is wrong with what tools/explain said of files for which the program says this line."""
    faults = [f"{it!r} is not said" for it in words if it not in said]
    if line and not said.startswith(line + "\n") or not line and not said.startswith("accepted"):
        faults.append(f"its first line is not {line or 'accepted'!r}")
    if status != STATUS[re.match(r"\w*", line).group()]:
        faults.append(f"status {status}")
    if has_program and "program: accepts the files" not in said and "program: says the same" not in said:
        faults.append("the program does not say the same")
    return faults + ([said] if faults else [])


# A step that is asked for, the files that differ, the line, and the words.
STEPS = [
    ("the last step", "1", {}, "", ["accepted: 3 nodes, 4 links, 3 pairs, 2 steps, 2 outages"]),
    ("the step after the last", "2", {}, "refused: tm.csv: no step 2", ["the steps 0 to 1", "count steps from 0"]),
    ("the first step of a series without rows", "0", {"tm.csv": "step,source,target,demand\n"}, "refused: tm.csv: no step 0", ["no row below the header"]),
    ("a fault of the matrices before that of the step", "2", {"tm.csv": "step,source,target,demand\n0,a,x,1\n"}, "refused: tm.csv: unknown node at row 1", []),
    ("the step before the failures", "2", {"cuts.csv": ""}, "refused: tm.csv: no step 2", []),
]

# A plan over the network of the smallest certificate, what is called of it with the certificate, the files that differ, the line, and the words.
OF_SMALLEST = {
    "c": SMALLEST,
    "plan.json": '{"topology":"net.csv","matrices":"tm.csv"}',
    "net.csv": "source,target,capacity,cost\na,b,10,1\n",
    "tm.csv": "step,source,target,demand\n0,a,b,7\n",
}
SIMULATIONS = [
    ("the network and the pairs of the certificate", {}, "", ["accepted: 2 nodes, 1 links, 1 pairs, 1 steps"]),
    ("a pair without a route", {"tm.csv": "step,source,target,demand\n0,a,b,7\n0,b,a,1\n"}, "refused: tm.csv: no route at row 2", ["no pair from b to a"]),
    ("a fault of the matrices before the pair", {"tm.csv": "step,source,target,demand\n0,b,a,1\n0,a,x,1\n"}, "refused: tm.csv: unknown node at row 2", []),
    ("another capacity", {"net.csv": "source,target,capacity,cost\na,b,11,1\n"}, "refused: net.csv: not the network", ["10 in the certificate, and 11"]),
    ("a certificate that is cut", {"c": SMALLEST[:-4]}, "refused: c: shape at line 16", ["it was cut"]),
]


class Explain:
    """The tool as a module: `load` gives a tool by its name, and `call` what its `main` writes in a folder, and its status."""

    def __init__(self, load, call, has_program):
        self.load, self.call, self.has_program = load, call, has_program
        self.tool = load("explain")

    def of(self, files, words, place=""):
        """What it writes on these words in a folder with these files, which stand in the place there, and its status."""
        with tempfile.TemporaryDirectory() as folder:
            os.makedirs(os.path.join(folder, place), exist_ok=True)
            write_files(os.path.join(folder, place), files)
            return self.call(self.tool, [*([] if self.has_program else ["--alone"]), *words], folder)

    def cases(self):
        """Each case by its name, with what is wrong."""
        for name, files, line, words in CASES:
            yield f"explain: {name}", self.faults({**GOOD, **files}, ["plan.json"], line, words)
        for name, step, files, line, words in STEPS:
            yield f"explain a step: {name}", self.faults({**GOOD, **files}, ["plan.json", step], line, words)
        for name, files, line, words in SIMULATIONS:
            yield f"explain a simulation: {name}", self.faults({**OF_SMALLEST, **files}, ["c", "plan.json"], line, words)
        for name, call, files, line, words in CERTIFICATE_CASES:
            yield f"explain a certificate: {name}", self.faults({**FILES, **files}, call, line, words)
        for name, faults_of_case in warning_tests.CASES + warning_tests.CASES_OF_PROGRAM * self.has_program:
            yield f"explain: {name}", faults_of_case()
        yield "explain: a plan in another folder", self.another_folder()
        yield "explain --all", self.every_fault()
        yield "explain: a file of 64 MiB and a byte", self.too_long()
        yield "explain: pipes", self.pipes()
        yield "explain: a difference", self.difference()
        yield "explain: large certificates", self.large_certificates()
        yield "explain: a wide matrix as rows", wide_matrix()

    def faults(self, files, call, line, words, place=""):
        said, status = self.of(files, call, place)
        return faults_of(said, status, line, words, self.has_program)

    def another_folder(self):
        words = ["net.csv, looked for as", "taken from the folder in which you run", "cd "]
        return self.faults(GOOD, ["plans/plan.json"], "fault: read", words, "plans")

    def every_fault(self):
        files = {**GOOD, "net.csv": GOOD["net.csv"] + "a,c,1.5,1\na,c\n", "tm.csv": GOOD["tm.csv"] + "1,a,x,1\n"}
        lines = ["refused: net.csv: number at row 5", "fields at row 6", "refused: tm.csv: unknown node at row 4"]
        return self.faults(files, ["--all", "plan.json"], "refused: net.csv: number at row 5", lines)

    def too_long(self):
        with tempfile.TemporaryDirectory() as folder:
            write_files(folder, GOOD)
            os.truncate(os.path.join(folder, "tm.csv"), 67_108_865)
            said, status = self.call(self.tool, [*([] if self.has_program else ["--alone"]), "plan.json"], folder)
        return faults_of(said, status, "refused: tm.csv: too long", ["67108864"], self.has_program)

    def pipes(self):
        """What can be read once alone is not read."""
        faults, told = [], ("pipe is a pipe or a device, and tools/explain reads regular files alone\n", 2)
        with tempfile.TemporaryDirectory() as folder:
            write_files(folder, {"plan.json": '{"topology":"pipe","matrices":"tm.csv"}', "c": SMALLEST})
            os.mkfifo(os.path.join(folder, "pipe"))
            for words in (["plan.json"], ["pipe"], ["c", "pipe"], ["pipe", "c"]):
                got = self.call(self.tool, words, folder)
                faults += [f"{words}: {got}"] * (got != told)
        return faults

    def over(self, answer, files, words):
        """What it says over a program that gives this answer, and its status."""
        tool = self.load("explain")
        tool.program = types.SimpleNamespace(is_built=lambda: True, answer=lambda words, seconds: answer)
        with tempfile.TemporaryDirectory() as folder:
            write_files(folder, files)
            return self.call(tool, words, folder)

    def difference(self):
        """What is said where the program does not say the same."""
        said, status = self.over(program.Answer(b"", "refused: net.csv: empty\n", 3), GOOD, ["plan.json"])
        return [said] if status != 1 or "SAYS SOMETHING ELSE, with status 3: refused: net.csv: empty" not in said else []

    def large_certificates(self):
        """Of a large certificate the program's line is reckoned at its place; and a program that is still at work is told."""
        faults, certificate_report.WHOLE, whole = [], 0, certificate_report.WHOLE
        for answer, status, wanted in LARGE:
            for text, words in zip((SMALLEST, SMALLEST_WITH_LESS), wanted):
                said, _ = self.over(program.Answer(answer.encode(), "", status), {"c": text}, ["c"])
                faults += [f"{it!r} is not in {said!r}" for it in words if it not in said]
        certificate_report.WHOLE = whole
        return faults


def wide_matrix():
    """The command that explain gives for a matrix with nodes as columns writes its rows."""
    with tempfile.TemporaryDirectory() as folder:
        write_files(folder, {"WIDE": WIDE})
        rows = subprocess.run(["sh", "-c", AS_ROWS], cwd=folder, stdout=subprocess.PIPE, check=False).stdout
    return [] if rows == ROWS_OF_WIDE else [rows]
