"""The fibres and sweeps of tools/fibre_cuts, and reports by what is cut."""
import os
import tempfile

from .folders import write_files

# Fibre 0 and 1 go both ways, 2 and 3 one way.
NET = "source,target,capacity,cost\na,b,100,1\nb,a,100,1\nb,c,100,1\nc,b,100,1\nc,a,9,1\nc,b,9,1\n"
FILES = {"net.csv": NET, "tm.csv": "step,source,target,demand\n0,a,b,7\n0,a,c,3\n1,c,a,9\n"}
FIBRES = "fibre,source,target,links\n0,a,b,0 1\n1,b,c,2 3\n2,c,a,4\n3,c,b,5\n"
GROUPS = "group,fibre\nduct,3\nnorth,0\nduct,0\nduct,0\n"
# The words before NET, the cuts of the sweep, and its failures.
SWEEPS = [
    ([], "0,-\n1,a b\n2,b c 1\n3,c a\n4,c b 3\n", "1,1,0\n1,1,1\n2,2,2\n2,2,3\n3,3,4\n4,4,5\n"),
    (
        ["--two"],
        "0,-\n1,a b + b c 1\n2,a b + c a\n3,a b + c b 3\n4,b c 1 + c a\n5,b c 1 + c b 3\n6,c a + c b 3\n",
        "1,1,0\n1,1,1\n1,1,2\n1,1,3\n2,2,0\n2,2,1\n2,2,4\n3,3,0\n3,3,1\n3,3,5\n4,4,2\n4,4,3\n4,4,4\n5,5,2\n5,5,3\n5,5,5\n6,6,4\n6,6,5\n",
    ),
    (["--nodes"], "0,-\n1,a\n2,b\n3,c\n", "1,1,0\n1,1,1\n1,1,4\n2,2,0\n2,2,1\n2,2,2\n2,2,3\n2,2,5\n3,3,2\n3,3,3\n3,3,4\n3,3,5\n"),
    (["--groups", "groups.csv"], "0,-\n1,duct\n2,north\n", "1,1,0\n1,1,1\n1,1,5\n2,2,0\n2,2,1\n"),
]
STAR = "source,target,capacity,cost\n" + "".join(f"hub,n{number},1,1\n" for number in range(46))
# Words, the files that differ, and why they are refused.
REFUSED = [
    (["net.csv", "tm.csv", "2", "s"], {}, "tm.csv has steps 0 to 1"),
    (["net.csv", "tm.csv", "0", "s"], {"tm.csv": "x\n"}, "refused: tm.csv: header (tools/explain PLAN says more)"),
    (["--two", "net.csv", "tm.csv", "0", "s"], {"net.csv": STAR}, "1035 cuts and the whole network are more than 1024 steps: name those that matter by --groups"),
    (["--groups", "g", "net.csv", "tm.csv", "0", "s"], {"g": "group,fibre\nx,4\n"}, "refused: g: line 2: '4' is none of the fibres 0 to 3"),
    (["--groups", "g", "net.csv", "tm.csv", "0", "s"], {"g": "group,fibre\nx y,3\n"}, "refused: g: line 2: 'x y' is not 1 to 32 of the characters A-Z a-z 0-9 _ . -"),
    (["--groups", "g", "net.csv", "tm.csv", "0", "s"], {"g": "group,link\n"}, "refused: g: line 1: no column is called 'fibre'"),
    (["--join", "r", "tm.csv"], {}, "r is no report, or tm.csv no cuts.csv of a sweep"),
    (["--join", "r", "cuts"], {"cuts": "step,cut\n0,-\n1,a b\n2,b c\n3,c a\n"}, "refused: r: line 5: spf has not the steps 0 to 3 of cuts"),
    (["--join", "r", "cuts"], {"r": "scheme,step,offered\n"}, "r is no report, or cuts no cuts.csv of a sweep"),
]
HEADER = "offered,delivered,lost_full,lost_failed,lost_no_path,peak,parts,low\n"
REPORT = "scheme,step," + HEADER + (
    "spf,0,10,10,0,0,0,300,300,-\nspf,1,10,9,1,0,0,7,7,-\nspf,2,10,10,0,0,0,300,400,-\nspf,total,30,29,1,0,0,300,400,-\n"
    "mcf,0,10,10,0,0,0,5,5,5\nmcf,1,10,10,0,0,0,5,5,5\nmcf,2,10,10,0,0,0,6,5,5\nmcf,total,30,30,0,0,0,6,5,-\n"
)
CUTS = "step,cut\n0,-\n1,a b\n2,b c 1\n"
JOINED = "scheme,cut," + HEADER + (
    "spf,a b,10,9,1,0,0,7,7,-\nspf,b c 1,10,10,0,0,0,300,400,-\nspf,-,10,10,0,0,0,300,300,-\n"
    "mcf,b c 1,10,10,0,0,0,6,5,5\nmcf,-,10,10,0,0,0,5,5,5\nmcf,a b,10,10,0,0,0,5,5,5\n"
)
NO_FORMS = [[], ["net.csv", "tm.csv", "x", "s"], ["--two", "net.csv"], ["--join", "r"], ["--any", "net.csv"], ["--groups", "net.csv", "tm.csv", "0", "s"]]


def cases(load, call):
    """Each case by its name, with what is wrong: `load` gives a tool, `call` what its `main` writes in a folder, and its status."""
    tool = load("fibre_cuts")
    with tempfile.TemporaryDirectory() as folder:
        write_files(folder, {**FILES, "groups.csv": GROUPS})
        yield "fibre_cuts", wrong(call(tool, ["net.csv"], folder), (FIBRES, 0))
        for how, cuts, failures in SWEEPS:
            place = "sweep" + "".join(how)
            yield f"fibre_cuts {how}", wrong(call(tool, [*how, "net.csv", "tm.csv", "1", place], folder), ("", 0))
            yield f"fibre_cuts {how}: cuts", wrong(read(folder, place, "cuts.csv"), "step,cut\n" + cuts)
            yield f"fibre_cuts {how}: failures", wrong(read(folder, place, "failures.csv"), "from,to,link\n" + failures)
            matrices = "".join(f"{step},a,b,0\n{step},a,c,0\n{step},c,a,9\n" for step in range(cuts.count("\n")))
            yield f"fibre_cuts {how}: matrices", wrong(read(folder, place, "tm.csv"), "step,source,target,demand\n" + matrices)
    for place, (words, files, why) in enumerate(REFUSED):
        yield f"fibre_cuts, refusal {place}", of_files(tool, call, files, words, (why + "\n", 3))
    yield "fibre_cuts --join", of_files(tool, call, {}, ["--join", "r", "cuts"], (JOINED, 0))
    yield "fibre_cuts --join: no number", of_files(tool, call, {"r": REPORT.replace("10,9,1", "10,x,1")}, ["--join", "r", "cuts"], ("a number is none: invalid literal for int() with base 10: 'x'\n", 3))
    for words in NO_FORMS:
        yield f"fibre_cuts {words}", [] if call(tool, words, "/")[1] == 2 else ["it is taken for a form"]


def read(*names):
    with open(os.path.join(*names), encoding="utf-8", newline="") as file:
        return file.read()


def wrong(got, wanted):
    return [] if got == wanted else [f"want {wanted!r}", f"got  {got!r}"]


def of_files(tool, call, files, words, wanted):
    with tempfile.TemporaryDirectory() as folder:
        write_files(folder, {**FILES, "r": REPORT, "cuts": CUTS, **files})
        return wrong(call(tool, words, folder), wanted)
