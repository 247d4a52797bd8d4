"""The forecasts of tools/predict, by hand."""
import tempfile

from .cut_tests import wrong
from .folders import write_files

TM = "step,source,target,demand\n"
# Demands of 10, 5, 9 and 0 from a to b; of 3, 0, 4 and 0 from b to c; and of 0, 0, 0 and 8 from c to a.
SERIES = TM + "0,a,b,10\n0,b,c,3\n1,a,b,5\n2,a,b,9\n2,b,c,4\n3,c,a,8\n"
# Every pair stands in the first step.
FIRST = TM + "0,a,b,10\n0,b,c,3\n0,c,a,0\n1,a,b,10\n1,b,c,3\n"
# The words behind MATRICES, the matrices, and what is written.
FORECASTS = [
    (["last"], SERIES, FIRST + "2,a,b,5\n3,a,b,9\n3,b,c,4\n"),
    # Of 10 and 5, and of 5 and 9, the mean is 7, and of 3 and 0 it is 1.
    (["mean", "2"], SERIES, FIRST + "2,a,b,7\n2,b,c,1\n3,a,b,7\n3,b,c,2\n"),
    (["mean", "1"], SERIES, FIRST + "2,a,b,5\n3,a,b,9\n3,b,c,4\n"),
    # Of all three before it: 24 over 3, and 7 over 3.
    (["mean", "9"], SERIES, FIRST + "2,a,b,7\n2,b,c,1\n3,a,b,8\n3,b,c,2\n"),
    (["ewma", "1", "2"], SERIES, FIRST + "2,a,b,7\n2,b,c,1\n3,a,b,8\n3,b,c,2\n"),
    (["ewma", "1", "1"], SERIES, FIRST + "2,a,b,5\n3,a,b,9\n3,b,c,4\n"),
    # A tenth of 5 and nine of 10 are 9.5; a tenth of 9 and nine of 9 are 9.
    (["ewma", "1", "10"], SERIES, FIRST + "2,a,b,9\n2,b,c,2\n3,a,b,9\n3,b,c,2\n"),
    # A last step without a forecast stands there too.
    (["last"], TM + "0,a,b,7\n1,a,b,0\n2,a,b,7\n", TM + "0,a,b,7\n1,a,b,7\n2,a,b,0\n"),
    (["last"], TM + "1,a,b,7\n", TM + "0,a,b,0\n1,a,b,0\n"),
    (["last"], TM, TM),
    (["last"], "\ufeff" + TM.replace("\n", "\r\n") + '"0","a","b",007', TM + "0,a,b,7\n"),
    (["ewma", "4294967296", "4294967296"], TM + "0,a,b,4294967296\n1,a,b,1\n", TM + "0,a,b,4294967296\n1,a,b,4294967296\n"),
]
REFUSED = [
    ("", "refused: m: header"),
    (TM + "0,a,b\n", "refused: m: fields at row 1"),
    (TM + "1,a,b,1\n0,a,b,1\n", "refused: m: order at row 2"),
    (TM + "0,a,a,1\n", "refused: m: self pair at row 1"),
    (TM + "0,a b,c,1\n", "refused: m: line 2: 'a b' is not 1 to 32 of the characters A-Z a-z 0-9 _ . -"),
]
NO_FORMS = [
    [], ["m"], ["m", "mean"], ["m", "mean", "0"], ["m", "mean", "x"], ["m", "mean", "1", "2"], ["m", "last", "1"], ["m", "ewma", "1"],
    ["m", "ewma", "2", "1"], ["m", "ewma", "0", "1"], ["m", "best"],
]


def cases(load, call):
    """Each case by its name, with what is wrong: `load` gives a tool, `call` what its `main` writes in a folder, and its status."""
    tool = load("predict")
    with tempfile.TemporaryDirectory() as folder:
        for how, matrices, wanted in FORECASTS:
            write_files(folder, {"m": matrices})
            yield f"predict {' '.join(how)}, {wanted!r}", wrong(call(tool, ["m", *how], folder), (wanted, 0))
        for matrices, line in REFUSED:
            write_files(folder, {"m": matrices})
            yield f"predict: {line}", wrong(call(tool, ["m", "last"], folder), (line + "\n", 3))
        for words in NO_FORMS:
            yield f"predict {words}", [] if call(tool, words, folder)[1] == 2 else ["it is taken for a form"]
