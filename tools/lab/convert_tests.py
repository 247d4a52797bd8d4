"""Tables that tools/convert_csv writes, and what it refuses."""
import tempfile

from .folders import write_files

NET = "source,target,capacity,cost\n"
TM = "step,source,target,demand\n"
TIMES = "time,source,target,demand\n"
MAP = "name,new\nLondon (UK),lon\nParis,par\n"
SCALE = ["scale", "capacity", "3", "f"]
STEPS = ["steps", "time", "300", "f"]
MAPPED = ["names", "map", "f"]
LONG = "a" * 33
# The words of a call, its files, what it writes to both streams, and its status where that is not 0.
WRITTEN = [
    (SCALE, {"f": NET + "a,b,9.953,1\nb,a,10,2\n"}, NET + "a,b,9953,1\nb,a,10000,2\n"),
    (SCALE, {"f": NET + "a,b,2.5e1,1\nb,a,1E-3,2\na,b,4294967.296,1\na,b,0.000,1\n"}, NET + "a,b,25000,1\nb,a,1,2\na,b,4294967296,1\na,b,0,1\n"),
    (["scale", "capacity", "-6", "f"], {"f": NET + "a,b,10000000,1\n"}, NET + "a,b,10,1\n"),
    (["scale", "speed", "0", "f"], {"f": '\ufeff"a, b",speed\r\n"x ""y""",10.0\r\n'}, '"a, b",speed\n"x ""y""",10\n'),
    (SCALE, {"f": NET}, NET),
    (["wide", "f"], {"f": "node,a,b,c\na,0,7,3.5\nb,1,,2\nc,0,9,-\n"}, TM + "0,a,b,7\n0,a,c,3.5\n0,b,a,1\n0,b,c,2\n0,c,a,0\n0,c,b,9\n"),
    (["wide", "f", "g"], {"f": ",a,b\na,0,7\nb,1,0.0\n", "g": ",a,b\na,0,8\n"}, TM + "0,a,b,7\n0,b,a,1\n1,a,b,8\n"),
    (STEPS, {"f": TIMES + "900,a,b,1\n600,a,b,2\n1500,b,a,3\n900,b,a,4\n"}, "step 0 is 600\n" + TM + "0,a,b,2\n1,a,b,1\n1,b,a,4\n3,b,a,3\n"),
    (STEPS, {"f": TIMES + "2024-02-28 23:55:00,a,b,1\n2024-02-29 00:00:00,a,b,2\n"}, "step 0 is 2024-02-28 23:55:00\n" + TM + "0,a,b,1\n1,a,b,2\n"),
    (STEPS, {"f": TIMES + "2026-03-01T08:00+01:00,a,b,1\n2026-03-01T07:05Z,a,b,2\n"}, "step 0 is 2026-03-01T08:00+01:00\n" + TM + "0,a,b,1\n1,a,b,2\n"),
    (STEPS, {"f": TIMES}, TM),
    (MAPPED, {"f": TM + "0,London (UK),Paris,7\n", "map": MAP}, TM + "0,lon,par,7\n"),
    (MAPPED, {"f": TM, "map": "new,note,name\nlon,\"a, b\",Köln\n"}, TM),
]
REFUSED = [
    (SCALE, {"f": NET + "a,b,10,1\na,b,9.9532,1\n"}, "f: line 3: 9.9532 times 10^3 is not whole"),
    (SCALE, {"f": NET + "a,b,4294967.297,1\n"}, "f: line 2: 4294967.297 times 10^3 is above 4294967296"),
    (SCALE, {"f": NET + "a,b,-1,1\n"}, "f: line 2: '-1' is no decimal number of 0 or more"),
    (SCALE, {"f": NET + "a,b, 1,1\n"}, "f: line 2: ' 1' is no decimal number of 0 or more"),
    (SCALE, {"f": NET + "a,b,1,5,1\n"}, "f: line 2: 5 fields, and the header has 4"),
    (SCALE, {"f": NET + 'a,b,"1,5",1\n'}, "f: line 2: '1,5' is no decimal number of 0 or more"),
    (SCALE, {"f": NET + "a,b,٣,1\n"}, "f: line 2: '٣' is no decimal number of 0 or more"),
    (SCALE, {"f": "source;target;capacity;cost\n"}, "f: line 1: no column is called 'capacity'"),
    (SCALE, {"f": "capacity,capacity\n"}, "f: line 1: several columns are called 'capacity'"),
    (SCALE, {"f": b"capacity\n\xff\n"}, "f: line 2: it is not UTF-8"),
    (SCALE, {"f": ""}, "f: it has no line"),
    (["wide", "f"], {"f": ",a,b\na,3,7\n"}, "f: line 2: from a to itself stands '3', and no demand goes from a node to itself"),
    (["wide", "f"], {"f": ",a,b\na,0,\n"}, "f: line 2: from a to b stands '', which is no decimal number of 0 or more"),
    (["wide", "f"], {"f": ",a,b,a\na,0,1,2\n"}, "f: line 1: 'a' stands twice"),
    (["wide", "f"], {"f": ",a,b\na,0,1\na,0,1\n"}, "f: line 1: 'a' stands twice"),
    (["wide", "f", "g"], {"f": ",a\n", "g": "a\n"}, "g: line 1: it has one column"),
    (STEPS, {"f": TIMES + "0,a,b,1\n450,a,b,2\n"}, "f: line 3: 450 is 450 seconds after 0, which are no whole steps of 300"),
    (STEPS, {"f": TIMES + "0,a,b,1\n307200,a,b,2\n"}, "f: line 3: 307200 is step 1024, and a series has at most 1024 steps: split the file"),
    (STEPS, {"f": TIMES + "2024-02-30T00:00,a,b,1\n"}, "f: line 2: '2024-02-30T00:00' is neither a number of seconds nor a time like 2026-03-01T08:00 or 2026-03-01T08:00:00Z"),
    (STEPS, {"f": TIMES + "2024-02-28T00:00,a,b,1\n2024-02-28T00:00Z,a,b,1\n"}, "f: line 3: '2024-02-28T00:00Z' is a clock with a zone, and another row has a clock"),
    (STEPS, {"f": TM}, "f: line 1: no column is called 'time'"),
    (MAPPED, {"f": TM + "0,London (UK),Rome,7\n", "map": MAP}, "f: line 2: map has no row for 'Rome'"),
    (MAPPED, {"f": TM, "map": MAP + "Roissy,par\n"}, "map: 'Paris' and 'Roissy' both become par"),
    (MAPPED, {"f": TM, "map": MAP + "Paris,paris\n"}, "map: line 4: 'Paris' stands twice"),
    (MAPPED, {"f": TM, "map": f"name,new\nParis,{LONG}\n"}, f"map: line 2: '{LONG}' is not 1 to 32 of the characters A-Z a-z 0-9 _ . -"),
    (MAPPED, {"f": TM, "map": "from,to\n"}, "map: line 1: no column is called 'name'"),
]
NO_FORMS = [[], ["scale", "capacity", "x", "f"], ["wide"], ["steps", "time", "0", "f"], ["names", "f"], ["columns", "f"]]


def cases(load, call):
    """Each case by its name, with what is wrong: `load` gives a tool, `call` what its `main` writes in a folder, and its status."""
    tool = load("convert_csv")
    for place, (words, files, text) in enumerate(WRITTEN):
        yield f"convert_csv, row {place}", differences(call, tool, files, words, (text, 0))
    for place, (words, files, why) in enumerate(REFUSED):
        yield f"convert_csv, refusal {place}", differences(call, tool, files, words, (f"refused: {why}\n", 3))
    for words in NO_FORMS:
        yield f"convert_csv, {words}", [] if call(tool, words, "/")[1] == 2 else ["it is taken for a form"]
    yield "convert_csv: no file", [] if call(tool, ["wide", "none"], "/")[1] == 3 else ["it is not refused"]


def differences(call, tool, files, words, wanted):
    with tempfile.TemporaryDirectory() as folder:
        write_files(folder, files)
        got = call(tool, words, folder)
    return [] if got == wanted else [f"want {wanted!r}", f"got  {got!r}"]
