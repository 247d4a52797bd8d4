"""The table of ordinary mistakes: files in place of good ones, the program's line, and words that `tools/explain` must say.
`more_cases` goes on with it.

A case is (what the user did, the files that differ from GOOD, the line, the words). Where the line is empty the files are
accepted, and the words stand in warnings. A file that is None is not there.
"""

NET = "source,target,capacity,cost\n"
TM = "step,source,target,demand\n"
CUTS = "from,to,link\n"
FIBRES = "a,b,100,1\nb,a,100,1\nb,c,100,1\nc,b,100,1\n"
GOOD = {
    "plan.json": '{"topology":"net.csv","matrices":"tm.csv","schemes":["spf"],"failures":"cuts.csv"}',
    "net.csv": NET + FIBRES,
    "tm.csv": TM + "0,a,b,7\n0,a,c,3\n1,c,a,9\n",
    "cuts.csv": CUTS + "1,1,0\n1,1,1\n",
}


def net(text):
    return {"net.csv": text}


def link(row):
    """A topology whose second row is this one."""
    return {"net.csv": NET + "a,b,100,1\n" + row + "\n" + FIBRES}


def tm(text):
    return {"tm.csv": text}


def demand(row):
    """A matrix file whose second row is this one."""
    return {"tm.csv": TM + "0,a,b,7\n" + row + "\n1,c,a,9\n"}


def cut(row):
    return {"cuts.csv": CUTS + row + "\n"}


def plan(text):
    return {"plan.json": text}


def member(text):
    """A plan with this member more."""
    return {"plan.json": '{"topology":"net.csv","matrices":"tm.csv",' + text + "}"}


def with_margin(files):
    return {**member('"schemes":["spf"],"margin":[2,1]'), **files}


HEADER_OF_NET = "refused: net.csv: header"
HEADER_OF_TM = "refused: tm.csv: header"

ACCEPTED = [
    ("nothing is wrong", {}, "", ["accepted: 3 nodes, 4 links, 3 pairs, 2 steps, 2 outages"]),
    ("CRLF", net((NET + FIBRES).replace("\n", "\r\n")), "", ["accepted"]),
    ("CR alone", net((NET + FIBRES).replace("\n", "\r")), "", ["accepted: 3 nodes, 4 links"]),
    ("a byte order mark in a CSV file", net("\ufeff" + NET + FIBRES), "", ["accepted"]),
    ("blank lines", net(NET + "\n\n" + FIBRES + "\n"), "", ["accepted: 3 nodes, 4 links"]),
    ("each field in quotes", net('"source","target","capacity","cost"\n"a","b","100","1"\n' + FIBRES), "", ["lines 2 and 3"]),
    ("CRLF in the plan", plan(GOOD["plan.json"].replace(",", ",\r\n")), "", ["accepted"]),
    ("steps begin at 1", tm(TM + "1,a,b,7\n2,a,b,7\n"), "", ["warning: 1 step has no row", "step 0 has no row"]),
    ("steps begin at 1, with a margin", with_margin(tm(TM + "1,a,b,7\n")), "", ["margin's base is step 0", "no demand at all"]),
    ("a pair has no demand in step 0, with a margin", with_margin({}), "", ["1 pair has no demand in step 0", "c>a"]),
    ("an envelope", member('"envelope":true'), "", ["accepted"]),
    ("schemes that a plan has to name", member('"schemes":["valiant","robust"],"publish":"robust","budget":16'), "", ["accepted"]),
    ("no envelope, with a margin", member('"schemes":["spf"],"margin":[2,1],"envelope":false'), "", ["accepted"]),
    ("steps begin at 1, with an envelope", {**member('"envelope":true'), **tm(TM + "1,a,b,7\n")}, "", ["the least of each demand"]),
    ("one direction of each fibre", {**net(NET + "a,b,100,1\nb,c,100,1\n"), **plan('{"topology":"net.csv","matrices":"tm.csv"}')}, "",
     ["2 links have none that leads back: a>b, b>c", "1 declared pair has no path: c>a", "lost_no_path", "status 7"]),
    ("a row twice", net(NET + FIBRES + "a,b,100,1\n"), "", ["lines 2 and 6", "parallel links"]),
    ("demands in another unit than capacities", demand("0,a,c,700000"), "", ["in step 0 the demands that leave a are 700007", "have 100"]),
    ("half of a fibre is cut", cut("0,1,2"), "", ["1 outage is of one direction", "link 2 (b>c)"]),
    ("a key twice", member('"schemes":["spf"],"k":3,"k":4'), "", ["the key k stands twice"]),
    ("demands of few units", {}, "", ["the median of the demands above 0 is 7", "times 1000 fit the limits"]),
    ("no step", {**tm(TM), **plan('{"topology":"net.csv","matrices":"tm.csv"}')}, "", ["has no step"]),
]

CSV_HEADERS = [
    ("a column is missing", net("source,target,capacity\na,b,10\n"), HEADER_OF_NET, ["lacks cost", "exactly source,target,capacity,cost"]),
    ("a column more", net("source,target,capacity,cost,name\na,b,10,1,x\n"), HEADER_OF_NET, ["has name"]),
    ("columns in another order", net("source,target,cost,capacity\na,b,1,10\n"), HEADER_OF_NET, ["another order", "in each row too"]),
    ("capitals", net("Source,target,capacity,cost\n" + FIBRES), HEADER_OF_NET, ["capitals, blanks or quotes"]),
    ("blanks after commas", net("source, target, capacity, cost\na, b, 10, 1\n"), HEADER_OF_NET, ["capitals, blanks or quotes"]),
    ("semicolons", net((NET + FIBRES).replace(",", ";")), HEADER_OF_NET, ["semicolons", "CSV UTF-8"]),
    ("tabs", net((NET + FIBRES).replace(",", "\t")), HEADER_OF_NET, ["tabs"]),
    ("UTF-16", net((NET + FIBRES).encode("utf-16")), HEADER_OF_NET, ["UTF-16", "iconv", "bytes: ff fe 73 00"]),
    ("a comment first", net("# my network\n" + NET + FIBRES), HEADER_OF_NET, ["comment", "delete the line"]),
    ("a trailing comma", net("source,target,capacity,cost,\na,b,10,1,\n"), HEADER_OF_NET, ["ends in a comma"]),
    ("an empty file", net(""), HEADER_OF_NET, ["the file is empty"]),
    ("a compressed file", net(b"\x1f\x8b\x08\x00abc"), HEADER_OF_NET, ["compressed", "gunzip"]),
    ("no header", net(FIBRES), HEADER_OF_NET, ["exactly source,target,capacity,cost"]),
    ("header of the topology in a matrix file", tm(NET + "0,a,b,1\n"), HEADER_OF_TM, ["exactly step,source,target,demand"]),
    ("a header alone", net(NET), "refused: net.csv: empty", ["no row below the header"]),
]

CSV_ROWS = [
    ("a short row", link("b,a,100"), "refused: net.csv: fields at row 2", ["line:  3 in an editor", "3 fields in place of 4"]),
    ("a decimal comma", demand("0,a,c,700,5"), "refused: tm.csv: fields at row 2", ["decimal comma", "700,5"]),
    ("a last line that is a comment", net(NET + FIBRES + "# end\n"), "refused: net.csv: fields at row 5", ["line:  6 in an editor", "comment"]),
    ("a quote that is not closed", net(NET + 'a,b,100,1\n"b,a,100,1\nb,c,1,1\n'), "refused: net.csv: fields at row 2", ["quote is not closed"]),
    ("a comma at the end of a row", link("b,a,100,1,"), "refused: net.csv: fields at row 2", ["delete the last comma"]),
    ("a name with a blank", link("New York,b,100,1"), "refused: net.csv: name at row 2", ["field: the first, source: New York", "a blank", "New-York"]),
    ("an umlaut", link("b,Zürich,100,1"), "refused: net.csv: name at row 2", ["the second, target: Zürich", "ü", "bytes: 5a c3 bc 72 69 63 68"]),
    ("an interface as a name", link("re0/ae1:x,b,100,1"), "refused: net.csv: name at row 2", ["/, :", "re0-ae1-x"]),
    ("a blank that does not break", link("a\u00a0,b,100,1"), "refused: net.csv: name at row 2", ["bytes: 61 c2 a0"]),
    ("a blank before a name", link("a, b,100,1"), "refused: net.csv: name at row 2", ["begins or ends with a blank"]),
    ("a name of 33 characters", link("a," + "x" * 33 + ",100,1"), "refused: net.csv: name at row 2", ["33 characters"]),
    ("emptied cells", link(",,,"), "refused: net.csv: name at row 2", ["is empty", "spreadsheet"]),
    ("a loop", link("a,a,100,1"), "refused: net.csv: self link at row 2", ["to itself"]),
    ("129 nodes", net(NET + "".join(f"n0,n{i},1,1\n" for i in range(1, 129))), "refused: net.csv: too many at row 128", ["node 129", "at most 128"]),
    ("1025 links", net(NET + "a,b,1,1\n" * 1025), "refused: net.csv: too many at row 1025", ["link 1025", "one row with the sum"]),
    ("a node that is not there", demand("0,a,d,1"), "refused: tm.csv: unknown node at row 2", ["third, target: d", "its nodes are a, b, c"]),
    ("capitals in a node", demand("0,A,b,1"), "refused: tm.csv: unknown node at row 2", ["second, source: A", "the topology has a"]),
    ("emptied cells in a matrix file", demand(",,,"), "refused: tm.csv: unknown node at row 2", ["is empty"]),
    ("the diagonal of a full matrix", tm(TM + "0,a,a,0\n"), "refused: tm.csv: self pair at row 1", ["diagonal"]),
    ("a pair twice", demand("0,a,b,8"), "refused: tm.csv: repeated at row 2", ["line 2 has a demand of the same"]),
    ("steps that are not sorted", tm(TM + "1,a,b,7\n0,a,b,7\n"), "refused: tm.csv: order at row 2", ["after step 1", "sort -s -t, -k1,1n"]),
    ("a Unix time as a step", tm(TM + "1078099200,a,b,7\n"), "refused: tm.csv: too many steps at row 1", ["time stamp"]),
    ("1025 steps", tm(TM + "1024,a,b,7\n"), "refused: tm.csv: too many steps at row 1", ["0 to 1023"]),
]

NUMBERS = [
    ("decimals in a capacity", link("b,c,9953.28,1"), "refused: net.csv: number at row 2", ["third, capacity: 9953.28", "has decimals", "kbit/s"]),
    ("a half", link("b,c,0.5,1"), "refused: net.csv: number at row 2", ["has decimals"]),
    ("decimals of nothing", link("b,c,100.0,1"), "refused: net.csv: number at row 2", ["write 100"]),
    ("a unit", link("b,c,10G,1"), "refused: net.csv: number at row 2", ["has a unit"]),
    ("an exponent", link("b,c,1e4,1"), "refused: net.csv: number at row 2", ["exponent", "10000"]),
    ("a thousands mark", link('b,c,"10,000",1'), "refused: net.csv: number at row 2", ["thousands mark", "write 10000"]),
    ("bit/s", link("b,c,10000000000,1"), "refused: net.csv: number at row 2", ["too great", "bit/s", "in kbit/s it would be 10000000"]),
    ("a minus", link("b,c,-5,1"), "refused: net.csv: number at row 2", ["has a sign"]),
    ("a plus", link("b,c,+5,1"), "refused: net.csv: number at row 2", ["without the sign"]),
    ("a capacity of 0", link("b,c,0,1"), "refused: net.csv: number at row 2", ["capacity is 0", "failure file"]),
    ("a cost of 0", link("b,c,10,0"), "refused: net.csv: number at row 2", ["fourth, cost: 0", "from 1 to 65535"]),
    ("a cost of 100000", link("b,c,10,100000"), "refused: net.csv: number at row 2", ["too great", "divide all costs"]),
    ("a decimal cost", link("b,c,10,1.5"), "refused: net.csv: number at row 2", ["has decimals", "round costs"]),
    ("eleven digits", link("b,c,00000000010,1"), "refused: net.csv: number at row 2", ["leading zeros"]),
    ("decimals in a demand", demand("0,a,c,700.5"), "refused: tm.csv: number at row 2", ["fourth, demand: 700.5", "has decimals"]),
    ("an empty demand", demand("0,a,c,"), "refused: tm.csv: number at row 2", ["is empty", "write 0"]),
    ("NaN", demand("0,a,c,NaN"), "refused: tm.csv: number at row 2", ["no number", "leave the row out"]),
    ("a date as a step", tm(TM + "2004-03-01,a,b,7\n"), "refused: tm.csv: number at row 1", ["first, step: 2004-03-01", "date", "first is step 0"]),
]

FAILURES = [
    ("from and to as nodes", cut("a,b,0"), "refused: cuts.csv: number at row 1", ["from is a step here, and a is a node"]),
    ("a link by its ends", cut("0,1,a-b"), "refused: cuts.csv: number at row 1", ["no number", "may be link 0 or 1"]),
    ("links counted from 1", cut("0,1,4"), "refused: cuts.csv: no such link at row 1", ["counted from 1", "links 0 to 3"]),
    ("an outage past the end", cut("0,2,1"), "refused: cuts.csv: interval at row 1", ["steps 0 to 1"]),
    ("an outage that ends before it begins", cut("1,0,1"), "refused: cuts.csv: interval at row 1", ["is after to"]),
    ("another header", {"cuts.csv": "start,end,link\n0,1,1\n"}, "refused: cuts.csv: header", ["lacks from, to"]),
]

PLANS = [
    ("a trailing comma", plan('{"topology":"net.csv","matrices":"tm.csv",}'), "refused: plan.json: not json", ["line 1, column", "comma"]),
    ("a comment", plan('{"topology":"net.csv", // mine\n"matrices":"tm.csv"}'), "refused: plan.json: not json", ["JSON has no comments"]),
    ("a byte order mark", plan("\ufeff" + GOOD["plan.json"]), "refused: plan.json: not json", ["byte order mark"]),
    ("YAML", plan("topology: net.csv\nmatrices: tm.csv\n"), "refused: plan.json: not json", ["YAML"]),
    ("an empty plan", plan(""), "refused: plan.json: not json", ["is empty"]),
    ("single quotes", plan("{'topology':'net.csv','matrices':'tm.csv'}"), "refused: plan.json: not json", ["double quotes"]),
    ("UTF-16", plan(GOOD["plan.json"].encode("utf-16")), "refused: plan.json: not json", ["UTF-16"]),
    ("NaN", member('"seed":NaN'), "refused: plan.json: not json", ["NaN"]),
    ("a list", plan("[]"), "refused: plan.json: kind of plan", ["not an object"]),
    ("demands", member('"demands":"tm.csv"'), "refused: plan.json: unknown key", ['"demands"', "is it matrices?"]),
    ("scheme", member('"scheme":"spf"'), "refused: plan.json: unknown key", ["is it schemes?"]),
    ("a comment as a key", member('"_comment":"mine"'), "refused: plan.json: unknown key", ["no comments"]),
    ("a key with a capital", plan('{"Topology":"net.csv","matrices":"tm.csv"}'), "refused: plan.json: unknown key", ["is it topology?"]),
    ("no matrices", plan('{"topology":"net.csv"}'), "refused: plan.json: missing matrices", ["does not name its matrices"]),
    ("a scheme with capitals", member('"schemes":["SPF"]'), "refused: plan.json: scheme name of schemes", ["the name is spf"]),
    ("raecke", member('"schemes":["spf","raecke"]'), "refused: plan.json: scheme name of schemes", ["the name is racke"]),
    ("optimal", member('"schemes":["optimal"]'), "refused: plan.json: scheme name of schemes", ["the name is mcf"]),
    ("vlb", member('"schemes":["vlb"]'), "refused: plan.json: scheme name of schemes", ["the name is valiant"]),
    ("smore is published", member('"publish":"smore"'), "refused: plan.json: scheme name of publish", ["follows each matrix"]),
    ("schemes that are no list", member('"schemes":"spf"'), "refused: plan.json: kind of schemes", ["a list of 1 to 16"]),
    ("k of 64", member('"k":64'), "refused: plan.json: range of k", ["from 1 to 32"]),
    ("k in quotes", member('"k":"4"'), "refused: plan.json: kind of k", ["stands in quotes"]),
    ("a margin of 2", member('"margin":2'), "refused: plan.json: kind of margin", ["[2, 1]"]),
    ("a margin of one and a half", member('"margin":[1.5,1]'), "refused: plan.json: kind of margin", ["[3, 2]"]),
    ("a margin upside down", member('"margin":[1,2]'), "refused: plan.json: range of margin", ["the first no less than the second"]),
    ("an envelope of 1", member('"envelope":1'), "refused: plan.json: kind of envelope", ["true or false"]),
    ("an envelope beside a margin", member('"margin":[2,1],"envelope":true'), "refused: plan.json: range of envelope", ["not beside a margin"]),
    ("a seed below 0", member('"seed":-1'), "refused: plan.json: kind of seed", ["from 0"]),
    ("a seed of minus 0", member('"seed":-0'), "refused: plan.json: kind of seed", ["from 0"]),
    ("a seed past 64 bits", member('"seed":18446744073709551616'), "refused: plan.json: kind of seed", ["18446744073709551615", "too great for 64 bits"]),
    ("a recovery of its own", member('"recovery":"local"'), "refused: plan.json: range of recovery", ['"bypass"']),
    ("an empty file name", plan('{"topology":"","matrices":"tm.csv"}'), "refused: plan.json: range of topology", ["name of a file"]),
]

UNREAD = [
    ("a file is missing", {"tm.csv": None}, "fault: read", ["tm.csv, looked for as", "that folder has cuts.csv, net.csv, plan.json"]),
    ("a name is misspelt", member('"failures":"cust.csv"'), "fault: read", ["cust.csv, looked for as"]),
    ("a folder that is not there", plan('{"topology":"data/net.csv","matrices":"tm.csv"}'), "fault: read", ["there is no folder"]),
    ("a folder for a file", plan('{"topology":".","matrices":"tm.csv"}'), "fault: read", ["why:"]),
    ("a dash for standard input", plan('{"topology":"-","matrices":"tm.csv"}'), "fault: read", ["stands for no input"]),
    ("the plan is missing", {"plan.json": None}, "fault: read", ["plan.json, looked for as"]),
]

CASES = ACCEPTED + CSV_HEADERS + CSV_ROWS + NUMBERS + FAILURES + PLANS + UNREAD
