"""More mistakes that a user makes, as the table of `cases` has them."""
import io
import zipfile

from . import cases
from .cases import CUTS, FIBRES, GOOD, NET, TM, cut, demand, link, member, net, plan, tm
from .certificates import SMALLEST

HEADER_OF_NET = "refused: net.csv: header"
HEADER_OF_TM = "refused: tm.csv: header"
NOT_JSON = "refused: plan.json: not json"
NUMBER_OF_NET = "refused: net.csv: number at row 2"
NUMBER_OF_TM = "refused: tm.csv: number at row 2"
REPORT = "scheme,step,offered,delivered,lost_full,lost_failed,lost_no_path,peak,parts,low\nspf,0,1,1,0,0,0,1,1,-\n"


def archive(names):
    """A ZIP archive of empty files of these names, as a spreadsheet of today is one."""
    made = io.BytesIO()
    with zipfile.ZipFile(made, "w") as file:
        for name in names:
            # Without the time of day the same case is drawn again.
            file.writestr(zipfile.ZipInfo(name), "application/vnd.oasis.opendocument.spreadsheet" if name == "mimetype" else "")
    return made.getvalue()


XLSX = archive(["[Content_Types].xml", "xl/workbook.xml"])
ODS = archive(["mimetype", "content.xml"])

WHOLE_FILES = [
    ("a spreadsheet as topology", net(XLSX), HEADER_OF_NET, ["is a spreadsheet (.xlsx or .ods)", "CSV UTF-8"]),
    ("a spreadsheet of LibreOffice as matrices", tm(ODS), HEADER_OF_TM, ["is a spreadsheet (.xlsx or .ods)", "CSV UTF-8"]),
    ("an old spreadsheet", net(b"\xd0\xcf\x11\xe0\xa1\xb1\x1a\xe1" + b"\0" * 504), HEADER_OF_NET, ["old spreadsheet (.xls)"]),
    ("a ZIP archive", tm(archive(["tm.csv"])), HEADER_OF_TM, ["ZIP archive", "unzip"]),
    ("a file of bzip2", net(b"BZh91AY&SY"), HEADER_OF_NET, ["compressed", "bunzip2"]),
    ("a file of xz", net(b"\xfd7zXZ\x00\x00\x04"), HEADER_OF_NET, ["compressed", "unxz"]),
    ("a PDF", net(b"%PDF-1.4\n%\xe2\xe3\n"), HEADER_OF_NET, ["is a PDF"]),
    ("a page of the web", tm("<!DOCTYPE html>\n<html><body>404</body></html>\n"), HEADER_OF_TM, ["a page of the web", "download"]),
    ("GraphML", net('<?xml version="1.0"?>\n<graphml/>\n'), HEADER_OF_NET, ["XML, a format of another tool"]),
    ("GML", net("graph [\n  node [ id 0 ]\n]\n"), HEADER_OF_NET, ["a graph in a format of another tool"]),
    ("zero bytes alone", net(b"\0" * 600), HEADER_OF_NET, ["zero bytes alone", "copy it again"]),
    ("JSON as topology", net('{"nodes":["a","b"]}'), HEADER_OF_NET, ["this is JSON", "given as topology"]),
    ("the plan as topology", plan('{"topology":"plan.json","matrices":"tm.csv"}'), "refused: plan.json: header", ["this is JSON, as a plan is"]),
    ("topology and matrices exchanged", plan('{"topology":"tm.csv","matrices":"net.csv"}'), HEADER_OF_TM, ["this is a matrix file", "given as topology", "exchanged?"]),
    ("matrices and failures exchanged", plan('{"topology":"net.csv","matrices":"cuts.csv","failures":"tm.csv"}'), "refused: cuts.csv: header", ["this is a failure file", "exchanged?"]),
    ("a report as matrices", tm(REPORT), HEADER_OF_TM, ["this is a report, which run writes"]),
    ("a certificate as topology", net(SMALLEST), HEADER_OF_NET, ["this is a certificate"]),
    ("a list of fibres as failures", {"cuts.csv": "fibre,source,target,links\n0,a,b,0 1\n"}, "refused: cuts.csv: header", ["a list of tools/fibre_cuts"]),
    ("a table of links as matrices", tm("step,link,source,target,capacity,load,parts\n0,0,a,b,10,7,700000\n"), HEADER_OF_TM, ["a table of tools/links"]),
    ("an answer as topology", net("yes ratio 1000000 set all\n"), HEADER_OF_NET, ["the answer of check"]),
    ("two byte order marks", net("\ufeff\ufeff" + NET + FIBRES), HEADER_OF_NET, ["two byte order marks"]),
    ("blanks alone", net("   \n"), HEADER_OF_NET, ["blanks alone"]),
]

HEADERS = [
    ("no header in a matrix file", tm("0,a,b,7\n0,a,c,3\n"), HEADER_OF_TM, ["the header is missing", "sed '1i step,source,target,demand'"]),
    ("no header in a failure file", {"cuts.csv": "1,1,0\n"}, "refused: cuts.csv: header", ["the header is missing"]),
    ("a wide matrix", tm("node,a,b,c\na,0,7,3\nb,0,0,0\nc,0,0,0\n"), HEADER_OF_TM, ["nodes as columns (a, b, ..)", "a row for each demand", "awk"]),
    ("a wide matrix of each step", tm("step,a>b,a>c\n0,7,3\n"), HEADER_OF_TM, ["pairs of nodes as columns (a>b, ..)"]),
    ("a wide topology", net(",a,b\na,0,100\nb,100,0\n"), HEADER_OF_NET, ["nodes as columns (a, b, ..)", "a row for each link"]),
    ("a matrix without names", tm("0 7 3\n0 0 0\n9 0 0\n"), HEADER_OF_TM, ["numbers without names"]),
    ("the index of pandas", net(",source,target,capacity,cost\n0,a,b,100,1\n"), HEADER_OF_NET, ["begins with a comma", "index=False"]),
    ("sep= of a spreadsheet", net("sep=,\n" + NET + FIBRES), HEADER_OF_NET, ["tells a spreadsheet"]),
    ("upright strokes", net((NET + FIBRES).replace(",", "|")), HEADER_OF_NET, ["upright strokes"]),
    ("blanks between fields", net((NET + FIBRES).replace(",", " ")), HEADER_OF_NET, ["stand apart by blanks"]),
    ("a letter that only looks alike in the header", net("s\u043eurce,target,capacity,cost\n" + FIBRES), HEADER_OF_NET, ["not what they look like", "CYRILLIC SMALL LETTER O"]),
    ("a character that is not seen in the header", net("source\u200b,target,capacity,cost\n" + FIBRES), HEADER_OF_NET, ["ZERO WIDTH SPACE, which is not seen"]),
    ("names of columns of another tool", net("src,dst,bw,weight\na,b,100,1\n"), HEADER_OF_NET, ["lacks source, target, capacity, cost", "has src, dst, bw, weight"]),
    ("no header and no costs", net("a,b,100\nb,a,100\n"), HEADER_OF_NET, ["lacks source, target, capacity, cost and has a, b, 100"]),
    ("a column twice", net("source,target,cost,cost\na,b,1,1\n"), HEADER_OF_NET, ["lacks capacity", "has cost twice"]),
    ("a quote that is not closed in the header", net('"source,target,capacity,cost\na,b,100,1\n'), HEADER_OF_NET, ["quote of the first line is not closed"]),
]

ROWS = [
    ("the header twice in a topology", net(NET + FIBRES + NET + FIBRES), "refused: net.csv: number at row 5", ["header once more", "delete the line"]),
    ("the header twice in a matrix file", tm(TM + "0,a,b,7\n" + TM + "1,a,b,7\n"), "refused: tm.csv: unknown node at row 2", ["header once more"]),
    ("the header twice in a failure file", {"cuts.csv": CUTS + CUTS + "1,1,0\n"}, "refused: cuts.csv: number at row 1", ["header once more"]),
    ("a row of blanks", net(NET + "a,b,100,1\n   \n" + FIBRES), "refused: net.csv: fields at row 2", ["blanks alone"]),
    ("the mark of DOS at the end", net(NET + FIBRES + "\x1a"), "refused: net.csv: fields at row 5", ["bytes that a program left behind", "bytes: 1a"]),
    ("a file that was cut", net(NET + FIBRES + "c,a,10"), "refused: net.csv: fields at row 5", ["ends in this row", "may have been cut"]),
    ("semicolons in a row", link("b;a;100;1"), "refused: net.csv: fields at row 2", ["semicolons"]),
    ("tabs in a row", link("b\ta\t100\t1"), "refused: net.csv: fields at row 2", ["tabs"]),
    ("blanks in place of commas in a row", link("b a 100 1"), "refused: net.csv: fields at row 2", ["stand apart by blanks"]),
    ("a comment behind a row", link("b,a,100,1,# spare"), "refused: net.csv: fields at row 2", ["a comment stands behind the row"]),
    ("Latin-1", net((NET + "a,Zürich,100,1\n").encode("latin-1")), "refused: net.csv: name at row 1", ["no UTF-8", "Latin-1", "bytes: 5a fc"]),
    ("a Cyrillic letter in the topology", link("\u0430,c,100,1"), "refused: net.csv: name at row 2", ["CYRILLIC SMALL LETTER A", "looks like a", "type it anew"]),
    ("a Cyrillic letter in a matrix file", demand("0,\u0430,c,1"), "refused: tm.csv: unknown node at row 2", ["CYRILLIC SMALL LETTER A", "type it anew: a"]),
    ("a character that is not seen in a name", demand("0,a,c\u200b,1"), "refused: tm.csv: unknown node at row 2", ["ZERO WIDTH SPACE", "type it anew: c"]),
    ("a dash of typesetters in a name", link("a\u20131,b,100,1"), "refused: net.csv: name at row 2", ["EN DASH", "a-1"]),
    ("a path of nodes as a name", link("a>b,c,100,1"), "refused: net.csv: name at row 2", [">", "a-b"]),
    ("nodes by number", tm(TM + "0,0,1,7\n"), "refused: tm.csv: unknown node at row 1", ["by their names here, not by numbers"]),
    ("a blank behind a node", demand("0,a ,c,1"), "refused: tm.csv: unknown node at row 2", ["the topology has a"]),
    ("a sum at the end", tm(TM + "0,a,b,7\n0,total,total,7\n"), "refused: tm.csv: unknown node at row 2", ["total is no node"]),
    ("a day as a step", tm(TM + "20040301,a,b,7\n"), "refused: tm.csv: too many steps at row 1", ["looks like a date"]),
    ("a year as a step", tm(TM + "2024,a,b,7\n"), "refused: tm.csv: too many steps at row 1", ["looks like a date"]),
]

NUMBERS = [
    ("a blank before a capacity", link("b,c, 100,1"), NUMBER_OF_NET, ["begins with a blank", "write 100"]),
    ("a blank behind a cost", link("b,c,100,1 "), NUMBER_OF_NET, ["ends with a blank", "write 1,"]),
    ("a blank before a demand", demand("0,a,c, 3"), NUMBER_OF_TM, ["begins with a blank", "write 3,"]),
    ("a blank before a step", tm(TM + " 0,a,b,7\n"), "refused: tm.csv: number at row 1", ["begins with a blank", "write 0,"]),
    ("a blank before a link", cut("0,1, 1"), "refused: cuts.csv: number at row 1", ["begins with a blank", "write 1,"]),
    ("a blank that does not break behind a demand", demand("0,a,c,3\u00a0"), NUMBER_OF_TM, ["NO-BREAK SPACE", "write 3,"]),
    ("a two that stands high", link("b,c,10\u00b2,1"), NUMBER_OF_NET, ["SUPERSCRIPT TWO", "is no digit"]),
    ("a two that stands high alone", link("b,c,\u00b2,1"), NUMBER_OF_NET, ["SUPERSCRIPT TWO", "is no digit"]),
    ("a two that stands high as a link", cut("0,1,\u00b2"), "refused: cuts.csv: number at row 1", ["no number"]),
    ("5000 digits", link("b,c," + "9" * 5000 + ",1"), NUMBER_OF_NET, ["(5000 characters)", "is too great"]),
    ("5000 digits of a demand", demand("0,a,c," + "1" * 5000), NUMBER_OF_TM, ["is too great", "without a comma between them"]),
    ("5000 digits of a step", tm(TM + "1" * 5000 + ",a,b,7\n"), "refused: tm.csv: number at row 1", ["time stamp"]),
    ("5000 zeros and a digit", link("b,c," + "0" * 5000 + "7,1"), NUMBER_OF_NET, ["leave leading zeros out"]),
    ("5000 digits of a link", cut("0,1," + "1" * 5000), "refused: cuts.csv: number at row 1", ["is too great"]),
    ("digits of another script", link("b,c,\uff11\uff10,1"), NUMBER_OF_NET, ["only look like its digits", "write 10"]),
    ("the letter O for 0", link("b,c,1O0,1"), NUMBER_OF_NET, ["letters that look like 0 or 1", "write 100"]),
    ("a point that may mark thousands", link("b,c,10.000,1"), NUMBER_OF_NET, ["10000, or 10", "write 10000", "write 10"]),
    ("a point that may mark thousands before others than zeros", demand("0,a,c,9.953"), NUMBER_OF_TM, ["9953, or 9 and 953 thousandths", "choose one unit"]),
    ("points that mark thousands", link("b,c,1.234.567,1"), NUMBER_OF_NET, ["thousands mark", "write 1234567"]),
    ("a comma that may mark thousands", link('b,c,"2,500",1'), NUMBER_OF_NET, ["2500, or 2 and 500 thousandths"]),
    ("a thousands mark and decimals", link('b,c,"1.234,5",1'), NUMBER_OF_NET, ["a thousands mark and decimals"]),
    ("a blank as thousands mark", link("b,c,10 000,1"), NUMBER_OF_NET, ["thousands mark", "write 10000"]),
    ("an exponent past all numbers", link("b,c,12e400,1"), NUMBER_OF_NET, ["exponent, and too great"]),
    ("an exponent that is out of range", link("b,c,1e12,1"), NUMBER_OF_NET, ["is 1000000000000, which is out of range"]),
    ("an exponent with decimals", demand("0,a,c,1.25e1"), NUMBER_OF_TM, ["exponent, and has decimals"]),
    ("an exponent that a spreadsheet wrote", demand("0,a,c,1.5E+05"), NUMBER_OF_TM, ["write it out: 150000"]),
    ("a number to the base 16", link("b,c,0x64,1"), NUMBER_OF_NET, ["base 16"]),
    ("a fault of a formula", demand("0,a,c,#DIV/0!"), NUMBER_OF_TM, ["fault of a spreadsheet's formula"]),
    ("a column that is too narrow", demand("0,a,c,#####"), NUMBER_OF_TM, ["too narrow"]),
    ("a formula", demand("0,a,c,=A1*2"), NUMBER_OF_TM, ["is a formula"]),
    ("a node in a number's place", demand("0,a,c,b"), NUMBER_OF_TM, ["is a node", "order of the header"]),
    ("two numbers", link("b,c,100/200,1"), NUMBER_OF_NET, ["has two numbers"]),
    ("typographic quotes", link("b,c,\u201c100\u201d,1"), NUMBER_OF_NET, ["quotes that belong to the field"]),
    ("a demand below 0 as accountants write it", demand("0,a,c,(5)"), NUMBER_OF_TM, ["no amounts below 0"]),
    ("bit/s that is no whole kbit/s", link("b,c,10000000500,1"), NUMBER_OF_NET, ["in kbit/s it would be 10000000.5"]),
    ("Tbit/s in bit/s that is no whole Mbit/s", link("b,c,8000000000500,1"), NUMBER_OF_NET, ["in Mbit/s it would be 8000000.0005"]),
    ("bit/s of 20 digits", link("b,c,10000000000000000000,1"), NUMBER_OF_NET, ["in Tbit/s it would be 10000000"]),
    ("Tbit/s in bit/s", link("b,c,8000000000000,1"), NUMBER_OF_NET, ["in Mbit/s it would be 8000000"]),
    ("a time of milliseconds as a step", tm(TM + "1078099200000,a,b,7\n"), "refused: tm.csv: number at row 1", ["time stamp"]),
    ("a time of the day as a step", tm(TM + "12:00,a,b,7\n"), "refused: tm.csv: number at row 1", ["date or a time"]),
    ("an outage without an end", cut("1,,0"), "refused: cuts.csv: number at row 1", ["to is empty", "the last step in to"]),
    ("a date in a failure file", cut("2004-03-01,2004-03-02,0"), "refused: cuts.csv: number at row 1", ["a date or a time"]),
    ("a link by its ends that is none", cut("0,1,a>c"), "refused: cuts.csv: number at row 1", ["no number", "tools/fibre_cuts NET"]),
]

PLANS = [
    ("a topology as plan", plan(NET + FIBRES), NOT_JSON, ["this is a topology, and no plan"]),
    ("matrices as plan", plan(TM + "0,a,b,7\n"), NOT_JSON, ["this is a matrix file, and no plan"]),
    ("failures as plan", plan(CUTS + "1,1,0\n"), NOT_JSON, ["this is a failure file, and no plan"]),
    ("a report as plan", plan(REPORT), NOT_JSON, ["this is a report"]),
    ("a spreadsheet as plan", plan(XLSX), NOT_JSON, ["is a spreadsheet"]),
    ("TOML", plan('topology = "net.csv"\nmatrices = "tm.csv"\n'), NOT_JSON, ["TOML"]),
    ("no comma between members", plan('{"topology":"net.csv"\n"matrices":"tm.csv"}'), NOT_JSON, ["line 2, column 1: a comma"]),
    ("an equals sign for a colon", plan('{"topology"="net.csv"}'), NOT_JSON, ["a colon is missing"]),
    ("a bracket is missing", plan('{"topology":"net.csv","matrices":"tm.csv"'), NOT_JSON, ["ends before the value does"]),
    ("a quote is missing", plan('{"topology":"net.csv,"matrices":"tm.csv"}'), NOT_JSON, ["comma or a closing bracket is missing"]),
    ("a quote is missing at the end", plan('{"topology":"net.csv","matrices":"tm.csv}'), NOT_JSON, ["quote is not closed"]),
    ("a text over two lines", plan('{"topology":"net\n.csv"}'), NOT_JSON, ["not closed on its line"]),
    ("a backslash", plan('{"topology":"C:\\nets\\tm\\year.csv","matrices":"tm.csv"}'), NOT_JSON, ["a backslash stands in a text"]),
    ("a key without quotes", plan('{topology:"net.csv","matrices":"tm.csv"}'), NOT_JSON, ["a key must stand here, in double quotes"]),
    ("a value without quotes", plan('{"topology":net.csv,"matrices":"tm.csv"}'), NOT_JSON, ["a value must stand here, and net.csv is none"]),
    ("True", member('"envelope":True'), NOT_JSON, ["in small letters", "write true"]),
    ("None", member('"margin":None'), NOT_JSON, ["in small letters", "write null"]),
    ("a zero before a number", member('"k":04'), NOT_JSON, ["no sign + before a number"]),
    ("a number with a plus", member('"k":+4'), NOT_JSON, ["no sign + before a number"]),
    ("two plans in a file", plan(GOOD["plan.json"] + GOOD["plan.json"]), NOT_JSON, ["behind the end of the value"]),
    ("typographic quotes in a plan", plan("{\u201ctopology\u201d:\u201cnet.csv\u201d}"), NOT_JSON, ["typographic quotes"]),
    ("half of a surrogate pair", plan('{"topology":"\\ud800","matrices":"tm.csv"}'), NOT_JSON, ["half of a surrogate pair"]),
    ("a number of 400 digits", member('"seed":' + "9" * 400), NOT_JSON, ["too great for a number"]),
    ("brackets within brackets", plan("[" * 200 + "]" * 200), NOT_JSON, ["nest"]),
    ("a text as plan", plan('"net.csv"'), "refused: plan.json: kind of plan", ["a text, not an object"]),
    ("true in quotes", member('"envelope":"true"'), "refused: plan.json: kind of envelope", ['"true", stands in quotes']),
    ("null", member('"failures":null'), "refused: plan.json: kind of failures", ["null, is JSON's word for nothing", "leave the key out"]),
    ("null as predictions", member('"predictions":null'), "refused: plan.json: kind of predictions", ["null, is JSON's word for nothing", "leave the key out"]),
    ("failures as predictions", member('"predictions":"cuts.csv"'), "refused: cuts.csv: header", ["this is a failure file"]),
    ("predictions of a misspelt name", member('"predictions":"tmm.csv"'), "fault: read", ["tmm.csv, looked for as"]),
    ("a truth value as margin", member('"margin":true'), "refused: plan.json: kind of margin", ["the value of margin, true, is a truth value"]),
    ("a number with a fraction", member('"k":4.0'), "refused: plan.json: kind of k", ["4.0, has a fraction"]),
    ("a number with an exponent", member('"seed":1e3'), "refused: plan.json: kind of seed", ["1e3, is written with an exponent"]),
    ("two files in a list", plan('{"topology":["net.csv"],"matrices":"tm.csv"}'), "refused: plan.json: kind of topology", ['["net.csv"], is a list']),
    ("schemes of all", member('"schemes":["all"]'), "refused: plan.json: scheme name of schemes", ["leave the key out for the six"]),
    ("no scheme", member('"schemes":[]'), "refused: plan.json: range of schemes", ["is an empty list"]),
    ("a scheme with a letter that only looks alike", member('"schemes":["sp\u0192","r\u0430cke"]'), "refused: plan.json: scheme name of schemes", ["is no scheme"]),
    ("racke with a Cyrillic letter", member('"publish":"r\u0430cke"'), "refused: plan.json: scheme name of publish", ["the name is racke", "CYRILLIC"]),
    ("a scheme is misspelt", member('"schemes":["smoore"]'), "refused: plan.json: scheme name of schemes", ["is it smore?"]),
    ("a key with a letter that only looks alike", member('"see\u0501":1'), "refused: plan.json: unknown key", ["CYRILLIC", "is it seed?"]),
    ("a recovery with a capital", member('"recovery":"Scale"'), "refused: plan.json: range of recovery", ["the name is scale"]),
    ("a margin as a text", member('"margin":"2/1"'), "refused: plan.json: kind of margin", ['"2/1", is a text', "[2, 1]"]),
    ("trees of 32", member('"trees":32'), "refused: plan.json: range of trees", ["from 1 to 16"]),
]

UNREAD = [
    ("capitals in the name of a file", plan('{"topology":"Net.csv","matrices":"tm.csv"}'), "fault: read", ["that folder has net.csv", "capitals"]),
    ("a Cyrillic letter in the name of a file", plan('{"topology":"n\u0435t.csv","matrices":"tm.csv"}'), "fault: read", ["that folder has net.csv", "CYRILLIC SMALL LETTER IE"]),
    ("the name of a file is misspelt", plan('{"topology":"nte.csv","matrices":"tm.csv"}'), "fault: read", ["is it net.csv?"]),
    ("a tilde", plan('{"topology":"~/net.csv","matrices":"tm.csv"}'), "fault: read", ["~ and $ mean nothing here"]),
    ("an address", plan('{"topology":"https://example.org/net.csv","matrices":"tm.csv"}'), "fault: read", ["this is an address"]),
    ("a star", plan('{"topology":"net.csv","matrices":"tm*.csv"}'), "fault: read", ["stand for no files"]),
    ("backslashes between folders", plan('{"topology":".\\\\net.csv","matrices":"tm.csv"}'), "fault: read", ["by / here: ./net.csv"]),
    ("a zero character in a name", plan('{"topology":"net.csv\\u0000","matrices":"tm.csv"}'), "fault: read", ["zero character"]),
]

CASES = cases.CASES + WHOLE_FILES + HEADERS + ROWS + NUMBERS + PLANS + UNREAD
