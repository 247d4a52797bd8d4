"""The rows of docs/ANSWERS.md, and what is wrong with them by the sources."""
import collections
import os
import re

from .public_calls import OF_MEMORY, OF_STATUS, functions_of, read

DOCUMENT = os.path.join("docs", "ANSWERS.md")
# A row: where it stands, its crate, and the names and texts of its cells.
Row = collections.namedtuple("Row", "place crate calls answers clauses when stays shown")
# A call and an answer of it for which something is not there yet.
Open = collections.namedtuple("Open", "place crate calls answers")
# The calls that no memory is taken for.
Taking = collections.namedtuple("Taking", "place crate calls")

FREE, NEVER, NOTHING, WITHOUT_MEMORY = "free", "never", "-", "6"
# What the system's own files and streams answer, no clause says.
OF_SYSTEM = ("Disk::read_once", "SystemDisk::read_once", "OpenFile::read_at", "Stream::write_once", "SystemStream::write_once")
# It takes memory, and has no answer of its own for the want of it.
TAKES_MEMORY = ("RecordDepot::fetch",)
NAME = re.compile(r"`([^`]+)`")
TEST = re.compile(r"#\[test\]\s+fn (\w+)")


def names_in(cell):
    return NAME.findall(cell)


class Document:
    """The tables of the document: rows of answers, what is open, and the calls that take no memory."""

    def __init__(self, text):
        self.rows, self.open, self.taking, self.faults = [], [], [], []
        section = crate = ""
        for number, line in enumerate(text.split("\n"), 1):
            if line.startswith("## "):
                section, crate = line[3:], ""
            elif line.startswith("### "):
                crate = line[4:].strip("`")
            elif line.startswith("| `"):
                self.add(section, f"line {number}", crate, [it.strip() for it in line.strip("|").split(" | ")])

    def add(self, section, place, crate, cells):
        if section == "Answers" and len(cells) == 6:
            calls, answers, clauses, when, stays, shown = cells
            clauses = FREE if clauses == FREE else names_in(clauses)
            self.rows.append(Row(place, crate, names_in(calls), names_in(answers), clauses, when, stays, names_in(shown)))
        elif section == "Open" and len(cells) == 4:
            self.open.append(Open(place, cells[0].strip("`"), names_in(cells[1]), names_in(cells[2])))
        elif section == "Calls that take no memory" and len(cells) == 2:
            self.taking.append(Taking(place, cells[0].strip("`"), names_in(cells[1])))
        elif section in ("Answers", "Open", "Calls that take no memory"):
            self.faults.append(f"{place}: a row of {len(cells)} cells")


class Proofs:
    """What may show an answer: a test or a law of a crate, a table or function of a Python file, or a tool."""

    def __init__(self, top):
        self.top, self.of = top, {}

    def names_of(self, place):
        """The names that stand in a crate or in a Python file; None where neither is there."""
        if place not in self.of:
            folder, file = (os.path.join(self.top, *it) for it in (("crates", place, "src"), (place,)))
            self.of[place] = self.of_crate(folder) if os.path.isdir(folder) else self.of_file(file)
        return self.of[place]

    @staticmethod
    def of_crate(folder):
        found = set()
        for where, _, files in os.walk(folder):
            for file in (it for it in files if it.endswith(".rt")):
                text = read(where, file)
                found |= set(TEST.findall(text)) | {it.name for it in functions_of(file, text) if it.is_law and it.is_public}
        return found

    @staticmethod
    def of_file(file):
        return set(re.findall(r"^(?:def )?(\w+)(?: = |\()", read(file), re.M)) if os.path.isfile(file) else None

    def has(self, shown):
        place, _, name = shown.partition(": ")
        names = self.names_of(place)
        return names is not None and (name in names if name else os.path.isfile(os.path.join(self.top, place)))


class Judge:
    """The document held against the calls of the sources."""

    def __init__(self, top, calls):
        self.calls, self.proofs = calls, Proofs(top)
        self.document = Document(read(top, DOCUMENT))
        self.faults = list(self.document.faults)
        self.told = collections.Counter()

    def all_faults(self):
        for row in self.document.rows:
            self.faults += self.faults_of_names(row) or self.faults_of_row(row)
        for row in self.document.open:
            self.faults += self.faults_of_names(row)
        self.faults += [f"{crate}: {name} answers {answer}, which no row says" for crate, name, answer in self.answers() if not self.told[crate, name, answer]]
        self.faults += [f"{crate}: {name} answers {answer}, which {count} rows say" for (crate, name, answer), count in self.told.items() if count > 1]
        return self.faults + self.faults_of_memory()

    def answers(self):
        return [(it.crate, it.name, answer) for it in self.calls.values() for answer in it.answers]

    def faults_of_names(self, row):
        """The calls and answers of a row that are not there; of the others it is noted that a row has them."""
        faults = [] if row.calls and row.answers else [f"{row.place}: no call, or no answer"]
        for name in row.calls:
            call = self.calls.get((row.crate, name))
            if not call:
                faults.append(f"{row.place}: {row.crate} has no public call {name}")
                continue
            for answer in row.answers:
                self.told[row.crate, name, answer] += answer in call.answers
            faults += [f"{row.place}: {name} does not answer {it}" for it in row.answers if it not in call.answers]
        return faults

    def faults_of_row(self, row):
        faults = [] if row.shown else [f"{row.place}: nothing shows it"]
        faults += [f"{row.place}: there is no {it}" for it in row.shown if not self.proofs.has(it)]
        for call in (self.calls[row.crate, it] for it in row.calls):
            faults += self.faults_of_cause(row, call)
            cited = (row.clauses if row.clauses != FREE else []) + names_in(row.stays)
            faults += [f"{row.place}: {call.name} has no clause {it}" for it in cited if it not in call.clauses]
            if row.stays == NOTHING and "&mut" in call.takes:
                faults.append(f"{row.place}: {call.name} may change what it is lent, of which nothing is said")
        return faults

    def faults_of_cause(self, row, call):
        """Where no clause is named: whether the answer may come at will."""
        if row.clauses == FREE:
            bound = [it for it in row.answers if not is_of_memory(call, it) and call.name not in OF_SYSTEM]
            return [f"{row.place}: {call.name} answers {it} at will" for it in bound]
        return [] if row.clauses else [f"{row.place}: no clause is named"]

    def faults_of_memory(self):
        """The calls that cannot answer that memory is short, but for those of traits and what is open, are those of the table."""
        faults, listed = [], {(it.crate, name) for it in self.document.taking for name in it.calls}
        never = {(it.crate, name, answer) for it in self.document.rows if it.when == NEVER for name in it.calls for answer in it.answers}
        is_open = {(it.crate, name) for it in self.document.open for name in it.calls}
        for row in self.document.taking:
            for name in row.calls:
                call = self.calls.get((row.crate, name))
                if not call:
                    faults.append(f"{row.place}: {row.crate} has no public call {name}")
                elif self.can_want_memory(call, never):
                    faults.append(f"{row.place}: {name} can answer that memory is short")
        for key, call in self.calls.items():
            takes = call.name in TAKES_MEMORY or self.can_want_memory(call, never)
            if key not in listed | is_open and not call.is_of_trait and not takes:
                faults.append(f"{call.crate}: {call.name} is not among the calls that take no memory")
        return faults

    @staticmethod
    def can_want_memory(call, never):
        return any(is_of_memory(call, it) and (call.crate, call.name, it) not in never for it in call.answers)


def is_of_memory(call, answer):
    return answer in OF_MEMORY or call.name in OF_STATUS and answer == WITHOUT_MEMORY
