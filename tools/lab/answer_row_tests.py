"""The cases of `answers`: a small repository whose rows are right, and each change of it that is told."""
import os
import tempfile

from .folders import write_files
from .program import TOP

PORT = """//! A port. fn not_here() -> Option<u8> {}
use crate::kinds::Kind;

/// Why nothing is taken.
pub enum Fault {
    /// Nothing is left.
    Short,
    Memory,
}

pub enum Verdict {
    Yes,
    No { place: u64 },
}

/// What gives bytes.
pub trait Port {
    ghost left: { Self → List ℕ };

    /// Takes one.
    fn take(&mut self, most: u8) -> Result<u8, Fault>
        requires { 1 ≤ most }
        ensures kept { OnErr result (left self.new ≡ left self.old) }
        ensures short { IsErrOf result Fault.Short ↔ (left self.old ≡ []) };
}

/// Bytes in a list.
pub struct Bytes<'a> {
    bytes: &'a [u8],
}

impl<'a> Bytes<'a> {
    /// These bytes.
    pub fn new<F: Fn(u8) -> bool>(bytes: &'a [u8], _test: F) -> Bytes<'a> {
        Bytes { bytes }
    }

    fn first(&self) -> Option<u8> {
        None
    }
}

impl<'a> Port for Bytes<'a> {
    fn take(&mut self, _most: u8) -> Result<u8, Fault>
        ensures never { IsErr result → ⊥ }
    {
        Ok(1)
    }
}

impl From<Kind> for Fault {
    fn from(_: Kind) -> Fault {
        Fault::Memory
    }
}

/// The first kind.
pub fn kind_of(
    bytes: &[u8],
) -> Option<Kind>
    // Where there are no bytes.
    ensures { (result ≡ None)
        ↔ (bytes.now ≡ []) }
{
    None
}

pub(crate) fn hidden() -> Option<u8> {
    None
}

/// Not named by the library.
pub fn unnamed() -> Option<u8> {
    None
}

/// A law.
pub fn kinds_are_one(_kind: &Kind)
    ensures { ⊤ }
{}
"""
KINDS = """//! Kinds.
pub struct Kind;

/// A copy.
pub fn copy(alloc: Global, kind: &Kind) -> Result<Option<Kind>, AllocError>
    where
        Kind: Copy,
    ensures same { IfOk result (λ k. k ≡ Some kind.now) }
    ensures some { IfOk result IsSome }
{
    Ok(None)
}
"""
LAWS_OF_LOW = """//! Laws.
/// A law.
pub fn nothing_is_lost()
    ensures { ⊤ }
{}
"""
TESTS = """//! Tests.
#[test]
fn bytes_are_taken(rt: HostRuntime) {}

fn helper() {}
"""
ANSWERS = """# Answers

## Answers

### `low`

| Call | Answer | Clauses | When | What stays | Shown by |
|---|---|---|---|---|---|
| `Port::take` | `Short` | `short` | exactly where nothing is left | the bytes (`kept`) | `low_tests: bytes_are_taken` |
| `Port::take` | `Memory` | free | memory was short | the bytes (`kept`) | `tools/tool` |
| `Bytes::take` | `Short`, `Memory` | `never` | never | the bytes (`kept`) | `tools/table.py: ROWS`, `tools/table.py: rows` |
| `kind_of` | `None` | `ensures` | exactly where there is no byte | - | `low: kinds_are_one` |
| `copy` | `AllocError` | free | memory was short | - | `tools/tool` |

## Calls that take no memory

| Crate | Calls |
|---|---|
| `low` | `Bytes::new`, `Bytes::take`, `kind_of` |

## Open

| Crate | Call | Answer | What lacks |
|---|---|---|---|
| `low` | `copy` | `None` | a clause that it never comes |
"""
FILES = {
    "crates.txt": "low:\nlow_tests: low\nyates: low\n",
    "crates/low/src/lib.rt": "//! Low.\nmod port;\npub mod kinds;\npub mod laws;\n\npub use port::{\n    Bytes, Fault, Port, kind_of, kinds_are_one,\n};\npub use kinds::Kind as Sort;\n",
    "crates/low/src/port.rt": PORT,
    "crates/low/src/kinds.rt": KINDS,
    "crates/low/src/laws.rt": LAWS_OF_LOW,
    "crates/low_tests/src/lib.rt": TESTS,
    "crates/yates/src/main.rt": "pub fn main() -> Option<u8> {\n    None\n}\n",
    "tools/tool": "",
    "tools/table.py": 'ROWS = []\n\n\ndef rows():\n    """None."""\n',
    "docs/ANSWERS.md": ANSWERS,
}
LISTED = """low copy
    answers: None, AllocError
    clauses: same, some
low Port::take
    answers: Short, Memory
    clauses: kept, short
low Bytes::new
    answers: -
    clauses: -
low Bytes::take
    answers: Short, Memory
    clauses: never, kept, short
low kind_of
    answers: None
    clauses: ensures
"""
ROW_OF_KIND = "| `kind_of` | `None` | `ensures` | exactly where there is no byte | - | `low: kinds_are_one` |\n"
DOCUMENT, SOURCE, LAWS = "docs/ANSWERS.md", "crates/low/src/port.rt", "crates/low/src/laws.rt"

# What is changed, the file, a piece of it, what stands in its place, and what is told.
CHANGES = [
    ("nothing", DOCUMENT, ROW_OF_KIND, ROW_OF_KIND, []),
    ("a row is missing", DOCUMENT, ROW_OF_KIND, "", ["low: kind_of answers None, which no row says"]),
    ("a row stands twice", DOCUMENT, ROW_OF_KIND, ROW_OF_KIND * 2, ["low: kind_of answers None, which 2 rows say"]),
    (
        "what is open stands in a row too", DOCUMENT, ROW_OF_KIND, ROW_OF_KIND + "| `copy` | `None` | `some` | never | - | `tools/tool` |\n",
        ["low: copy answers None, which 2 rows say"],
    ),
    ("no such call", DOCUMENT, "| `kind_of` | `None` | `ensures`", "| `kind_of`, `unnamed` | `None` | `ensures`", ["line 12: low has no public call unnamed"]),
    ("a private call", DOCUMENT, "| `kind_of` | `None` | `ensures`", "| `kind_of`, `Bytes::first` | `None` | `ensures`", ["line 12: low has no public call Bytes::first"]),
    ("no such call is open", DOCUMENT, "| `low` | `copy` | `None`", "| `low` | `copy`, `hidden` | `None`", ["line 25: low has no public call hidden"]),
    ("no such crate is open", DOCUMENT, "| `low` | `copy` | `None`", "| `high` | `copy` | `None`", ["line 25: high has no public call copy", "low: copy answers None, which no row says"]),
    ("no such answer", DOCUMENT, "| `copy` | `AllocError` |", "| `copy` | `AllocError`, `Memory` |", ["line 13: copy does not answer Memory"]),
    ("no such answer is open", DOCUMENT, "| `copy` | `None` | a", "| `copy` | `None`, `Short` | a", ["line 25: copy does not answer Short"]),
    ("a row without a call", DOCUMENT, "| `kind_of` | `None` | `ensures`", "| `` | `None` | `ensures`", ["line 12: no call, or no answer", "low: kind_of answers None, which no row says"]),
    ("no such clause", DOCUMENT, "`None` | `ensures`", "`None` | `ensures`, `none`", ["line 12: kind_of has no clause none"]),
    ("a clause of another call", DOCUMENT, "`Short` | `short`", "`Short` | `never`", ["line 9: Port::take has no clause never"]),
    ("no such clause of what stays", DOCUMENT, "left | the bytes (`kept`)", "left | the bytes (`keeps`)", ["line 9: Port::take has no clause keeps"]),
    ("no clause", DOCUMENT, "`None` | `ensures`", "`None` | -", ["line 12: no clause is named"]),
    ("an answer at will", DOCUMENT, "`None` | `ensures`", "`None` | free", ["line 12: kind_of answers None at will"]),
    ("nothing of what is lent to be changed", DOCUMENT, "left | the bytes (`kept`)", "left | -", ["line 9: Port::take may change what it is lent, of which nothing is said"]),
    ("nothing shows it", DOCUMENT, "| `low: kinds_are_one` |", "| - |", ["line 12: nothing shows it"]),
    ("no such law", DOCUMENT, "low: kinds_are_one", "low: kinds", ["line 12: there is no low: kinds"]),
    ("no such test", DOCUMENT, "low_tests: bytes_are_taken", "low_tests: helper", ["line 9: there is no low_tests: helper"]),
    ("no such table", DOCUMENT, "tools/table.py: ROWS", "tools/table.py: NONE", ["line 11: there is no tools/table.py: NONE"]),
    ("no such tool", DOCUMENT, "`kept`) | `tools/tool`", "`kept`) | `tools/none`", ["line 10: there is no tools/none"]),
    ("a table of no file", DOCUMENT, "tools/table.py: ROWS", "tools/none.py: ROWS", ["line 11: there is no tools/none.py: ROWS"]),
    ("a row of five cells", DOCUMENT, "byte | - | `low", "byte | `low", ["line 12: a row of 5 cells", "low: kind_of answers None, which no row says"]),
    ("memory is taken", DOCUMENT, "`Bytes::new`, ", "`Bytes::new`, `copy`, ", ["line 19: copy can answer that memory is short"]),
    ("memory is taken by a trait's types", DOCUMENT, "`Bytes::new`, ", "`Bytes::new`, `Port::take`, ", ["line 19: Port::take can answer that memory is short"]),
    ("no such call takes none", DOCUMENT, "`Bytes::new`, ", "`Bytes::new`, `old`, ", ["line 19: low has no public call old"]),
    ("memory is not taken", DOCUMENT, "`Bytes::new`, ", "", ["low: Bytes::new is not among the calls that take no memory"]),
    ("never no more", DOCUMENT, "| never |", "| seldom |", ["line 19: Bytes::take can answer that memory is short"]),
    (
        "a call is made public", SOURCE, "    fn first(", "    pub fn first(",
        ["low: Bytes::first answers None, which no row says", "low: Bytes::first is not among the calls that take no memory"],
    ),
    ("a call is renamed", SOURCE, "fn kind_of", "fn a_kind_of", ["line 12: low has no public call kind_of", "line 19: low has no public call kind_of"]),
    ("a clause is renamed", SOURCE, "ensures never", "ensures not_ever", ["line 11: Bytes::take has no clause never"]),
    (
        "a variant is added", SOURCE, "    Short,\n", "    Short,\n    Long,\n",
        ["low: Port::take answers Long, which no row says", "low: Bytes::take answers Long, which no row says"],
    ),
    (
        "memory is wanted", SOURCE, ") -> Option<Kind>", ") -> Result<Option<Kind>, Memory>",
        ["low: kind_of answers Memory, which no row says", "line 19: kind_of can answer that memory is short"],
    ),
    ("a test is gone", "crates/low_tests/src/lib.rt", "#[test]\n", "", ["line 9: there is no low_tests: bytes_are_taken"]),
    (
        "a law is no law", SOURCE, "⊤ }\n{}\n", "⊤ }\n{\n    copy()\n}\n",
        ["line 12: there is no low: kinds_are_one", "low: kinds_are_one is not among the calls that take no memory"],
    ),
    (
        "a fault of a generic type", SOURCE, ") -> Option<Kind>", ") -> Result<Kind, Fault<Self::Kind>>",
        ["line 12: kind_of does not answer None", "low: kind_of answers Short, which no row says", "low: kind_of answers Memory, which no row says", "line 19: kind_of can answer that memory is short"],
    ),
    (
        "a result that may not be there", SOURCE, ") -> Option<Kind>", ") -> Option<Result<Kind, Fault>>",
        ["low: kind_of answers Short, which no row says", "low: kind_of answers Memory, which no row says", "line 19: kind_of can answer that memory is short"],
    ),
    (
        "a verdict in a result", SOURCE, ") -> Option<Kind>", ") -> Result<Verdict, AllocError>",
        ["line 12: kind_of does not answer None", "low: kind_of answers No, which no row says", "low: kind_of answers AllocError, which no row says", "line 19: kind_of can answer that memory is short"],
    ),
    (
        "a fault that is given outright", SOURCE, ") -> Option<Kind>", ") -> Fault",
        ["line 12: kind_of does not answer None", "low: kind_of answers Short, which no row says", "low: kind_of answers Memory, which no row says", "line 19: kind_of can answer that memory is short"],
    ),
    ("a law cites that of a crate below", LAWS, "⊤ }\n{}\n", "⊤ }\n{\n    low::kinds_are_one(&Kind)\n}\n", []),
    ("a law answers", LAWS, "fn nothing_is_lost()", "fn nothing_is_lost() -> bool", ["low: nothing_is_lost is not among the calls that take no memory"]),
]


def write_repository(folder, file, piece, other):
    """The small repository with a piece of a file changed, which stands in it once."""
    for name in FILES:
        os.makedirs(os.path.join(folder, os.path.dirname(name)), exist_ok=True)
    write_files(folder, {**FILES, file: FILES[file].replace(piece, other)})


def faults_of_change(tool, call, file, piece, other, told):
    if FILES[file].count(piece) != 1:
        return [f"{piece!r} stands in {file} {FILES[file].count(piece)} times"]
    with tempfile.TemporaryDirectory() as folder:
        write_repository(folder, file, piece, other)
        tool.TOP = folder
        said, status = call(tool, [], folder)
    got = said.splitlines()[:-1]
    return [] if (got, status) == (told, int(bool(told))) else [f"want {told}", f"got  {got}, status {status}"]


def cases(loaded, call):
    """Each case with what is wrong: this repository, the changes of the small one, and the words of the tool."""
    tool = loaded("answers")
    said, status = call(tool, [], TOP)
    yield "answers: this repository", said.splitlines()[:-1] + [f"status {status}"] * (status != 0)
    for name, *change in CHANGES:
        yield f"answers: {name}", faults_of_change(tool, call, *change)
    with tempfile.TemporaryDirectory() as folder:
        write_repository(folder, DOCUMENT, ROW_OF_KIND, ROW_OF_KIND)
        tool.TOP = folder
        said = call(tool, ["--list", "low"], folder)
        yield "answers --list", [] if said == (LISTED, 0) and call(tool, ["--list"], folder) == said else [repr(said)]
        statuses = [call(tool, words, folder)[1] for words in (["low"], ["--list", "high"], ["--all"])]
        yield "answers: other words", [] if statuses == [2, 2, 2] else [f"statuses {statuses}"]
