"""The public functions and methods of the crates, their clauses, and what they can answer but `Ok`, as the sources say."""
import collections
import glob
import os
import re

# A call: its crate, its name (`read`, `MemSink::put`), what it takes, its clauses, what it answers but `Ok`, and whether it is of a trait.
Call = collections.namedtuple("Call", "crate name takes clauses answers is_of_trait")
# A function of a source file: the line of what it stands in, and whether it is a law, which does nothing or cites the law of a crate below.
Function = collections.namedtuple("Function", "file owner is_public name takes gives clauses is_law")

OF_TESTS = re.compile(r"_tests$|^acceptance$|^sample_networks$")
# Without a contract: the program itself, and the one that `bench/` measures.
OF_PROGRAMS = ("yates", "measure")
# The answers that say that memory was short.
OF_MEMORY = ("Memory", "AllocError")
# The calls that answer a status of the program, and these but for 0.
OF_STATUS, STATUSES = ("run", "serve"), list("1234567")

OF_LAWS = re.compile(r"(^|/)laws(\.rt)?$")
OWNER = re.compile(r"(?:pub )?(impl|trait)\b(.*)")
HEAD = re.compile(r"( *)((?:pub )?)(?:const )?fn (\w+)")
CLAUSE = re.compile(r" +(requires|ensures)(?: (\w+))? \{")
DECLARED = re.compile(r"^pub (?:fn|struct|enum|trait|const|type) (\w+)", re.M)
TYPE = re.compile(r"^(?:pub(?:\(crate\))? )?(?:struct|enum|trait|type) (\w+)", re.M)
ENUM = re.compile(r"^(?:pub(?:\(crate\))? )?enum (\w+)[^{;]*\{\n(.*?)^\}", re.M | re.S)
TRAIT = re.compile(r"^pub trait (\w+)", re.M)
USED = re.compile(r"^pub use ([\w:]+?)(?:::\{([^}]*)\}|::(\w+));", re.M)


def read(*path):
    with open(os.path.join(*path), encoding="utf-8") as file:
        return file.read()


def crates_of(top):
    """The crates with a contract, from below to above."""
    names = re.findall(r"^(\w+):", read(top, "crates.txt"), re.M)
    return [it for it in names if not OF_TESTS.search(it) and it not in OF_PROGRAMS]


def without_comments(text):
    """The lines, without comments. In no string of the sources stand two slashes."""
    return [line.partition("//")[0].rstrip() for line in text.split("\n")]


def split_list(text):
    """What stands between the commas that are in no bracket."""
    parts, depth = [""], 0
    for sign in text:
        depth += (sign in "<([{") - (sign in ">)]}")
        parts[-1] += sign
        if sign == "," and not depth:
            parts[-1] = parts[-1][:-1]
            parts.append("")
    return [it.strip() for it in parts if it.strip()]


def bracket_end(text, start):
    """Where the bracket closes that opens at this place."""
    depth = 0
    for place in range(start, len(text)):
        depth += (text[place] == "(") - (text[place] == ")")
        if not depth:
            return place
    return len(text)


def taken_and_given(signature):
    """What a function takes and answers."""
    start, depth = signature.index("fn ") + 3, 0
    while signature[start] != "(" or depth:
        depth += (signature[start] == "<") - (signature[start] == ">")
        start += 1
    end = bracket_end(signature, start)
    return signature[start + 1 : end].strip(), signature[end + 1 :].partition("→")[2].partition(" where ")[0].strip()


def is_head_end(indent, line, is_first):
    """Whether the body of a function begins here, or it has none."""
    begins = is_first or line.startswith(indent + ")")
    return line in (indent + "{", indent + "{}") or line.endswith(";") or begins and line.endswith((" {", " {}"))


def functions_of(file, text):
    """All functions of a source file, in order."""
    lines, owner, head = without_comments(text), "", []
    for line in lines:
        if OWNER.match(line) or line == "}":
            owner = "" if line == "}" else line.rstrip("{} ")
        started = HEAD.match(head[0] if head else line)
        if not started:
            continue
        head.append(line)
        if is_head_end(started.group(1), line, len(head) == 1):
            yield function_of(file, owner, started, head)
            head = []


def function_of(file, owner, started, head):
    """The function with this head."""
    marks = [CLAUSE.match(it) for it in head]
    first = next((place for place, it in enumerate(marks) if it), len(head))
    signature = " ".join(it.strip() for it in head[:first]).replace("->", "→").rstrip("{}; ")
    takes, gives = taken_and_given(signature)
    clauses = [it.group(2) or "ensures" for it in marks if it and it.group(1) == "ensures"]
    is_law = (head[-1].endswith("{}") or OF_LAWS.search(file) is not None) and not gives and "&mut" not in takes
    return Function(file, owner, bool(started.group(2)), started.group(3), takes, gives, clauses, is_law)


def trait_and_type(owner):
    """The trait and the type of an `impl` or a `trait`, without what they take: ("", "Items"), ("Sink", "MemSink") or ("Sink", "")."""
    kind, rest = OWNER.match(owner).groups()
    depth, plain = 0, ""
    for sign in rest.replace("->", "→"):
        depth += sign == "<"
        plain += "" if depth else sign
        depth -= sign == ">"
    of_trait, _, of_type = (it.strip() for it in plain.partition(" for "))
    if kind == "trait":
        return of_trait.partition(":")[0].strip(), ""
    return (of_trait, of_type) if of_type else ("", of_trait)


class Crate:
    """The names that a crate makes public, its types, and its functions."""

    def __init__(self, top, name):
        folder = os.path.join(top, "crates", name, "src")
        paths = sorted(glob.glob(os.path.join(folder, "**", "*.rt"), recursive=True))
        self.name, self.texts = name, {os.path.relpath(it, folder)[: -len(".rt")]: read(it) for it in paths}
        self.public = set()
        self.add_module("lib")
        plain = "\n".join(line for text in self.texts.values() for line in without_comments(text))
        self.types = set(TYPE.findall(plain))
        self.variants = {enum: re.findall(r"^    (\w+)", body, re.M) for enum, body in ENUM.findall(plain)}
        self.functions = [it for file in self.texts for it in functions_of(file, self.texts[file])]

    def add_module(self, file):
        """What a public module makes public: its own items, what it names of private ones, and its public modules."""
        text, inside = self.texts[file], "" if file == "lib" else file + "/"
        self.public |= {(file, it) for it in DECLARED.findall(text)}
        for module in re.findall(r"^pub mod (\w+);", text, re.M):
            self.add_module(inside + module)
        for path, names, one in USED.findall(text):
            module = inside + path.replace("crate::", "").replace("::", "/")
            self.public |= {(module, it) for it in split_list(names) or [one]}

    def has_public(self, name):
        return any(it == name for _, it in self.public)


class PublicCalls:
    """The public calls of a repository by crate and name, the laws left out."""

    def __init__(self, top):
        self.crates = {name: Crate(top, name) for name in crates_of(top)}
        declared = [(it, trait) for it in self.crates.values() for text in it.texts.values() for trait in TRAIT.findall(text)]
        self.traits = {trait for crate, trait in declared if crate.has_public(trait)}
        self.calls = {}
        for crate in self.crates.values():
            for it in crate.functions:
                name = None if it.is_law else self.name_of(crate, it)
                if name:
                    is_of_trait = name.partition("::")[0] in self.traits
                    answers = STATUSES if it.name in OF_STATUS else self.answers_of(crate, it.gives)
                    self.calls[crate.name, name] = Call(crate.name, name, it.takes, it.clauses, answers, is_of_trait)
        self.add_clauses_of_traits()

    def name_of(self, crate, it):
        """The name by which those above call a function; None where they cannot."""
        if not it.owner:
            return it.name if it.is_public and (it.file, it.name) in crate.public else None
        of_trait, of_type = trait_and_type(it.owner)
        is_reached = crate.has_public(of_type) or of_trait and of_type not in crate.types
        if not of_trait:
            return f"{of_type}::{it.name}" if it.is_public and is_reached else None
        if not of_type:
            return f"{of_trait}::{it.name}" if crate.has_public(of_trait) else None
        return f"{of_type}::{it.name}" if of_trait in self.traits and is_reached else None

    def add_clauses_of_traits(self):
        """A method of a trait's type has the clauses of the trait too."""
        of_trait = {it.name: it.clauses for it in self.calls.values() if it.is_of_trait}
        for crate in self.crates.values():
            for it in crate.functions:
                key = crate.name, self.name_of(crate, it)
                if it.owner and key in self.calls:
                    more = of_trait.get(f"{trait_and_type(it.owner)[0]}::{it.name}", [])
                    self.calls[key] = self.calls[key]._replace(clauses=it.clauses + [clause for clause in more if clause not in it.clauses])

    def answers_of(self, crate, gives):
        """What a function that gives this can answer but `Ok`, or but what it was asked for: `None`, `false` and the `No` of a verdict in an `Ok` are such answers too."""
        if gives.startswith("io::Result<"):
            return ["io::Error"]
        made = re.match(r"(Result|Option)<(.*)>$", gives)
        if not made:
            variants = self.variants_of(crate, gives)
            return variants if gives.endswith("Fault") else ["No"] if "No" in variants else []
        if made.group(1) == "Option":
            return ["Some" if made.group(2).endswith("Fault") else "None"] + self.answers_of(crate, made.group(2)) * made.group(2).startswith("Result<")
        good, fault = split_list(made.group(2))
        more = ["None"] if good.startswith("Option<") else ["false"] if good == "bool" else ["No"] if good.endswith("Verdict") else []
        return more + (self.variants_of(crate, fault.partition("<")[0]) or [fault])

    def variants_of(self, crate, name):
        """The variants of an enum of this crate, or else of another."""
        return next((it.variants[name] for it in [crate, *self.crates.values()] if name in it.variants), [])
