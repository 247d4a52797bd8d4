"""The definitions of specs/ and which of them use which, as their files and the contract of the top call say."""
import collections
import glob
import os
import re

# What a definition is: its place, the comment above it, its text, how many lines of that are no comments, and the words that it uses.
Definition = collections.namedtuple("Definition", "crate file name line comment text lines words")
# A type or a constant of the code that definitions name, and the crate that has it.
OfCode = collections.namedtuple("OfCode", "crate name")

TOP_CALL = "crates/te_command/src/top.rt"
COMMANDS = ("te_command", "Commands", "Command")
HEAD = re.compile(r"(?:(?:abbrev|unfoldable) )?(?:pub )?(?:(record|data) )?([^\s:({]+)[ :]")
NO_HEAD = ("use ", "pub use ", "ghost use ", "--", "infix", "module ", "mod ", "pub mod ")
IMPORT = re.compile(r"^(?:ghost |pub )*use Rattle\.([\w.]+?)(?:\.\{([^}]*)\})?(?: as (\w+))?;?\s*$", re.M)
WORD = re.compile(r"[^\W\d][\w'≢≡]*|◌\S+◌")
# Where a document says how much is reached: in a table, or in brackets.
STATED = re.compile(r"`tools/believed([^`]*)`(?: \| | \()([\d,]+ definitions, [\d,]+ lines, \d+ files, \d+ crates?)")
ENSURES = re.compile(r"\n    ensures (\w+) \{")


def imports(text):
    """What a file calls by which name: (crate, path of the module, name there), with no name for a module as a whole."""
    found = {}
    for path, names, alias in IMPORT.findall(text):
        crate, _, module = path.partition(".")
        for name in filter(None, (it.strip() for it in names.split(","))):
            there, _, here = name.partition(" as ")
            found[here.strip() or there.strip()] = (crate, module, there.strip())
        if alias:
            found[alias] = (crate, module, None)
    return found


def without_modules(text):
    """The lines, where what stands in a module with parameters stands at the margin, and the module's own lines are empty."""
    is_inside = is_head = False
    for line in text.split("\n"):
        is_inside = line.startswith("module ") or is_inside and not line[:1].strip()
        is_head = line.startswith("module ") or is_head
        yield "" if is_head else line[2:] if is_inside else line
        is_head = is_head and not line.endswith(" where")


def paragraphs(text):
    """Each run of lines without an empty one, and the number of its first line."""
    run, first = [], 0
    for number, line in enumerate([*without_modules(text), ""], 1):
        if line.strip():
            first = first if run else number
            run.append(line)
        elif run:
            yield first, run
            run = []


def words_of(lines):
    return frozenset(WORD.findall(re.sub(r'"[^"]*"', "", "\n".join(lines))))


def definitions_of(crate, file, text, dropped=()):
    """The definitions of a file, in order. Equations for a constructor that is dropped are left out."""
    for first, lines in paragraphs(text):
        above = [it for it in lines if it.startswith("--")]
        rest = lines[len(above):]
        if not rest or rest[0].startswith(NO_HEAD) or rest[0][0].isspace():
            continue
        head = HEAD.match(rest[0])
        if not head:
            continue
        name = head.group(2)
        code = [it for it in rest if not it.strip().startswith("--")]
        kept = [it for it in equations(name, code) if not any(it[0].startswith(f"{name} ({gone} ") for gone in dropped)]
        comment = " ".join(it[2:].strip() for it in above)
        yield Definition(crate, file, name, first + len(above), comment, "\n".join(rest), len(code), words_of(sum(kept, [])) - {name})
        if head.group(1) == "data":
            for made in re.findall(r"^  (?:pub )?([^\s:]+) :", "\n".join(code), re.M):
                yield Definition(crate, file, made, first + len(above), comment, "", 0, frozenset({name}))


def equations(name, code):
    """The lines of a definition, parted before each of its equations."""
    parts = [[]]
    for line in code:
        if line.startswith(name + " ") and parts[-1]:
            parts.append([])
        parts[-1].append(line)
    return parts


class Beliefs:
    """The definitions of a repository, and the clauses of its top call."""

    def __init__(self, top, commands=()):
        self.top, self.of, self.imports, self.texts = top, {}, {}, {}
        for path in sorted(glob.glob(os.path.join(top, "crates", "*", "specs", "**", "*.antt"), recursive=True)):
            crate, _, file = os.path.relpath(path, os.path.join(top, "crates"))[: -len(".antt")].partition("/specs/")
            with open(path, encoding="utf-8") as opened:
                self.texts[crate, file.replace("/", ".")] = opened.read()
        dropped = set(self.commands()) - set(commands) if commands else ()
        for (crate, file), text in self.texts.items():
            self.imports[crate, file] = imports(text)
            for found in definitions_of(crate, file, text, dropped):
                self.of.setdefault((crate, file, found.name), found)
        with open(os.path.join(top, TOP_CALL), encoding="utf-8") as opened:
            self.contract = opened.read()
        with open(os.path.join(top, "crates.txt"), encoding="utf-8") as opened:
            self.order = re.findall(r"^(\w+):", opened.read(), re.M)

    def commands(self):
        """The names that the table of commands has for them."""
        crate, file, name = COMMANDS
        return [it.name for it in definitions_of(crate, file, self.texts[crate, file]) if it.words == {name}]

    def clauses(self):
        """Each clause of the top call, and its text."""
        found = {}
        for at in ENSURES.finditer(self.contract):
            depth, end = 1, at.end()
            while depth:
                depth += {"{": 1, "}": -1}.get(self.contract[end], 0)
                end += 1
            found[at.group(1)] = self.contract[at.end() : end - 1]
        return found

    def named(self, name):
        """The keys of the definitions of this name, which is NAME, File.NAME or crate.File.NAME."""
        return [key for key in self.of if self.of[key].lines and ("." + ".".join(key)).endswith("." + name)]

    def used_by(self, words, names, crate=None, file=None):
        """The definitions, and the types and constants of the code, that some words name where these names are imported."""
        for word in words:
            if (crate, file, word) in self.of:
                yield (crate, file, word)
            elif word in names:
                there, module, name = names[word]
                if module.startswith("specs.declared."):
                    path = [it for it in module.split(".")[2:] if not it.startswith("The")]
                    yield OfCode(there, name if "TheConstants" in module or name and "TheVariants" not in module else path[-1])
                elif module.startswith("specs."):
                    yield self.first_place((there, module[len("specs."):], name))

    def first_place(self, key):
        """Where a name stands that a file hands on."""
        crate, file, name = key
        there, module, first = self.imports.get((crate, file), {}).get(name, (None, "", None)) if key not in self.of else (None, "", None)
        return (there, module[len("specs."):], first) if module.startswith("specs.") and not module.startswith("specs.declared.") else key

    def reached(self, starts):
        """All that these definitions use, with what is used by it, and these themselves: definitions, and what is of the code."""
        seen, left = set(), list(starts)
        while left:
            key = left.pop()
            if key in seen or not isinstance(key, OfCode) and key not in self.of:
                continue
            seen.add(key)
            if not isinstance(key, OfCode):
                crate, file, _ = key
                left += self.used_by(self.of[key].words, self.imports[crate, file], crate, file)
        of_code = {it for it in seen if isinstance(it, OfCode)}
        return sorted((self.of[it] for it in seen - of_code if self.of[it].lines), key=self.place), sorted(of_code, key=self.place)

    def starts_of(self, name):
        """Where to begin: what the clause of this name uses, or the one definition of this name; None where there is neither."""
        clause = self.clauses().get(name)
        if clause is not None:
            return list(self.used_by(words_of([clause]), imports(self.contract)))
        found = self.named(name)
        return found if len(found) == 1 else None

    def place_in_code(self, found):
        """Where a type or a constant of the code stands; what a crate of the kit has is named alone."""
        for path in sorted(glob.glob(os.path.join(self.top, "crates", found.crate, "src", "**", "*.rt"), recursive=True)):
            with open(path, encoding="utf-8") as opened:
                for number, line in enumerate(opened, 1):
                    if re.match(rf"\s*pub (?:struct|enum|const|trait|type) {found.name}\b", line):
                        return f"{os.path.relpath(path, self.top)}:{number}"
        return f"of {found.crate}"

    def place(self, found):
        """Crates in their order, lowest first, and in each the files by name and the lines in order."""
        order = self.order.index(found.crate) if found.crate in self.order else len(self.order)
        return (order, found.crate, getattr(found, "file", ""), getattr(found, "line", 0), found.name)
