"""The archive of a release and its check, tried with a program that says yes to everything."""
import contextlib
import importlib.machinery
import importlib.util
import io
import os
import tempfile
import types

from .program import TOP

SAYS_YES = b"#!/bin/sh\necho yes ratio 1000000 set all\n"
LOG = "$ rt all check\n== low\nlogic=proved functions=1\n== yates\nlogic=proved functions=2\n$ rt run -- check c\nyes\nprogram: sha256 {}\n"
READY = {"status": "", "rev-parse": "0123", "log": "1700000000", "ls-files": "examples/small/plan.json"}


def loaded(folder):
    """The tool in a folder with its own repository, program, log and kit."""
    loader = importlib.machinery.SourceFileLoader("release", os.path.join(TOP, "tools", "release"))
    tool = importlib.util.module_from_spec(importlib.util.spec_from_loader(loader.name, loader))
    loader.exec_module(tool)
    built, log = os.path.join(folder, "yates"), os.path.join(folder, "build.log")
    for name, data in ((built, SAYS_YES), (log, LOG.format(tool.digest_of(SAYS_YES)).encode())):
        with open(name, "wb") as file:
            file.write(data)
    build = types.SimpleNamespace(
        LOG=log, KIT_RT="/no/such/rt", crates_of_program=lambda: {"yates": ["low", "csv"], "low": []}, change_since=lambda _: None
    )
    tool.loaded = lambda _: build
    tool.program = types.SimpleNamespace(PROGRAM=built, TOP=TOP, is_built=lambda: True)
    tool.git = lambda word, *_: READY[word]
    return tool, build


def call(tool, *words):
    """The tool's status and what it says."""
    said = io.StringIO()
    with contextlib.redirect_stdout(said), contextlib.redirect_stderr(said):
        return tool.main(list(words)), said.getvalue()


def version_of(tool):
    return tool.re.search(r"^version: (\S+)$", tool.read(os.path.join(TOP, "CITATION.cff")).decode(), tool.re.M).group(1)


def refusals():
    """What has to hold before there is an archive."""
    faults = []
    for name, change, words in [
        ("another version", lambda tool, build: setattr(tool, "git", None), "CITATION.cff has the version"),
        ("not committed", lambda tool, build: setattr(tool, "git", lambda *_: " M README.md"), "not all is committed: M README.md"),
        ("no program", lambda tool, build: setattr(tool.program, "is_built", lambda: False), "is not built"),
        ("an old program", lambda tool, build: setattr(build, "change_since", lambda _: "a source is another"), "a source is another: ./yates builds it again"),
        ("no log", lambda tool, build: os.remove(build.LOG), "there is no log"),
        ("a log of another program", lambda tool, build: open(tool.program.PROGRAM, "ab").write(b"#\n"), "does not say that this program was proved"),
    ]:
        with tempfile.TemporaryDirectory() as folder:
            tool, build = loaded(folder)
            change(tool, build)
            status, said = call(tool, "0" if name == "another version" else version_of(tool), os.path.join(folder, "made"))
            if status != 1 or words not in said or os.path.exists(os.path.join(folder, "made")):
                faults.append(f"{name}: {status} {said!r}")
    return faults


def an_archive():
    """It is the same each time, its check says of which commit it is, and a change of any kind is told."""
    with tempfile.TemporaryDirectory() as folder:
        tool, build = loaded(folder)
        version = version_of(tool)
        status, said = call(tool, version, folder)
        name = os.path.join(folder, f"yates-{version}.tar.gz")
        if status or said != f"{tool.digest_of(tool.read(name))}  {name}\n":
            return [f"{status} {said!r}"]
        first = tool.read(name)
        call(tool, version, folder)
        faults = ["another archive"] * (tool.read(name) != first)
        status, said = call(tool, "--check", name)
        if status or not said.startswith(f"yates {version}\ncommit: 0123\nprogram: sha256 ") or "\nproof: logic=proved functions=2\n" not in said:
            faults.append(f"its check: {status} {said!r}")
        whole = tool.contents(version, build)
        for words, files in changed(tool, whole):
            with open(name, "wb") as file:
                file.write(files if isinstance(files, bytes) else tool.packed("yates", files, 0))
            status, said = call(tool, "--check", name)
            if status != 1 or words not in said:
                faults.append(f"{words}: {status} {said!r}")
        return faults


def changed(tool, whole):
    """Archives with a change, and what their check says."""
    sums = whole[tool.SUMS].decode()

    def with_program(data):
        about = whole[tool.ABOUT].decode().replace(tool.digest_of(SAYS_YES), tool.digest_of(data)).encode()
        listed = sums.replace(tool.digest_of(SAYS_YES), tool.digest_of(data)).replace(tool.digest_of(whole[tool.ABOUT]), tool.digest_of(about))
        return {**whole, "yates": data, tool.ABOUT: about, tool.SUMS: listed.encode()}

    return [
        ("README.md: has another digest", {**whole, "README.md": b"other"}),
        ("yates.1: is not there", {name: data for name, data in whole.items() if name != "yates.1"}),
        ("more: has no digest", {**whole, "more": b""}),
        ("has no place in it", {**whole, "../up": b""}),
        ("it is no archive", b"x"),
        ("ABOUT does not speak of this program", {**whole, tool.SUMS: sums.replace(tool.digest_of(SAYS_YES), tool.digest_of(b"x")).encode(), "yates": b"x"}),
        ("./yates check crates/yates/data/c ends with 3", with_program(b"#!/bin/sh\nexit 3\n")),
    ]


CASES = [("refusals", refusals), ("an archive", an_archive)]
