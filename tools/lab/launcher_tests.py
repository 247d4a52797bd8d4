"""The launcher and the build, tried over a kit that proves nothing: a small repository and a command `rt` in its place."""
import os
import pty
import re
import shutil
import signal
import subprocess
import sys
import tempfile
import time

from .program import TOP

RT = """#!/bin/sh
case "$1 $2" in
"version ") echo "rattle-kit-13f logic 0" ;;
"all check")
    cat "$(dirname "$0")/said"
    [ -f "$(dirname "$0")/edited" ] && echo "// edited" >> src/main.rt
    [ -f "$(dirname "$0")/wait" ] && exec sleep 60; exit "$(cat "$(dirname "$0")/status")" ;;
"run --")
    mkdir -p out
    printf '#!/bin/sh\\n[ $# -eq 2 ] || { echo usage >&2; exit 2; }\\necho yes\\n' > out/yates
    chmod +x out/yates
    echo "yes ratio 1000000 set all" ;;
esac
"""
PROVED = "== low\nlogic=proved functions=1 sum=0\n== middle\n== yates\nlogic=proved functions=1 sum=0\n== summary\n3 of 3 crates ok\n"
# What another kit may print of the same: no word behind, a blank behind a name, and a line before.
PROVED_IN_OTHER_WORDS = "== low \nlogic=proved\n== middle\n== yates\nrt: chose --jobs 4 for yates\nlogic=proved\tfunctions=1\n== summary\n"
FAILED = "== low\nlogic=proved functions=1 sum=0\n== middle\nlogic=not-proved\n== yates\n== summary\n1 of 3 crates ok\n"
CRATES = "# the layers\nlow:\nmiddle: low csv\nyates: middle\nbench: low\n"


class Place:
    """A small repository with the launcher, and a kit beside it."""

    def __init__(self, folder, said=PROVED, status=0, readme="proved with rattle-kit-13f\n"):
        self.top, self.kit = os.path.join(folder, "repository"), os.path.join(folder, "kit")
        for name in ("tools", "docs", "crates/yates/data", "crates/yates/src", "crates/low/src", "crates/middle/src", "crates/bench/src"):
            os.makedirs(os.path.join(self.top, name))
        os.mkdir(self.kit)
        for name in ("yates", "tools/build", "docs/FORMATS.md"):
            shutil.copy2(os.path.join(TOP, name), os.path.join(self.top, name))
        self.write("README.md", readme)
        self.write("crates.txt", CRATES)
        self.write("crates/yates/stdout", "yes ratio 1000000 set all\n")
        for name in ("yates/src/main.rt", "low/src/lib.rt", "bench/src/main.rt"):
            self.write(f"crates/{name}", "")
        self.write("../kit/rt", RT)
        os.chmod(os.path.join(self.kit, "rt"), 0o755)
        self.write("../kit/said", said)
        self.write("../kit/status", str(status))

    def write(self, name, text):
        with open(os.path.join(self.top, name), "w", encoding="utf-8") as file:
            file.write(text)

    def touch(self, name, seconds):
        later = time.time() + seconds
        os.utime(os.path.join(self.top, name), (later, later))

    def launch(self, *words, is_terminal=False, has_kit=True):
        """What the launcher writes to its two streams, and its status; None where there is no terminal to be had."""
        path = os.pathsep.join([self.kit, os.environ["PATH"]]) if has_kit else self.bare_path()
        how = {"env": {**os.environ, "PATH": path}, "stdin": subprocess.DEVNULL, "stdout": subprocess.PIPE}
        words = [os.path.join(self.top, "yates"), *words]
        if not is_terminal:
            ran = subprocess.run(words, stderr=subprocess.PIPE, check=False, **how)
            return ran.stdout.decode(), ran.stderr.decode(), ran.returncode
        try:
            above, below = pty.openpty()
        except OSError:
            return None
        ran = subprocess.run(words, stderr=below, check=False, **how)
        os.close(below)
        said = read_all(above)
        os.close(above)
        return ran.stdout.decode(), said.replace("\r\n", "\n"), ran.returncode

    def bare_path(self):
        """A path with what the launcher needs, and without the kit."""
        folder = os.path.join(self.top, "bare")
        if not os.path.isdir(folder):
            os.mkdir(folder)
            os.symlink(sys.executable, os.path.join(folder, "python3"))
            for name in filter(shutil.which, ("sh", "dirname", "readlink", "find", "head", "sed", "env")):
                os.symlink(shutil.which(name), os.path.join(folder, name))
        return folder


def read_all(stream):
    said = b""
    while True:
        try:
            piece = os.read(stream, 65536)
        except OSError:
            return said.decode()
        if not piece:
            return said.decode()
        said += piece


def forms():
    """The forms of the commands, as docs/FORMATS.md has them."""
    with open(os.path.join(TOP, "docs", "FORMATS.md"), encoding="utf-8") as file:
        return re.search(r"^```forms\n(.*?)^```$", file.read(), re.M | re.S).group(1)


def differences(got, *wanted):
    """What of these texts and patterns is not found in what was got."""
    return [f"{it!r} is not in {got!r}" for it in wanted if not re.search(it, got, re.M)]


def first_build():
    with tempfile.TemporaryDirectory() as folder:
        place = Place(folder)
        out, err, status = place.launch("check", "c")
        faults = differences(err, r"^yates: the program is not built yet.*: 3 crates, up to \d+ at a time, with rattle-kit-13f$", r"^yates: .*log: crates/yates/out/build\.log$")
        faults += differences(err, r"^1 of 3 low: proved, \d+ s$", r"^2 of 3 middle: proved before, \d+ s$", r"^3 of 3 yates: proved, \d+ s$", r"\Ayates:.*(\n.*){6}\n\Z")
        faults += differences(err, r"^yates: proved and built in \d+ s$") + [f"out {out!r}"] * (out != "yes\n") + [f"status {status}"] * (status != 0)
        out, err, status = place.launch("check", "c")
        return faults + [f"the second call: {err!r} {status}"] * ((out, err, status) != ("yes\n", "", 0))


def other_words_of_a_kit():
    with tempfile.TemporaryDirectory() as folder:
        _, err, status = Place(folder, PROVED_IN_OTHER_WORDS).launch("check", "c")
        lines = [r"^1 of 3 low: proved, \d+ s$", r"^2 of 3 middle: proved before, \d+ s$", r"^3 of 3 yates: proved, \d+ s$"]
        return differences(err, *lines) + [f"status {status}"] * (status != 0)


def edited_while_it_is_built():
    """A source that is edited during the build is not that of the program, so the next call builds again."""
    with tempfile.TemporaryDirectory() as folder:
        place = Place(folder)
        place.write("../kit/edited", "")
        place.launch("check", "c")
        os.remove(os.path.join(place.kit, "edited"))
        _, again, _ = place.launch("check", "c")
        _, then, _ = place.launch("check", "c")
        return differences(again, r"^yates: crates/yates/src/main\.rt is not as it was when the program was built") + [f"a third build: {then!r}"] * (then != "")


def failing_build():
    with tempfile.TemporaryDirectory() as folder:
        out, err, status = Place(folder, FAILED, 1, "rattle-kit-12a").launch("check", "c")
        faults = differences(err, r"rattle-kit-13f \(README.md names rattle-kit-12a", r"^2 of 3 middle: FAILED", r"^3 of 3 yates: not run")
        return faults + differences(err, r"^yates: not built: a crate was not proved; crates/yates/out/build\.log says why$") + [f"status {status}"] * (status != 70)


def changed_sources():
    """What counts is what the sources say, and not their times."""
    with tempfile.TemporaryDirectory() as folder:
        place = Place(folder)
        place.launch("check", "c")
        place.write("crates/bench/src/main.rt", "// edited")
        _, beside, _ = place.launch("check", "c")
        place.touch("crates/low/src/lib.rt", 2)
        _, touched, _ = place.launch("check", "c")
        faults = [f"a crate that the program does not stand on: {beside!r}"] * (beside != "") + [f"a newer source: {touched!r}"] * (touched != "")
        place.write("crates/low/src/lib.rt", "// edited")
        place.touch("crates/low/src/lib.rt", -1_000_000)
        _, below, _ = place.launch("check", "c")
        faults += differences(below, r"^yates: crates/low/src/lib\.rt is not as it was when the program was built, so", "^yates: proved and built")
        os.remove(os.path.join(place.top, "crates/low/src/lib.rt"))
        return faults + differences(place.launch("check", "c")[1], r"^yates: crates/low/src/lib\.rt is not as it was")


def copied_repository():
    """A copy runs what was built: with the times of the files, or with new ones."""
    faults = []
    for copy in (shutil.copy2, shutil.copy):
        with tempfile.TemporaryDirectory() as folder:
            place = Place(folder)
            place.launch("check", "c")
            before, place.top = place.top, os.path.join(folder, "a copy")
            shutil.copytree(before, place.top, copy_function=copy)
            got = place.launch("check", "c"), place.launch("check", "c")
            faults += [f"{got}"] * (got != (("yes\n", "", 0),) * 2)
    return faults


def without_digests():
    """Of a program that another build made, times say whether a source is newer."""
    with tempfile.TemporaryDirectory() as folder:
        place = Place(folder)
        for name in ("crates.txt", "crates/yates/src/main.rt", "crates/low/src/lib.rt", "crates/bench/src/main.rt"):
            place.touch(name, -10)
        place.launch("check", "c")
        os.remove(os.path.join(place.top, "crates/yates/out/sources.sha256"))
        _, same, _ = place.launch("check", "c")
        place.touch("crates/low/src/lib.rt", 2)
        _, newer, _ = place.launch("check", "c")
        return [f"no source is newer: {same!r}"] * (same != "") + differences(newer, r"^yates: crates/low/src/lib\.rt is newer than the program")


def words_of_no_form():
    with tempfile.TemporaryDirectory() as folder:
        place = Place(folder)
        place.launch("check", "c")
        plain, terminal = place.launch(), place.launch(is_terminal=True)
        accepted = place.launch("check", "c", is_terminal=True)
        faults = [f"no terminal: {plain}"] * (plain != ("", "usage\n", 2))
        faults += [f"a terminal: {terminal}"] * (terminal not in (None, ("", "usage\n" + forms(), 2)))
        return faults + [f"a command at a terminal: {accepted}"] * (accepted not in (None, ("yes\n", "", 0)))


def heed_interrupts():
    """A shell in the background, as a gate may be, hands on that interrupts are ignored."""
    signal.signal(signal.SIGINT, signal.SIG_DFL)


def interrupted_build():
    with tempfile.TemporaryDirectory() as folder:
        place = Place(folder, PROVED.partition("== middle")[0] + "== middle\n")
        place.write("../kit/wait", "")
        environment = {**os.environ, "PATH": os.pathsep.join([place.kit, os.environ["PATH"]])}
        ran = subprocess.Popen(
            [os.path.join(place.top, "yates"), "check", "c"], env=environment, stdin=subprocess.DEVNULL, stderr=subprocess.PIPE, start_new_session=True, preexec_fn=heed_interrupts
        )
        said = ""
        while "1 of 3" not in said:
            line = ran.stderr.readline().decode()
            if not line:
                return [f"it ended: {said!r}"]
            said += line
        os.killpg(ran.pid, signal.SIGINT)
        said += ran.stderr.read().decode()
        ran.stderr.close()
        faults = differences(said, "^yates: stopped; what was proved is kept") + ["it ended with status 0"] * (ran.wait() == 0)
        os.remove(os.path.join(place.kit, "wait"))
        place.write("../kit/said", PROVED)
        return faults + differences(place.launch("check", "c")[1], "^yates: proved and built")


def no_kit():
    with tempfile.TemporaryDirectory() as folder:
        place = Place(folder)
        with open(os.path.join(place.top, "tools", "build"), encoding="utf-8") as file:
            text = file.read()
        place.write("tools/build", text.replace("/opt/rattle/bin/rt", "/no/such/rt"))
        _, err, status = place.launch("check", "c", has_kit=False)
        return differences(err, "^yates: not built: there is no rt on the path or at /no/such/rt") + [f"status {status}"] * (status != 70)


CASES = [
    ("the first build", first_build),
    ("a build that fails", failing_build),
    ("other words of a kit", other_words_of_a_kit),
    ("an edit during the build", edited_while_it_is_built),
    ("sources that change", changed_sources),
    ("a copy of a repository", copied_repository),
    ("a program without digests", without_digests),
    ("words of no form", words_of_no_form),
    ("an interrupted build", interrupted_build),
    ("no kit", no_kit),
]
