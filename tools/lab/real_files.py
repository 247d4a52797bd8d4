"""Calls over what the files of a folder do not show: files that are replaced or deleted while they are read, pipes, a full device, streams
that are closed, and readers that end early. What they have to answer is what docs/FORMATS.md says of the statuses 0, 4 and 5 and of a failed
write to the standard error, and CHANGES.md of files that move and of pipes.
"""
import contextlib
import errno
import fcntl
import os
import re
import resource
import signal
import stat
import subprocess
import tempfile
import threading
import time

from .certificates import SMALLEST, SMALLEST_WITH_LESS, TWICE_A_NAME
from .folders import write_files

# What a call may take before it is ended, and how often a call is begun anew that was too fast to be stopped.
SECONDS, TURNS = 120, 50
YES = "yes ratio 1000000 set all\n"
NO = "no link 0 rule I4 place 0\n"
UNREAD = (4, "", "fault: read\n")
UNWRITTEN = (5, "", "fault: write\n")
TOPOLOGY = "source,target,capacity,cost\na,b,10,1\n"
# The number of `F_SETPIPE_SZ`, which Python names from 3.10 on, and the least room of a pipe.
SET_PIPE_SIZE, PAGE = 1031, 4096
FULL = "/dev/full"


def large_certificate(format_number, blocks):
    """A certificate that is true, with so many blocks of some 50,000 bytes. All links lead from the first node to the second, the only pair
    goes over the first, and the blocks of the others have nothing to show.
    """
    nodes, links = 64, 512
    rows = "".join(
        " ".join([str(source), *("0" if node in (source, 1) else "68719476736" for node in range(nodes))]) + "\n" for source in range(nodes)
    )
    idle = f" 0 1 {nodes}\n" + " ".join("0" for _ in range(links)) + "\n" + rows
    lines = [f"yates-ratio {format_number}", f"nodes {nodes}", *(f"n{node}" for node in range(nodes)), f"links {links}", *["0 1 1 1"] * links]
    lines += ["pairs 1", "0 1 1", "1000000 1 0", "set all", f"ratio {1_000_000 * links}", f"blocks {blocks}"]
    lines += ["0 1000000 1 1", " ".join("1" for _ in range(links)), " ".join(["0 0 1", *("0" for _ in range(nodes - 2))])]
    return "\n".join(lines) + "\n" + "".join(f"{link}{idle}" for link in range(1, blocks)) + "end\n"


class Call:
    """The program at work in a folder. Its streams are pipes, but for those that are given; one that hangs is ended."""

    def __init__(self, program, words, folder, **how):
        streams = {"stdin": subprocess.DEVNULL, "stdout": subprocess.PIPE, "stderr": subprocess.PIPE}
        self.ran = subprocess.Popen([program, *words], cwd=folder, **{**streams, **how})
        self.limit = threading.Timer(SECONDS, self.ran.kill)
        self.limit.start()

    def answer(self, data=None):
        """The status, and what was written to the two streams, or nothing for one that is no pipe."""
        out, err = self.ran.communicate(data)
        self.limit.cancel()
        return self.ran.returncode, (out or b"").decode("utf-8", "replace"), (err or b"").decode("utf-8", "replace")

    def feed(self, pipe, data):
        """Writes into the named pipe, once the program reads it."""
        while self.ran.poll() is None:
            try:
                end = os.open(pipe, os.O_WRONLY | os.O_NONBLOCK)
            except OSError as error:
                if error.errno != errno.ENXIO:
                    raise
                time.sleep(0.001)
                continue
            os.set_blocking(end, True)
            with contextlib.suppress(BrokenPipeError), os.fdopen(end, "wb") as file:
                file.write(data.encode())
            return

    def place_in(self, file):
        """How far the program has read the file, or nothing where it has not opened it."""
        at = f"/proc/{self.ran.pid}"
        with contextlib.suppress(OSError):
            for number in os.listdir(f"{at}/fd"):
                if os.readlink(f"{at}/fd/{number}") == file:
                    with open(f"{at}/fdinfo/{number}", encoding="ascii") as lines:
                        return int(re.search(r"^pos:\s+(\d+)", lines.read(), re.M).group(1))
        return 0

    def is_stopped_within(self, file, size):
        """Stops the program while it reads the file. False where it ended before, or had read all."""
        while not self.place_in(file):
            if self.ran.poll() is not None:
                return False
        self.ran.send_signal(signal.SIGSTOP)
        os.waitid(os.P_PID, self.ran.pid, os.WSTOPPED | os.WEXITED | os.WNOWAIT)
        return 0 < self.place_in(file) < size


def in_shell(program, words, folder, redirection, **how):
    """The answer of a call whose streams a shell has changed."""
    return Call("sh", ["-c", f'exec "$0" "$@" {redirection}', program, *words], folder, **how).answer()


def faults_of(got, wanted):
    return [] if got == wanted else [f"want {wanted!r}"[:400], f"got  {got!r}"[:400]]


def faults_while_read(program, folder, change, afterwards):
    """What is wrong where the file `c` is changed while it is read: it is read to its end, and the next call sees the change."""
    text = large_certificate(1, 512)
    write_files(folder, {"c": text, "d": SMALLEST_WITH_LESS})
    file = os.path.join(os.path.realpath(folder), "c")
    for _ in range(TURNS):
        call = Call(program, ["check", "c"], folder)
        is_within = call.is_stopped_within(file, len(text))
        if is_within:
            change(folder)
        if call.ran.poll() is None:
            call.ran.send_signal(signal.SIGCONT)
        got = call.answer()
        if is_within:
            return faults_of(got, (0, "yes ratio 512000000 set all\n", "")) + faults_of(Call(program, ["check", "c"], folder).answer(), afterwards)
    return [f"the program was not stopped while it read, at {TURNS} calls"]


def replaced(program, folder):
    def change(at):
        os.rename(os.path.join(at, "d"), os.path.join(at, "c"))

    return faults_while_read(program, folder, change, (1, NO, ""))


def deleted(program, folder):
    return faults_while_read(program, folder, lambda at: os.remove(os.path.join(at, "c")), UNREAD)


def faults_of_pipes(program, folder, words, texts, wanted):
    """What is wrong with a call over named pipes, into which these texts go one after the other."""
    for name in texts:
        os.mkfifo(os.path.join(folder, name))
    call = Call(program, words, folder)
    for name, text in texts.items():
        call.feed(os.path.join(folder, name), text)
    return faults_of(call.answer(), wanted)


def named_pipe(program, folder):
    return faults_of_pipes(program, folder, ["check", "c"], {"c": SMALLEST}, (0, YES, ""))


def long_pipe(program, folder):
    return faults_of_pipes(program, folder, ["check", "c"], {"c": large_certificate(1, 128)}, (0, "yes ratio 512000000 set all\n", ""))


def two_pipes(program, folder):
    return faults_of_pipes(program, folder, ["check", "c", "t"], {"c": SMALLEST, "t": TOPOLOGY}, (0, YES, ""))


def pipe_named_twice(program, folder):
    return faults_of_pipes(program, folder, ["check", "c", "c"], {"c": SMALLEST}, UNREAD)


def standard_input(program, folder):
    call = Call(program, ["check", "/dev/stdin"], folder, stdin=subprocess.PIPE)
    return faults_of(call.answer(SMALLEST.encode()), (0, YES, ""))


def standard_input_twice(program, folder):
    call = Call(program, ["check", "/dev/stdin", "/dev/stdin"], folder, stdin=subprocess.PIPE)
    return faults_of(call.answer(SMALLEST.encode()), UNREAD)


def a_folder(program, folder):
    return faults_of(Call(program, ["check", "."], folder).answer(), UNREAD)


# Words, and what they answer over the files of `write_answered`.
ANSWERED = [
    (["check", "c"], (0, YES, "")),
    (["check", "less"], (1, NO, "")),
    (["convert", "c"], (0, SMALLEST.replace("ratio 1\n", "ratio 2\n", 1), "")),
    ([], (2, "", "usage\n")),
    (["check", "twice"], (3, "", "refused: twice: rule V1 at 1\n")),
    (["check", "none"], UNREAD),
]


def write_answered(folder):
    write_files(folder, {"c": SMALLEST, "less": SMALLEST_WITH_LESS, "twice": TWICE_A_NAME})


def faults_of_output(program, folder, redirection):
    """What is wrong where nothing can be written to the standard output: an answer there ends with 5, and a message is as it was."""
    write_answered(folder)
    faults = []
    for words, wanted in ANSWERED:
        faults += faults_of(in_shell(program, words, folder, redirection), UNWRITTEN if wanted[1] else wanted)
    with open(os.path.join(folder, "c"), encoding="ascii") as file:
        return faults + ["the file that was read is another now"] * (file.read() != SMALLEST)


def faults_of_messages(program, folder, redirection):
    """What is wrong where nothing can be written to the standard error: the status and the standard output are as they were."""
    write_answered(folder)
    return [it for words, wanted in ANSWERED for it in faults_of(in_shell(program, words, folder, redirection), (*wanted[:2], ""))]


def is_device():
    return os.path.exists(FULL) and stat.S_ISCHR(os.stat(FULL).st_mode)


def full_output(program, folder):
    return faults_of_output(program, folder, f">{FULL}") if is_device() else []


def full_error(program, folder):
    return faults_of_messages(program, folder, f"2>{FULL}") if is_device() else []


def closed_output(program, folder):
    return faults_of_output(program, folder, ">&-")


def closed_error(program, folder):
    return faults_of_messages(program, folder, "2>&-")


def no_streams(program, folder):
    write_answered(folder)
    return [
        it for words, wanted in ANSWERED
        for it in faults_of(in_shell(program, words, folder, "<&- >&- 2>&-")[0], 5 if wanted[1] else wanted[0])
    ]


def file_that_fills(program, folder):
    """A file of which the system takes a part, as a disk that is nearly full does."""
    text = large_certificate(2, 40)
    write_files(folder, {"c": text})
    most = 100_000
    # A write beyond the limit fails, since Python ignores the signal for it and the program inherits that.
    limits = {"preexec_fn": lambda: resource.setrlimit(resource.RLIMIT_FSIZE, (most, most)), "restore_signals": False}
    with open(os.path.join(folder, "out"), "wb") as out:
        got = Call(program, ["convert", "c"], folder, stdout=out, **limits).answer()
    with open(os.path.join(folder, "out"), encoding="ascii") as out:
        return faults_of(got, UNWRITTEN) + ["what was written is not the beginning of the text"] * (out.read() != text[:most])


def read_by(program, folder, amount):
    """What a reader got that ends after so many bytes, or at the end of the text, over a pipe with room for a page; and the answer."""
    text = large_certificate(2, 40)
    write_files(folder, {"c": text})
    above, below = os.pipe()
    with contextlib.suppress(OSError):
        fcntl.fcntl(below, SET_PIPE_SIZE, PAGE)
    with os.fdopen(above, "rb") as reader:
        call = Call(program, ["convert", "c"], folder, stdout=below)
        os.close(below)
        got = reader.read(len(text) if amount is None else amount)
    return call.answer(), got.decode() == text[:amount]


def reader_that_ends(program, folder):
    got, is_beginning = read_by(program, folder, 10_000)
    return faults_of(got, UNWRITTEN) + ["what was read is not the beginning of the text"] * (not is_beginning)


def reader_that_reads_nothing(program, folder):
    return faults_of(read_by(program, folder, 0)[0], UNWRITTEN)


def reader_that_goes_on(program, folder):
    got, is_whole = read_by(program, folder, None)
    return faults_of(got, (0, "", "")) + ["what was read is not the text"] * (not is_whole)


CASES = [
    ("a file that is replaced while it is read", replaced),
    ("a file that is deleted while it is read", deleted),
    ("a named pipe", named_pipe),
    ("a named pipe with more than is kept of it", long_pipe),
    ("two named pipes", two_pipes),
    ("a pipe named twice", pipe_named_twice),
    ("the standard input", standard_input),
    ("the standard input named twice", standard_input_twice),
    ("a folder in the place of a file", a_folder),
    ("a full device as standard output", full_output),
    ("a full device as standard error", full_error),
    ("a file that takes a part of the text", file_that_fills),
    ("a closed standard output", closed_output),
    ("a closed standard error", closed_error),
    ("no stream that is open", no_streams),
    ("a reader that ends early", reader_that_ends),
    ("a reader that reads nothing", reader_that_reads_nothing),
    ("a reader of a page at a time", reader_that_goes_on),
]


def cases(program):
    """The name of each case, and what is wrong with it; each in a folder of its own."""
    for name, faults in CASES:
        with tempfile.TemporaryDirectory() as folder:
            yield name, faults(program, folder)
