"""Calls at places that are full, slow, missing or not allowed: a file system without room, a pipe whose reader is slow, files that cannot be
opened, a device without an end, more words than a command has, and a stack of the least size that README names. What they have to answer is
what docs/FORMATS.md says of the statuses.
"""
import os
import resource
import shutil
import subprocess
import tempfile
import time

from .certificates import SMALLEST
from .folders import write_files
from .limits import CALLS, GOOD
from .real_files import UNREAD, UNWRITTEN, YES, Call, faults_of, large_certificate

NOBODY = 65534
# In bytes: what each command does with.
STACK = 256 << 10


def full_file_system(program, folder):
    """Where a file system of 1 MB can be mounted, a text of more than that does not fit into it, nor does its first byte once it is full."""
    if os.geteuid() != 0 or shutil.which("unshare") is None:
        return []
    text = large_certificate(2, 40)
    write_files(folder, {"c": text})
    os.mkdir(os.path.join(folder, "disk"))
    script = (
        'mount -t tmpfs -o size=1m none disk || exit 70; "$0" convert c >disk/out; echo $? >status; head -c 2000000 disk/out >got; '
        '"$0" check c >disk/more; echo $? >second; cat disk/more >more'
    )
    ran = subprocess.run(["unshare", "-m", "sh", "-c", script, program], cwd=folder, stdout=subprocess.PIPE, stderr=subprocess.PIPE, check=False)
    if ran.returncode == 70 or not os.path.exists(os.path.join(folder, "status")):
        return []
    statuses = [read(folder, name) for name in ("status", "second")]
    got, more = read(folder, "got"), read(folder, "more")
    faults = faults_of((statuses, ran.stderr.decode()), (["5\n", "5\n"], "fault: write\n" * 2))
    return faults + ["what was written is not the beginning of the text"] * (not text.startswith(got) or len(got) < 500_000) + ["more was written"] * bool(more)


def read(folder, name):
    with open(os.path.join(folder, name), encoding="ascii") as file:
        return file.read()


def slow_reader(program, folder):
    """A pipe that does not wait and is full: what was written is the beginning of the text."""
    text = large_certificate(2, 40)
    write_files(folder, {"c": text})
    above, below = os.pipe()
    os.set_blocking(below, False)
    with os.fdopen(above, "rb") as reader:
        call = Call(program, ["convert", "c"], folder, stdout=below)
        os.close(below)
        answer = call.answer()
        got = reader.read()
    return faults_of(answer, UNWRITTEN) + ["what was read is not the beginning of the text"] * (not got or got.decode() == text or not text.startswith(got.decode()))


def late_reader(program, folder):
    """A pipe that waits, and a reader that begins late and pauses: it gets the whole text."""
    text = large_certificate(2, 40)
    write_files(folder, {"c": text})
    above, below = os.pipe()
    with os.fdopen(above, "rb") as reader:
        call = Call(program, ["convert", "c"], folder, stdout=below)
        os.close(below)
        got = b""
        while True:
            time.sleep(0.01)
            piece = reader.read1(100_000)
            if not piece:
                break
            got += piece
    return faults_of(call.answer(), (0, "", "")) + ["what was read is not the text"] * (got.decode() != text)


def forbidden_file(program, folder):
    """A file that may not be read, by a user who is not the superuser."""
    shutil.copy(program, os.path.join(folder, "yates"))
    write_files(folder, {"c": SMALLEST})
    os.chmod(folder, 0o755)
    os.chmod(os.path.join(folder, "c"), 0)
    how = {"preexec_fn": lambda: os.setuid(NOBODY)} if os.geteuid() == 0 else {}
    return faults_of(Call(os.path.join(folder, "yates"), ["check", "c"], folder, **how).answer(), UNREAD)


def loop_of_links(program, folder):
    os.symlink("d", os.path.join(folder, "c"))
    os.symlink("c", os.path.join(folder, "d"))
    return faults_of(Call(program, ["check", "c"], folder).answer(), UNREAD)


def long_names(program, folder):
    """The longest name that the system opens, one byte more, and 5,000 bytes."""
    write_files(folder, {"c": SMALLEST})
    lengths = {4095: (0, YES, ""), 4096: UNREAD, 5000: UNREAD}
    names = {"./" + "/" * (length - 3) + "c": wanted for length, wanted in lengths.items()}
    return [it for name, wanted in names.items() for it in faults_of(Call(program, ["check", name], folder).answer(), wanted)]


def empty_name(program, folder):
    return faults_of(Call(program, ["check", ""], folder).answer(), UNREAD)


def endless_device(program, folder):
    """It is read up to the limit and one byte more."""
    return faults_of(Call(program, ["check", "/dev/zero"], folder).answer(), (3, "", "refused: /dev/zero: too long\n"))


def many_words(program, folder):
    return faults_of(Call(program, ["check"] * 300, folder).answer(), (2, "", "usage\n"))


def long_words(program, folder):
    return faults_of(Call(program, ["x" * 100_000], folder).answer(), (2, "", "usage\n"))


def name_with_a_line_feed(program, folder):
    """It stands in the message as it was given."""
    write_files(folder, {"a\nb": ""})
    return faults_of(Call(program, ["check", "a\nb"], folder).answer(), (3, "", "refused: a\nb: shape at line 1\n"))


def small_stack(program, folder):
    """Each call of the tables of limits, and a plan of 127 levels, answers as it does with more of the stack."""
    write_files(folder, {**GOOD, "n": '{"":' * 127 + "0" + "}" * 127})
    how = {"preexec_fn": lambda: resource.setrlimit(resource.RLIMIT_STACK, (STACK, STACK))}
    calls = [["run", "n"], *(words for _, of_kind in CALLS.values() for words in of_kind)]
    return [it for words in calls for it in faults_of(Call(program, words, folder, **how).answer(), Call(program, words, folder).answer())]


CASES = [
    ("a full file system", full_file_system),
    ("a full pipe that does not wait", slow_reader),
    ("a reader that begins late", late_reader),
    ("a file that may not be read", forbidden_file),
    ("a loop of links", loop_of_links),
    ("long names", long_names),
    ("an empty name", empty_name),
    ("a name with a line feed", name_with_a_line_feed),
    ("an endless device", endless_device),
    ("three hundred words", many_words),
    ("a long word", long_words),
    ("a small stack", small_stack),
]


def cases(program, named=()):
    """The name of each case, and what is wrong with it; each in a folder of its own. With names those alone that have one of these words."""
    for name, faults in CASES:
        if not named or any(it in name for it in named):
            with tempfile.TemporaryDirectory() as folder:
                yield name, faults(program, folder)
