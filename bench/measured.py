"""The programs that the scripts of this folder measure: how they are built, what they print, and what a run of one takes."""
import argparse
import ctypes
import os
import signal
import subprocess
import sys
import tempfile

TOP = os.path.dirname(os.path.dirname(os.path.abspath(__file__)))
SAMPLE = os.path.join(TOP, "crates", "yates", "data", "c")
# Of the system call `prctl`: a process whose parent has ended becomes a child of this one.
SET_CHILD_SUBREAPER = 36
# The shell ends at once. What it leaves behind begins with the words when the shell's input is closed, and prints to the file in `$0`.
BEGIN = 'exec 3<&0; (read go <&3; exec "$@" 3<&- < /dev/null > "$0") & echo $!'


class Run:
    """What a program printed, its processor time in seconds, of the user and the system together, and its peak of memory in bytes. Both are
    of this program alone.
    """

    def __init__(self, out, seconds, peak):
        self.out, self.seconds, self.peak = out, seconds, peak


def begin(words, folder, out, err, limit):
    """Begins a program by way of a shell, since the peak of what Python itself begins is at least that of Python. Its number."""
    ctypes.CDLL(None).prctl(SET_CHILD_SUBREAPER, 1, 0, 0, 0)
    script = f"ulimit -t {limit}; {BEGIN}" if limit else BEGIN
    with subprocess.Popen(["sh", "-c", script, out, *words], cwd=folder, stdin=subprocess.PIPE, stdout=subprocess.PIPE, stderr=err) as shell:
        number = int(shell.stdout.readline())
        # What the shell has left is a child of this process from here on, and not before.
        shell.wait()
    return number


def wait(number):
    """Waits for a program. Its status, less than 0 where a signal ended it, and what it used."""
    try:
        _, ended, used = os.wait4(number, 0)
    except BaseException:
        os.kill(number, signal.SIGKILL)
        raise
    return -os.WTERMSIG(ended) if os.WIFSIGNALED(ended) else os.WEXITSTATUS(ended), used


def run(*words, wanted=(0,), folder=None, out=None, limit=None):
    """Runs a program. What it prints goes to the file `out` where one is named, and is then no part of the answer. Where it ends with a status that
    is none of those that are wanted, or would take more seconds than the limit, the script ends with 1.
    """
    with tempfile.NamedTemporaryFile() as printed, tempfile.TemporaryFile() as err:
        status, used = wait(begin(words, folder, os.path.abspath(out or printed.name), err, limit))
        if status not in wanted:
            err.seek(0)
            sys.exit(f"{' '.join(words)} ended with {status}: {err.read().decode('utf-8', 'replace')}")
        return Run(printed.read(), used.ru_utime + used.ru_stime, used.ru_maxrss * 1024)


def best_run(times, *words, **choices):
    """The run with the least processor time of so many."""
    return min((run(*words, **choices) for _ in range(times)), key=lambda it: it.seconds)


def build(*words, folder=None):
    """Builds a program by running it, which may take long and says on the standard error how far it is."""
    ran = subprocess.run(words, cwd=folder, stdin=subprocess.DEVNULL, stdout=subprocess.DEVNULL, check=False)
    if ran.returncode:
        sys.exit(f"{' '.join(words)} ended with {ran.returncode}")


def yates():
    """The program, which is built where it is missing or older than a source."""
    build(os.path.join(TOP, "yates"), "check", SAMPLE)
    return os.path.join(TOP, "crates", "yates", "out", "yates")


def built_program(name):
    """The file of a built program, as a word of a script."""
    if not (os.path.isfile(name) and os.access(name, os.X_OK)):
        raise argparse.ArgumentTypeError(f"{name} is no program")
    return os.path.abspath(name)


def measure():
    """The program of the crate `measure`, which runs calls of the libraries that no command has alone."""
    folder = os.path.join(TOP, "crates", "measure")
    build("rt", "run", "--", "each", folder=folder)
    return os.path.join(folder, "out", "measure")


def with_aim(quotient, aim):
    """A quotient, and where there is an aim whether it is met."""
    return f"quotient {quotient:.2f}" + (f" (aim {aim:.2f}: {'met' if quotient <= aim else 'not met'})" if aim else "")


class Aims:
    """Of each aim the case that comes nearest to it, or misses it most."""

    def __init__(self):
        self.worst = {}

    def add(self, aim, value, most, case):
        """The value of a case, and the greatest one that is aimed at."""
        if aim not in self.worst or value / most > self.worst[aim][0] / self.worst[aim][1]:
            self.worst[aim] = value, most, case

    def lines(self):
        for aim, (value, most, case) in self.worst.items():
            yield f"{'met' if value <= most else 'not met'}: {aim}: {value:.3f}, aim {most:.3f} ({case})"


def usage(script_doc):
    """Prints how a script is called. Its status."""
    print(script_doc.split("\n\n")[1], file=sys.stderr)
    return 2
