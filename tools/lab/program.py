"""The built program."""
import contextlib
import os
import select
import signal

TOP = os.path.dirname(os.path.dirname(os.path.dirname(os.path.abspath(__file__))))
PROGRAM = os.path.join(TOP, "crates", "yates", "out", "yates")
# The signals that Python ignores and the program has to find as the system sets them.
IGNORED = (signal.SIGPIPE, signal.SIGXFSZ)
# What answers calls in the place of new processes, where a tool has set one up: a `ForkServer`.
SERVER = None


def is_built():
    return os.access(PROGRAM, os.X_OK)


class Answer:
    """What the program wrote, its status, and its processor time; no status where it was still at work after the seconds that it had."""

    def __init__(self, out, err, status, seconds=0.0):
        self.out, self.err, self.status, self.seconds = out, err, status, seconds


@contextlib.contextmanager
def working_in(folder):
    """This process works in the folder for the time being, since a child begins where its parent works."""
    if folder is None:
        yield
        return
    before = os.open(".", os.O_RDONLY)
    try:
        os.chdir(folder)
        yield
    finally:
        os.fchdir(before)
        os.close(before)


def start(words, folder, out, err, environment):
    """Starts the program with files as its streams: its process, and the end of a pipe that closes when it ends."""
    streams = [(os.POSIX_SPAWN_OPEN, 0, os.devnull, os.O_RDONLY, 0), (os.POSIX_SPAWN_DUP2, out, 1), (os.POSIX_SPAWN_DUP2, err, 2)]
    end, held = os.pipe()
    os.set_inheritable(held, True)
    try:
        with working_in(folder):
            return os.posix_spawn(PROGRAM, [PROGRAM, *words], environment, file_actions=streams, setsigdef=IGNORED), end
    except BaseException:
        os.close(end)
        raise
    finally:
        os.close(held)


def wait(child, end, seconds):
    """Waits for the child, and ends it where it is still at work after the seconds: whether it was, its status, and its use of the processor."""
    is_late = True
    try:
        waiting = select.poll()
        waiting.register(end, select.POLLIN)
        is_late = not waiting.poll(None if seconds is None else 1000 * seconds)
    finally:
        os.close(end)
        if is_late:
            os.kill(child, signal.SIGKILL)
        _, status, used = os.wait4(child, 0)
    return is_late, os.WEXITSTATUS(status) if os.WIFEXITED(status) else -os.WTERMSIG(status), used.ru_utime + used.ru_stime


def answer(words, folder=None, seconds=None, environment=None):
    """Runs the program on these words, in this folder. What it writes is kept in memory: no pipe has to be emptied while it runs, and the start of
    a process is nearly all that a small call takes. No other thread may need the folder of this process in the meantime.
    """
    served = SERVER.answer(words, folder) if SERVER and environment is None else None
    if served:
        return served
    with contextlib.closing(os.fdopen(os.memfd_create("out"), "rb")) as out, contextlib.closing(os.fdopen(os.memfd_create("err"), "rb")) as err:
        child, end = start(words, folder, out.fileno(), err.fileno(), os.environ if environment is None else environment)
        is_late, status, used = wait(child, end, seconds)
        if is_late:
            return Answer(b"", "", None)
        texts = []
        for stream in (out, err):
            # The child moved the place at which both of them are.
            stream.seek(0)
            texts.append(stream.read())
    return Answer(texts[0], texts[1].decode("utf-8", "replace"), status, used)
