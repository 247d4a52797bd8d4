"""Calls of the program in which calls of the system fail, and what has to be left of each: docs/FORMATS.md, of the statuses 4, 5 and 6."""
import collections
import contextlib
import errno
import os
import struct

from . import program

# The library, and the calls that it counts, in its order.
LIBRARY = "failing_calls"
KINDS = ("memory", "open", "lseek", "read", "out", "err")
# What the library reports of a child: its failure, the number of the call, its status, and how long its texts are.
CHILD, NUMBER = struct.Struct("5q"), struct.Struct("q")
# At the end, behind a number that is no failure, how many calls of each kind were made, and how many requests for memory came before each of the
# first files that were opened.
NO_FAILURE, COUNTS = -1, struct.Struct(f"{len(KINDS) + 8}q")
ALWAYS = 2**62
# What a call may take before it is ended. How often the program makes a call again that a signal interrupted.
SECONDS, TRIES = 120, 100


class Failure(collections.namedtuple("Failure", "kind error times judge", defaults=(1, None))):
    """Which calls fail, with which error, and how many from one on; and what is wrong with an answer in place of the call's own."""

    @property
    def name(self):
        times = {1: "one", ALWAYS: "all from it on"}.get(self.times, f"{self.times} in a row")
        return f"{self.kind}, {times}, {errno.errorcode.get(self.error, 'no bytes')}"

    @property
    def numbers(self):
        return KINDS.index(self.kind), self.times, self.error


def is_as_it_was(own, got):
    return got == own


def is_without_memory(own, got):
    return got in (own, (6, b"", "fault: memory\n"))


def is_unread(_, got):
    return got == (4, b"", "fault: read\n")


def is_unopened(own, got):
    """Without memory to open a file it is one that could not be read."""
    return is_without_memory(own, got) or is_unread(own, got)


def is_cut_short(own, got):
    """A beginning of the text and not all of it."""
    return (got[0], got[2]) == (5, "fault: write\n") and len(got[1]) < len(own[1]) and own[1].startswith(got[1])


def is_without_message(own, got):
    return got[:2] == own[:2] and own[2].startswith(got[2])


READ_ERRORS = (errno.EIO, errno.ENOSPC, errno.EAGAIN)
FAILURES = [
    *(Failure("memory", errno.ENOMEM, times, is_without_memory) for times in (1, ALWAYS)),
    *(Failure(kind, error, times, is_unread) for kind in ("open", "lseek", "read") for error in READ_ERRORS for times in (1, ALWAYS)),
    # An `open` that a signal interrupts is made again until none does.
    *(Failure("open", errno.EINTR, times, is_as_it_was) for times in (1, TRIES + 1)),
    *(Failure(kind, errno.EINTR, times, is_as_it_was) for kind in ("lseek", "read", "out") for times in (1, TRIES - 1)),
    *(Failure(kind, errno.EINTR, TRIES + 1, is_unread) for kind in ("lseek", "read")),
    Failure("out", errno.EINTR, TRIES + 1, is_cut_short),
    *(Failure("out", error, times, is_cut_short) for error in (*READ_ERRORS, 0) for times in (1, ALWAYS)),
    *(Failure("err", error, times, is_without_message) for error in (*READ_ERRORS, 0, errno.EINTR) for times in (1, ALWAYS)),
]
# The most bytes of a read or a write.
PIECES = (1, 7, 4095)


class Counted(program.Answer):
    """An answer, how many calls of each kind were made, none where the program did not come to its end, the requests for memory by which the
    system's library opened a file, and what was found of the calls that failed: the failure, the number of the call, and what was answered.
    """

    def __init__(self, out, err, status, numbers=(), failed=()):
        super().__init__(out, err, status)
        self.counts, self.requests_to_open, self.failed = dict(zip(KINDS, numbers)), set(numbers[len(KINDS):]) - {0}, failed

    @property
    def told(self):
        return self.status, self.out, self.err


def memory_file(name, data=b""):
    """A file in memory, which a child keeps open."""
    file = os.fdopen(os.memfd_create(name, 0), "r+b")
    file.write(data)
    file.flush()
    return contextlib.closing(file)


def order(most, step):
    """What the library reads: which of the calls of each kind have to fail, and in which ways."""
    numbers = [most, step, SECONDS, len(FAILURES), *(number for failure in FAILURES for number in failure.numbers)]
    return struct.pack(f"{len(numbers)}q", *numbers)


def read_report(file):
    """What the library found of the calls that failed, and its counts, of which there are none where the program did not come to its end."""
    failed, numbers = [], ()
    while first := file.read(NUMBER.size):
        if NUMBER.unpack(first) == (NO_FAILURE,):
            numbers = COUNTS.unpack(file.read(COUNTS.size))
            break
        place, number, status, *lengths = CHILD.unpack(first + file.read(CHILD.size - NUMBER.size))
        out, err = (file.read(length) for length in lengths)
        failed.append((FAILURES[place], number, (status, out, err.decode("utf-8", "replace"))))
    return failed, numbers


def answer(library, words, folder, piece=0, asked=b""):
    """What the program answers over the library, where a read or a write takes so many bytes at most, or any number for 0, and calls fail as is asked."""
    with memory_file("report") as report, memory_file("asked", asked) as orders:
        given = f"{piece} {orders.fileno() if asked else -1} {report.fileno()}"
        seconds = None if asked else SECONDS
        got = program.answer(words, folder, seconds, {**os.environ, "LD_PRELOAD": library, "FAILING_CALLS": given})
        report.seek(0)
        failed, numbers = read_report(report)
    return Counted(got.out, got.err, got.status, numbers, failed)


def places(count, most, step):
    """Which of so many calls are made to fail: the first, as many as `most`, and then one of every `step`."""
    return [*range(1, min(count, most) + 1), *range(most + step, count + 1, step)]


def faults_of_failed(own, got):
    """What is wrong with each call that failed, one line for each; nothing where it left what it has to."""
    for failure, place, told in got.failed:
        is_to_open = failure.kind == "memory" and place in own.requests_to_open
        judge = is_unopened if is_to_open else failure.judge
        yield "" if judge(own.told, told) else f"{failure.name}, call {place}: status {told[0]}, {told[1][:60]!r}, {told[2]!r}"


def faults_of_whole(own, got, most, step):
    """What is wrong with the call itself, in which nothing failed, and with the choice of calls that did."""
    faults = [] if (got.told, got.counts) == (own.told, own.counts) else [f"where children fail: status {got.status}, {got.out[:60]!r}, {got.err!r}"]
    wanted = {(failure, place) for failure in FAILURES for place in places(own.counts.get(failure.kind, 0), most, step)}
    found = [(failure, place) for failure, place, _ in got.failed]
    return faults + ([] if len(found) == len(wanted) and set(found) == wanted else [f"{len(found)} calls failed in place of {len(wanted)}"])


def faults_of_piece(library, words, folder, own, piece):
    """What is wrong where a read or a write takes so many bytes at most."""
    got = answer(library, words, folder, piece)
    return [] if got.told == own.told else [f"pieces of {piece}: status {got.status}, {got.out[:60]!r}, {got.err!r}"]


def tried(library, words, folder, most, step):
    """The call's own answer, how many runs of the program were tried, and what is wrong with those of which something is."""
    own = answer(library, words, folder)
    if not own.counts:
        return own, 1, ["the library said nothing of the calls that were made"]
    got = answer(library, words, folder, asked=order(most, step))
    faults = [*faults_of_whole(own, got, most, step), *faults_of_failed(own, got)]
    faults += [fault for piece in PIECES for fault in faults_of_piece(library, words, folder, own, piece)]
    return own, 1 + len(got.failed) + len(PIECES), [fault for fault in faults if fault]
