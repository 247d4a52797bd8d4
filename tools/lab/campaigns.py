"""A campaign: cases that are drawn by a seed and their numbers, tried one after another, and kept where something is wrong with them.

A kind of campaign is a module with `case(seed, number)`, which gives the files of a case, `judge(files, folder, number)`, which gives a word for
what was found, and what is wrong, over a folder with these files, the `SEPARATOR` of the tokens of a line, and how many cases a campaign has, its
`CASES_OF_CAMPAIGN`. Where so many cases in a row are drawn together, the number is its `OF_ONE`.
"""
import collections
import json
import multiprocessing
import os
import shutil
import signal
import sys
import time

from . import program
from .changes import smaller
from .folders import write_files
from .fork_server import ForkServer

# How many cases one process takes at a time where its kind does not draw them together, how often a case is tried to make it smaller, and the bytes that are tried so at most.
TOGETHER, TRIES, TRIED_BYTES = 16, 400, 2_000_000_000
UNJUDGED = "not judged"
# What a call may take of the processor, and of time on a machine that does much besides.
PROCESSOR_SECONDS, SECONDS = 15, 600


def faults_of_time(words, got):
    """What is wrong with a call that takes long."""
    is_late = got.status is None or got.seconds > PROCESSOR_SECONDS
    return [f"{words[0]}: {got.seconds:.0f} seconds of the processor, or no end"] if is_late else []


class Record:
    """How far a campaign is: the next case, how many there were of each word, how many differ, and the seconds so far."""

    def __init__(self, folder):
        self.folder, self.file = folder, os.path.join(folder, "record.json")
        self.next, self.words, self.differences, self.seconds = 0, collections.Counter(), 0, 0.0
        if os.path.exists(self.file):
            with open(self.file, encoding="ascii") as file:
                found = json.load(file)
            self.next, self.differences, self.seconds = found["next"], found["differences"], found["seconds"]
            self.words.update(found["words"])

    def write(self):
        """Writes the record, so that one which is interrupted leaves the one before."""
        found = {"next": self.next, "words": dict(self.words), "differences": self.differences, "seconds": round(self.seconds, 1)}
        with open(self.file + ".new", "w", encoding="ascii") as file:
            json.dump(found, file)
        os.replace(self.file + ".new", self.file)

    def line(self):
        words = ", ".join(f"{word} {count}" for word, count in sorted(self.words.items()))
        rate = f"{self.next / self.seconds:.0f} a second" if self.seconds else "none in this time"
        return f"{self.next} cases ({words}), {self.differences} differences; {self.seconds:.0f} s, {rate}"


class Campaign:
    """A kind by the name of its module, which another process can be sent, the seed, the folder in which what differs is kept, one in which
    each process writes its files, and the library of `fork_server.c`, where the program answers over it.
    """

    def __init__(self, kind, seed, folder, work, library=None):
        self.name, self.seed, self.folder, self.work, self.library = kind.__name__, seed, folder, work, library

    @property
    def kind(self):
        return sys.modules[self.name]

    def judged(self, files, number):
        """The word and what is wrong, over a folder with these files alone."""
        folder = os.path.join(self.work, str(os.getpid()))
        os.makedirs(folder, exist_ok=True)
        for name in os.listdir(folder):
            os.remove(os.path.join(folder, name))
        write_files(folder, files)
        try:
            return self.kind.judge(files, folder, number)
        # A million cases do not end at one of which the second reader makes nothing.
        except Exception as error:
            return UNJUDGED, [f"{type(error).__name__}: {error}"]

    def of_case(self, number):
        """The word of a case and what is wrong; one that differs is kept, and made smaller."""
        files = self.kind.case(self.seed, number)
        word, faults = self.judged(files, number)
        if faults:
            self.keep(number, files, faults)
        return word, faults

    def keep(self, number, files, faults):
        folder = os.path.join(self.folder, str(number))
        for name, content, said in (("drawn", files, faults), ("smaller", *self.smaller(files, number, faults))):
            at = os.path.join(folder, name)
            shutil.rmtree(at, ignore_errors=True)
            os.makedirs(at)
            write_files(at, content)
            write_files(folder, {f"{name}.txt": "\n".join(said) + "\n"})

    def smaller(self, files, number, faults):
        """The files without what they do not need so that the same is wrong, and what is then wrong."""
        first, tries = faults[0].partition(":")[0], min(TRIES, TRIED_BYTES // (1 + sum(len(it) for it in files.values() if it)))
        for name, data in files.items():
            def fails(changed, name=name):
                found = self.judged({**files, name: changed}, number)[1]
                return bool(found) and found[0].partition(":")[0] == first

            if data:
                files = {**files, name: smaller(data, self.kind.SEPARATOR, fails, tries)}
        return files, self.judged(files, number)[1]

    def of_range(self, numbers):
        """The words of these cases, and the numbers of those that differ with what is wrong."""
        words, different = collections.Counter(), []
        for number in range(*numbers):
            word, faults = self.of_case(number)
            words[word] += 1
            if faults:
                different.append((number, faults))
        return numbers[1], words, different


def ranges(first, last, together):
    return [(start, min(last, start + together)) for start in range(first, last, together)]


def begin(library):
    """Only the first process ends by an interruption, and the others with it. Each of them has a server of its own, where there is a library."""
    signal.signal(signal.SIGINT, signal.SIG_IGN)
    program.SERVER = ForkServer(library, SECONDS) if library else None


def run(campaign, cases, jobs, minutes, tell):
    """Goes on with a campaign up to so many cases, or for so many minutes. What differs is told, and the record is returned."""
    os.makedirs(campaign.folder, exist_ok=True)
    record, start = Record(campaign.folder), time.monotonic()
    before = record.seconds
    with multiprocessing.Pool(jobs, begin, (campaign.library,)) as pool:
        together = getattr(campaign.kind, "OF_ONE", TOGETHER)
        for last, words, different in pool.imap(campaign.of_range, ranges(record.next, cases, together)):
            record.next, record.seconds = last, before + time.monotonic() - start
            record.words.update(words)
            record.differences += len(different)
            for number, faults in different:
                tell(f"{os.path.join(campaign.folder, str(number))}: {faults[0]}"[:400])
            record.write()
            if minutes is not None and time.monotonic() - start > 60 * minutes:
                break
    return record
