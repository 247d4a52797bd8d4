"""The program as a server that divides for each call: the start of a process is nearly all that a small call takes, and here it is made once."""
import os
import signal
import struct

from . import program

# How many bytes of a call follow. Of its answer the status, the processor time in microseconds, and the bytes of each stream.
SIZE, ANSWER = struct.Struct("q"), struct.Struct("4q")
# What the library takes of a call at most.
MOST_BYTES, MOST_WORDS = 1 << 16, 510


class ForkServer:
    """The program over the library, stopped before anything of it runs. A call has this many seconds. Its streams are two files in memory."""

    def __init__(self, library, seconds):
        self.streams = [os.memfd_create(name) for name in ("out", "err")]
        asked, self.calls = os.pipe()
        self.answers, answers = os.pipe()
        for end in (asked, answers):
            os.set_inheritable(end, True)
        environment = {**os.environ, "LD_PRELOAD": library, "FORK_SERVER": f"{asked} {answers} {seconds}"}
        self.process, self.end = program.start([], None, *self.streams, environment)
        os.close(asked)
        os.close(answers)

    def answer(self, words, folder):
        """What the program answers to these words in this folder, or None where the server cannot take the call."""
        call = b"".join(os.fsencode(text) + b"\0" for text in (os.path.abspath(folder or "."), *words))
        if len(call) > MOST_BYTES or len(words) > MOST_WORDS:
            return None
        os.write(self.calls, SIZE.pack(len(call)) + call)
        said = os.read(self.answers, ANSWER.size)
        if len(said) != ANSWER.size:
            raise RuntimeError("the server has ended")
        status, time, *lengths = ANSWER.unpack(said)
        if status == -signal.SIGALRM:
            return program.Answer(b"", "", None)
        out, err = (os.pread(stream, length, 0) if length else b"" for stream, length in zip(self.streams, lengths))
        return program.Answer(out, err.decode("utf-8", "replace"), status, time / 1e6)

    def close(self):
        for end in (self.calls, self.answers, *self.streams):
            os.close(end)
        program.wait(self.process, self.end, None)
