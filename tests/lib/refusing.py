"""Runs of the program in which calls of the system are refused, one after another. Its calls are counted by a library
that is loaded into it (`refuse.c`), which the kit's own compiler makes. A test that makes thousands of short runs makes
them by this library, too, refused or not: it has one process load the program, and copies that for each run."""

import os
import signal
import socket
import struct
import subprocess
import sys
import tempfile
import threading
from collections import namedtuple
from errno import EAGAIN, EIO, ENOMEM, ENOSPC, EPERM, EWOULDBLOCK
from signal import SIGKILL, SIGSTOP

sys.dont_write_bytecode = True
from lib.program import LATEST, REDO, Case, Run, run

# The kinds of calls, as `refuse.c` numbers them, each with the error that a refused one answers.
KINDS = {
    "memory": ENOMEM,
    "thread": EAGAIN,
    "open": EIO,
    "look": EIO,
    "list": EIO,
    "read": EIO,
    "write": ENOSPC,
    "say": EIO,
    "rename": EIO,
    "remove": EIO,
    "sync": EIO,
    "lock": EWOULDBLOCK,
    "mode": EPERM,
}
WITHOUT_END = 2**63
# In place of an error: the program gets a signal at the call, by which it ends, or waits before the call is made.
SIGNALS = 4096
KILLED, STOPPED = SIGNALS + SIGKILL, SIGNALS + SIGSTOP

# How many calls of each kind a run made, and how many of them were refused.
Counts = namedtuple("Counts", [*KINDS, "refused"])
# The wait status of a run and its counts, as the library answers them.
ANSWER = struct.Struct(f"=i4x{len(Counts._fields)}Q")
# The library takes no longer command lines, in bytes and in words.
MOST_BYTES, MOST_WORDS = 1 << 16, 4000


def default_signals():
    """A shell lets what it runs behind itself pass over an interrupt."""
    for number in signal.SIGINT, signal.SIGTERM:
        signal.signal(number, signal.SIG_DFL)


class Loaded:
    """A process that has loaded the program and hasn't begun it. For each run it makes a copy of itself, whose standard
    input, output and error are files in memory."""

    def __init__(self, library, program):
        self.program = os.fsencode(program)
        self.files = [os.memfd_create(name) for name in ("in", "out", "said")]
        self.socket, theirs = socket.socketpair(socket.AF_UNIX, socket.SOCK_SEQPACKET)
        input, out, said = self.files
        self.process = subprocess.Popen(
            [program], stdin=input, stdout=out, stderr=said, pass_fds=[theirs.fileno()], start_new_session=True,
            preexec_fn=default_signals, env={**os.environ, "LD_PRELOAD": library, "AGAIN": str(theirs.fileno())})
        theirs.close()

    def run(self, words, text, refuse, latest):
        """Makes a run with what the library is told in REFUSE. Answers what it came to, and the counts."""
        for file in self.files:
            os.ftruncate(file, 0)
            os.lseek(file, 0, os.SEEK_SET)
        input, out, said = self.files
        if text:
            os.write(input, text)
            os.lseek(input, 0, os.SEEK_SET)
        self.socket.settimeout(latest)
        self.socket.send(b"\0".join([refuse.encode(), self.program, *words, b""]))
        status, *counts = ANSWER.unpack(self.socket.recv(ANSWER.size))
        texts = [os.pread(file, os.fstat(file).st_size, 0) for file in (out, said)]
        return Run(os.waitstatus_to_exitcode(status), *texts), Counts._make(counts)

    def end(self):
        """It ends, and its last run, where that is still at work."""
        os.killpg(self.process.pid, SIGKILL)
        self.process.wait()
        self.socket.close()
        for file in self.files:
            os.close(file)


def library(room, name):
    """Makes the library of this name, which is loaded into the program, in a directory. Answers its path."""
    kit = os.path.dirname(subprocess.run(["rt", "doc"], stdout=subprocess.PIPE, check=True).stdout.decode())
    source = os.path.join(os.path.dirname(os.path.abspath(__file__)), name + ".c")
    how = "-shared -fPIC -O2 -nostdlib -fuse-ld=lld".split()
    subprocess.run([kit + "/toolchain/bin/clang", *how, "-o", f"{room}/{name}.so", source], check=True)
    return f"{room}/{name}.so"


class Refusing:
    """A library that refuses calls."""

    def __init__(self):
        self.room = tempfile.TemporaryDirectory()
        self.library = library(self.room.name, "refuse")
        # Each thread has a process of its own for each program.
        self.own, self.loaded = threading.local(), []

    def close(self):
        for it in self.loaded:
            it.end()
        self.room.cleanup()

    @staticmethod
    def refuse(kind, first, last=None, error=None, most=WITHOUT_END):
        """What the library is told: the calls of a kind are refused from the first to the last, or the first alone, and
        reads and writes move so many bytes at most. Where one of these two is refused, the other moves all."""
        error = KINDS[kind] if error is None else error
        return " ".join(map(str, [list(KINDS).index(kind), first, last or first, error, most]))

    def told(self, *refuse, **more):
        """The environment of a run of which calls are refused, as `refuse` says, and the file of the counts."""
        counts = f"{self.room.name}/{threading.get_ident()}"
        with open(counts, "wb") as file:
            file.write(bytes(8 * len(Counts._fields)))
        told = {"LD_PRELOAD": self.library, "REFUSE": self.refuse(*refuse, **more), "COUNTS": counts}
        return {**os.environ, **told}, counts

    def run(self, words, text, kind, first, last=None, error=None, most=WITHOUT_END, program=REDO, timeout=LATEST,
            **more):
        """Runs the program where calls are refused, as `refuse` says. Answers what it came to, and the counts. It is
        started like any other where it is to begin in another way than with files in memory."""
        encoded = [os.fsencode(word) for word in words]
        is_long = len(words) > MOST_WORDS or sum(map(len, encoded)) > MOST_BYTES
        if is_long or more not in ({}, {"stdin": subprocess.DEVNULL}):
            environment, counts = self.told(kind, first, last, error, most)
            found = run(words, text, program, env=environment, timeout=timeout, **more)
            with open(counts, "rb") as file:
                return found, Counts._make(struct.unpack(f"={len(Counts._fields)}Q", file.read()))
        loaded = self.own.__dict__
        if program not in loaded:
            loaded[program] = Loaded(self.library, program)
            self.loaded.append(loaded[program])
        try:
            return loaded[program].run(encoded, text, self.refuse(kind, first, last, error, most), timeout)
        except TimeoutError:
            self.loaded.remove(loaded[program])
            loaded.pop(program).end()
            raise subprocess.TimeoutExpired(words, timeout) from None

    def plain(self, words, text=b"", **more):
        """What a run comes to in which nothing is refused."""
        return self.run(words, text, "say", WITHOUT_END, **more)[0]


class RefusingCase(Case):
    """Tests in which calls are refused."""

    @classmethod
    def setUpClass(cls):
        cls.refusing = Refusing()
        cls.addClassCleanup(cls.refusing.close)


class SweepingCase(RefusingCase):
    """Tests that make so many runs that each of them, refused calls or not, is one of a program that is loaded."""

    def ran(self, words, text, **more):
        return self.refusing.plain(words, text, **more)
