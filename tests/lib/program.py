"""What the scripts beside this file share: the program under test, bundles, what a run came to, and the class of all
tests. A script runs by itself, too: `tests/builds -k ring -v` runs what has `ring` in its name, and tells of each."""

import os
import re
import shutil
import signal
import subprocess
import sys
import tempfile
import unittest
from collections import namedtuple
from threading import Timer

from lib.reports import BOOK, all_bytes, as_bytes, became, book_of, kept, new_book, parts, states, with_book, without_begun
from lib.tracked import TOP, room, room_in_memory, room_on_disk

# What a run came to: its exit status, and what it wrote on standard output and on standard error.
Run = namedtuple("Run", "status out said")

# What a run over a bundle came to: its exit status, and the report's text without the files, and the files.
Built = namedtuple("Built", "status head files")

# What a run took: its processor time in seconds, of all threads, and the most memory that it held, in MiB.
Took = namedtuple("Took", "seconds mib")
# With four workers a run may take so many times the processor time that it may take with one: those that find no job
# keep their processors busy, for as long as the machine holds up the one that has work.
SPINNING = 5


# A run that takes so many seconds hangs, also on a machine that does much else.
LATEST = 300
# Whether a script is to say more than what failed.
IS_TOLD = bool({"-v", "--verbose"} & {*sys.argv[1:]})


def find():
    """The program's path: what REDO names, or the one that bin/redo runs, which is built first where there is none."""
    named = os.environ.get("REDO")
    if named:
        return os.path.abspath(named)
    subprocess.run([TOP + "/bin/redo", "--version"], stdout=subprocess.DEVNULL, check=True)
    which = subprocess.run([TOP + "/bin/redo", "--built"], stdout=subprocess.PIPE, text=True, check=True).stdout
    return f"{TOP}/{which.partition(':')[0]}"


REDO = find()
# What bin/redo runs in a copy of the repository is told by the test, and so are options in the environment.
os.environ.pop("REDO_CHECKS", None)
os.environ.pop("REDOFLAGS", None)


def run(words, text=b"", program=REDO, **more):
    """Runs the program on the words of a command line, with a text on its standard input."""
    if "stdin" not in more:
        more["input"] = text
    more = {"stdout": subprocess.PIPE, "stderr": subprocess.PIPE, "timeout": LATEST, **more}
    done = subprocess.run([program, *words], check=False, **more)
    return Run(done.returncode, done.stdout, done.stderr)


def put_program(place):
    """Makes the program under test the one that bin/redo runs in a copy of the repository, as if it was built there."""
    os.makedirs(f"{place}/built", exist_ok=True)
    shutil.copy(REDO, f"{place}/built/redo")
    put(place, {"built/redo.sources": run(["--code"], program=f"{place}/bin/sources").out})


def prove_sources(place):
    """From now on the sources of such a copy are those that the gate has proved, and the program there was built from
    them without checks."""
    line = run([], program=f"{place}/bin/sources").out.strip() + b" rattle-kit-1a logic 0\n"
    put(place, {"proved.txt": line, "built/redo.sources": line})


def measured(words, text, seconds, **more):
    """Runs the program as `run` does, on a text or a file. Answers what it came to, and what it took. It is killed after
    so many seconds of wall time. The memory that it held is never less than what this process held before."""
    file = tempfile.TemporaryFile
    with file() as made, file() as out, file() as said:
        input = made if isinstance(text, bytes) else text
        if input is made:
            made.write(text)
        input.seek(0)
        child = subprocess.Popen([REDO, *words], stdin=input, stdout=out, stderr=said, **more)
        late = Timer(seconds, os.kill, (child.pid, signal.SIGKILL))
        late.start()
        _, ended, used = os.wait4(child.pid, 0)
        late.cancel()
        child.returncode = os.waitstatus_to_exitcode(ended)
        out.seek(0)
        said.seek(0)
        took = Took(used.ru_utime + used.ru_stime, used.ru_maxrss // 1024)
        return Run(child.returncode, out.read(), said.read()), took


def bundle(tree):
    """The bundle of a tree: each path, in order, with its content, or with None for a directory."""
    text = bytearray()
    for path, content in tree.items():
        if content is None:
            text += b"dir %s\n" % path.encode()
        else:
            content = as_bytes(content)
            text += b"file %d %s\n%s\n" % (len(content), path.encode(), content)
    return bytes(text + b"end\n")


def packed(tree):
    """The bundle of files and directories (None), whose paths may be bytes that aren't UTF-8, in any order."""
    text = bytearray()
    for path, content in sorted(tree.items(), key=lambda it: as_bytes(it[0])):
        if content is None:
            text += b"dir %s\n" % as_bytes(path)
        else:
            text += b"file %d %s\n%s\n" % (len(as_bytes(content)), as_bytes(path), as_bytes(content))
    return bytes(text + b"end\n")


def put(place, tree):
    """Makes the files and directories of a tree, as `bundle` takes it, in a directory."""
    for path, content in tree.items():
        if content is None:
            os.mkdir(f"{place}/{path}")
        else:
            with open(f"{place}/{path}", "wb") as file:
                file.write(as_bytes(content))


def changed(tree, changes):
    """A tree after changes, of which None takes a file away."""
    after = {**tree, **changes}
    return {path: content for path, content in after.items() if content is not None or path not in changes}


def change(place, changes):
    """Makes these changes in a directory."""
    for path, content in changes.items():
        if content is None:
            os.remove(f"{place}/{path}")
    put(place, {path: content for path, content in changes.items() if content is not None})


def standing(place):
    """All that stands in a directory: paths with their contents, or None for a directory."""
    found = {}
    for above, dirs, files in os.walk(place):
        for name in dirs:
            found[os.path.relpath(f"{above}/{name}", place)] = None
        for name in files:
            with open(f"{above}/{name}", "rb") as file:
                found[os.path.relpath(f"{above}/{name}", place)] = file.read()
    return found


def redo(words):
    """A line of the program's on standard error."""
    return f"redo: {words}\n".encode()


def made(built):
    """The files that a run built."""
    return {path: text for path, text in built.files.items() if path != BOOK}


def shown(value):
    """A value for a message, cut where it is long."""
    text = repr(value)
    return text if len(text) <= 3000 else text[:3000] + ".."


def each(table):
    """Of a method that takes the items of a row: makes a test of each row of a table, named by the method and by the
    row's first item."""

    def mark(method):
        method.rows = [*table]
        return method

    return mark


class Case(unittest.TestCase):
    """Tests that compare what runs come to with what is expected. Each check has a name, and one that fails doesn't
    keep those behind it from being made."""

    def __init_subclass__(cls):
        super().__init_subclass__()
        for name, method in list(vars(cls).items()):
            if hasattr(method, "rows"):
                delattr(cls, name)
                for row in method.rows:
                    cls.add(name, method, row)

    @classmethod
    def add(cls, name, method, row):
        """Adds the test of one row. Of rows whose names are alike the later ones are numbered."""
        word = re.sub(r"\W+", "_", str(row[0]))[:60].strip("_")
        first = full = f"{name}_{word}"
        number = 1
        while full in vars(cls):
            number += 1
            full = f"{first}_{number}"

        def test(self):
            method(self, *row)

        test.__doc__ = method.__doc__
        setattr(cls, full, test)

    def wrong(self, name, message):
        """Says what is wrong with the case of a name, and goes on."""
        with self.subTest(name):
            self.fail(message)

    def equal(self, name, what, found, expected):
        """Says so where something that a run came to isn't what was expected."""
        if found != expected:
            self.wrong(name, f"{what} is\n  {shown(found)}\nexpected\n  {shown(expected)}")

    def ran(self, words, text, **more):
        """What a run of the program comes to."""
        return run(words, text, **more)

    def answers(self, name, words, text, status, out, said=b"", **more):
        """Runs the program, and compares all that it answered, where something is expected of it."""
        found = self.ran(words, text, **more)
        self.equal(name, "the exit status", found.status, status)
        self.equal(name, "standard output", found.out, out)
        self.equal(name, "standard error", found.said, said)

    def build(self, name, tree, targets, status, report):
        """Builds targets over a tree with 1 and with 8 workers, which is to come to the same. The report is given
        without the new book."""
        report = with_book(tree, report)
        for jobs in "1", "8":
            self.answers(f"{name}, -j {jobs}", ["-j", jobs, "-k", "--bundle", *targets], bundle(tree), status, report)

    def came_to(self, name, jobs, tree, requested):
        """Makes a run over a tree, which is to come to a report and to say nothing else."""
        return self.built(name, self.ran(["-j", jobs, "-k", "--bundle", "--", *requested], bundle(tree)))

    def built(self, name, found):
        """What a run over a bundle has built, which is to come to a report and to say nothing else."""
        self.equal(name, "standard error", found.said, b"")
        split = parts(found.out)
        if split is None:
            self.wrong(name, "standard output isn't a report")
        return Built(found.status, *(split or (found.out, {})))

    def book(self, name, tree, built):
        """Compares the book of a run over a tree with that of the tree and of what the report says."""
        expected = new_book(states(tree), book_of(tree), built.head, made(built))
        self.equal(name, "the book", built.files.get(BOOK), expected)

    def skips(self, name, tree, requested, found, plain):
        """Compares a run over a tree, whose book is true, with one over its sources alone: they come to the same, but
        that the former begins no script of a target that it keeps. Where one is cyclic, the same becomes of what both
        need. Answers which targets are kept."""
        self.equal(name, "the status", found.status, plain.status)
        if b"\ncyclic " not in b"\n" + plain.head:
            stays = kept(states(tree), book_of(tree), requested or ["all"], plain.head, made(plain))
            self.equal(name, "the report", found.head, without_begun(plain.head, stays))
            self.equal(name, "the files", made(found), made(plain))
            return stays
        for what, ours, theirs in ("rows", became(found.head), became(plain.head)), ("files", made(found), made(plain)):
            common = ours.keys() & theirs.keys()
            self.equal(name, f"the {what}", {it: ours[it] for it in common}, {it: theirs[it] for it in common})
        return set()

    def history(self, name, tree, runs):
        """Makes runs one after another, over bundles, and over directories with 1 and with 8 workers. Each run has what
        is changed before it, the targets, the exit status and the report without the new book."""
        self.over_bundles(name, tree, runs)
        for jobs in "1", "8":
            self.over_a_directory(name, tree, runs, jobs)

    def over_bundles(self, name, tree, runs):
        for number, (changes, targets, status, report) in enumerate(runs, 1):
            tree = changed(tree, changes)
            self.build(f"{name}, run {number}", tree, targets.split(), status, report)
            tree = {**tree, **parts(with_book(tree, report))[1]}

    def over_a_directory(self, name, tree, runs, jobs):
        """The reports are the same but for the files, which stand there afterwards."""
        with room() as place:
            put(place, tree)
            for number, (changes, targets, status, report) in enumerate(runs, 1):
                title = f"{name}, a directory, -j {jobs}, run {number}"
                change(place, changes)
                tree = changed(tree, changes)
                head, files = parts(with_book(tree, report))
                row = ["-j", jobs, "-k", "-C", place, *targets.split()]
                self.answers(title, row, None, status, head, stdin=subprocess.DEVNULL)
                tree = {**tree, **files}
                self.equal(title, "what stands there", standing(place), all_bytes(tree))
