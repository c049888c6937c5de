"""What a run asks of a file system, call by call, and what may stand on the disk where the power is cut between the
calls. The calls are recorded by a library that is loaded into the program (`effects.c`). An effect is one of

    ("create", path)    ("write", path, bytes)    ("sync", path)    ("rename", from, to)    ("remove", path)

where a sync is one of a file or of a directory, and the path of the tree itself is `.`. Between two runs there may be
edits, `("edit", path, bytes)`, of files that no run changes; they are on the disk at once."""

import os
import struct
import subprocess
import sys
import tempfile
from collections import namedtuple
from itertools import chain, combinations, islice, product

sys.dont_write_bytecode = True
from lib.program import run
from lib.refusing import library

# The kinds of records, as `effects.c` numbers them.
KINDS = "open", "create", "write", "sync", "rename", "remove", "other"
# What is before the two texts of a record: its kind, the number of the open file, and the lengths of the texts.
HEAD = struct.Struct("=iiQQ")


def records_in(text):
    """The records of the library: each with its kind, the number of the open file, and its texts."""
    at = 0
    while at < len(text):
        kind, file, *counts = HEAD.unpack_from(text, at)
        at += HEAD.size
        texts = []
        for count in counts:
            texts.append(text[at : at + count])
            at += count
        yield KINDS[kind], file, *texts


def effects_of(records, place):
    """The effects that these records tell of, with paths from the directory of the run."""
    inside = lambda path: os.path.relpath(os.fsdecode(path), place)
    opened, found = {}, []
    for kind, file, first, second in records:
        if kind == "other":
            raise ValueError(f"no effect is known for a call of {first.decode()}")
        if kind in ("open", "create"):
            opened[file] = inside(first)
        if kind == "rename":
            found.append((kind, inside(first), inside(second)))
        elif kind == "write":
            found.append((kind, opened[file], first))
        elif kind == "sync":
            found.append((kind, opened[file]))
        elif kind != "open":
            found.append((kind, inside(first)))
    return found


class Recording:
    """The library that records calls."""

    def __init__(self):
        self.room = tempfile.TemporaryDirectory()
        self.library = library(self.room.name, "effects")

    def close(self):
        self.room.cleanup()

    def run(self, words, place):
        """Runs the program over a directory. Answers what the run came to, and its effects."""
        with tempfile.NamedTemporaryFile(dir=self.room.name) as records:
            environment = {**os.environ, "LD_PRELOAD": self.library, "EFFECTS": records.name}
            found = run([*words, "-C", place], None, stdin=subprocess.DEVNULL, env=environment)
            return found, effects_of(records_in(records.read()), place)


class File:
    """A file that the run makes: its bytes, and how many of them are on the disk for certain."""

    def __init__(self):
        self.bytes, self.synced = b"", 0

    def contents(self):
        """What may be read from it behind a cut: the bytes that aren't certain may be there, missing, or cut off at
        half."""
        rest = len(self.bytes) - self.synced
        return tuple(sorted({self.bytes[: self.synced + more] for more in (0, rest // 2, rest)}))


def contents_of(it):
    """What may be read from a file behind a cut, and None for a directory. One that the run didn't make stays."""
    return it.contents() if isinstance(it, File) else (it,)


# A change of names: those that go, and those that come or get another file, each with its file.
Change = namedtuple("Change", "gone made")


def after(names, changes):
    """The names after changes."""
    for it in changes:
        names = {**{path: file for path, file in names.items() if path not in it.gone}, **it.made}
    return names


class Ordered:
    """A file system that keeps the order of changes of names: a sync of anything brings all before it to the disk.
    The bytes of a file come to the disk at any time."""

    @staticmethod
    def forces(path, change):
        return True

    @staticmethod
    def kept(changes, forced):
        """The changes that may have come to the disk."""
        first = max(forced, default=-1) + 1
        return (changes[:count] for count in range(first, len(changes) + 1))


class Loose:
    """A file system that promises no more than it must: a sync of a directory brings the changes of its names to the
    disk, and each other change comes to it or doesn't."""

    @staticmethod
    def forces(path, change):
        return {os.path.dirname(name) or "." for name in (*change.gone, *change.made)} == {path}

    @staticmethod
    def kept(changes, forced):
        free = [it for it in range(len(changes)) if it not in forced]
        for lost in chain.from_iterable(combinations(free, count) for count in range(len(free) + 1)):
            yield [change for number, change in enumerate(changes) if number not in lost]


class Disk:
    """A tree that is wholly on the disk, and what is asked of the disk from then on."""

    def __init__(self, before, system):
        self.before = self.names = before
        self.system = system
        self.changes, self.forced = [], set()

    def change(self, gone, made):
        self.changes.append(Change(gone, made))
        self.names = after(self.names, self.changes[-1:])

    def take(self, kind, path, *what):
        """Takes in an effect. A run that makes other changes than these isn't followed."""
        if kind == "create" and path not in self.names:
            self.change([], {path: File()})
        elif kind == "write" and isinstance(self.names[path], File):
            self.names[path].bytes += what[0]
        elif kind == "sync":
            self.sync(path)
        elif kind == "rename":
            self.change([path], {what[0]: self.names[path]})
        elif kind == "remove" and path in self.names:
            self.change([path], {})
        elif kind == "edit" and self.before.get(path) is not None and self.names.get(path) == self.before[path]:
            self.before, self.names = ({**it, path: what[0]} for it in (self.before, self.names))
        else:
            raise ValueError(f"what comes of {kind} {path} isn't known")

    def sync(self, path):
        """A sync of a file, of a directory in the tree, or of the tree's own."""
        file = None if path == "." else self.names[path]
        if isinstance(file, File):
            file.synced = len(file.bytes)
        self.forced |= {number for number, it in enumerate(self.changes) if self.system.forces(path, it)}

    def left(self):
        """What a cut may leave now: the names, each with the contents that its file may have."""
        for changes in self.system.kept(self.changes, self.forced):
            names = after(self.before, changes)
            yield tuple(sorted((path, contents_of(it)) for path, it in names.items()))

    def standing(self):
        """What stands there without a cut."""
        return {path: it.bytes if isinstance(it, File) else it for path, it in self.names.items()}


def moments(before, effects, system):
    """The disk before, between and behind these effects, over a tree that is wholly on it."""
    disk = Disk(before, system)
    yield disk
    for it in effects:
        disk.take(*it)
        yield disk


def trees(left):
    """The trees that have these names, each with one of its contents: each tree once, in a fixed order."""
    rows = set()
    for names in left:
        paths, contents = zip(*names) if names else ((), ())
        rows |= {tuple(zip(paths, found)) for found in product(*contents)}
    return [dict(row) for row in sorted(rows)]


def cut_behind(before, effects, system):
    """The trees that may stand on the disk where the power is cut behind all these effects."""
    *_, disk = moments(before, effects, system)
    return trees({*disk.left()})


def cut(before, effects, system, first=0):
    """The same where it is cut at any moment: before, between or behind these effects, of which the first ones were
    made in any case."""
    later = islice(moments(before, effects, system), first, None)
    return trees({names for disk in later for names in disk.left()})


def followed(before, effects):
    """The tree behind these effects, without a cut."""
    *_, disk = moments(before, effects, Ordered)
    return disk.standing()
