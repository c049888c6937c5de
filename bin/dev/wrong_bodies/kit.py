"""The Rattle kit: checks of crates by its own command's words, on copies, and what `rt ci` proves of them."""

import contextlib
import importlib.machinery
import os
import re
import shutil
import signal
import subprocess
import sys
import tempfile
import types

from .edits import GATE, MUST_FAIL
from .judging import Said

sys.dont_write_bytecode = True

# What rt ci says of a crate that it has proved, or had proved before.
DONE = re.compile(r"rt: (\w+) (proved|is kept: .*)")


class Kit:
    """The kit whose `rt` is on the path. It takes from there what a check reads, and how it is called."""

    def __init__(self):
        program = shutil.which("rt")
        if not program:
            sys.exit("wrong-bodies: there is no rt on the path; README names the kit")
        self.program = os.path.realpath(program)
        self.folder = os.path.dirname(os.path.dirname(self.program))
        self.rt = types.ModuleType("rt")
        self.rt.__file__ = self.program
        importlib.machinery.SourceFileLoader("rt", self.program).exec_module(self.rt)
        self.lib = self.rt.rtlib
        self.running, self.is_stopped = set(), False

    def crates(self, top):
        """The crates of a repository, lowest first."""
        self.lib.Crate = self.rt.Crate
        self.rt.Crate.allowed = self.rt.handles_of(top)
        # (copies of other runs may stand beside that folder)
        found = self.lib.crates_below(f"{top}/crates")
        for it in found:
            # Its words are for who checks one crate by hand.
            it.out = open(os.devnull, "w", encoding="utf-8")
        return found

    def sums(self, crates):
        """Of each crate's name a sum of all that a check of it reads, the kit and the crates below included."""
        seen = {}
        return {it.name: self.rt.stamp_of(it, seen) for it in crates}

    def lanes(self):
        """How many checks run at a time, and the memory in bytes that they may take."""
        number = os.environ.get("RT_JOBS", "")
        return int(number) if number.isdigit() and int(number) else self.rt.processors(), int(0.85 * self.rt.free())

    def memory(self, crate):
        """The most memory in bytes that a check of the crate is likely to take."""
        return self.rt.need(crate)

    def prepare(self):
        """Has what is started later end with this process, however it ends. To be called in the main thread."""
        self.lib.guarded()

    def left(self, crate):
        """The folder where checks of the crate leave what they have checked, each for those that follow."""
        return f"{os.path.dirname(os.path.dirname(crate.folder))}/checked-{crate.name}"

    def forget(self, crate):
        """Removes what checks of the crate have left."""
        shutil.rmtree(self.left(crate), ignore_errors=True)

    def check(self, crate, texts, only=()):
        """Checks the crate with these texts in place of its own, whole or these functions alone; where None stands for
        a text, there is no such file. It takes what earlier checks have left that is still up to date. Proofs that
        others wait for go first."""
        words = ["nice", "-n", "19", self.lib.RATTLE, "check", *crate.words(["--jobs", "1"], keeps=False)]
        words += ["--incremental", self.left(crate), *(["--allow-holes"] if only else [])]
        words += [word for name in only for word in ("--only", name)]
        with tempfile.TemporaryDirectory(prefix="check-", dir=os.path.dirname(self.left(crate))) as room:
            for part in self.lib.PARTS:
                if os.path.isdir(f"{crate.folder}/{part}"):
                    shutil.copytree(f"{crate.folder}/{part}", f"{room}/{part}")
            for path, text in texts.items():
                put(f"{room}/{path}", text)
            return self.run(words, room)

    def run(self, words, folder, each=lambda line: None):
        """Runs a command. Answers its status, what it wrote, and its processor time. `each` is told each line."""
        if self.is_stopped:
            return Said(-signal.SIGTERM, "", 0)
        how = {"cwd": folder, "stdin": subprocess.DEVNULL, "stderr": subprocess.STDOUT, "errors": "replace"}
        child = subprocess.Popen([*self.lib.guarded(), *words], stdout=subprocess.PIPE, text=True, **how)
        self.running.add(child)
        lines = []
        with child.stdout:
            for line in child.stdout:
                lines.append(line)
                each(line)
        self.running.discard(child)
        _, ended, used = os.wait4(child.pid, 0)
        child.returncode = os.waitstatus_to_exitcode(ended)
        return Said(child.returncode, "".join(lines), used.ru_utime + used.ru_stime)

    def stop(self):
        """Ends what runs, and begins nothing more."""
        self.is_stopped = True
        for child in [*self.running]:
            child.terminate()

    def prove(self, top, each):
        """Proves all crates of a repository, or takes what was proved of the same files before. `each` is told the name
        of each crate as soon as it is proved."""

        def told(line):
            done = DONE.match(line)
            if done:
                each(done[1])

        return self.run([self.program, "ci"], top, told)


def put(path, text):
    """Writes a file, or sees to it that there is none, where the text is None."""
    if text is None:
        with contextlib.suppress(FileNotFoundError):
            os.remove(path)
    else:
        os.makedirs(os.path.dirname(path), exist_ok=True)
        with open(path, "w", encoding="utf-8") as file:
            file.write(text)


def with_below(crates):
    """These crates and all that they stand on, each once."""
    found = {}
    for it in crates:
        found.update({below.name: below for below in [*it.below(), it]})
    return [*found.values()]


@contextlib.contextmanager
def copied(top, crates, place):
    """A copy of these crates and of those below as a repository of its own, without wrong bodies, until the end."""
    os.makedirs(place, exist_ok=True)
    room = tempfile.mkdtemp(dir=place)
    try:
        # (rt wants crates.txt at the top of a repository)
        os.mkdir(f"{room}/.git")
        os.mkdir(f"{room}/crates")
        names = [it.name for it in with_below(crates)]
        for name in names:
            shutil.copytree(f"{top}/crates/{name}", f"{room}/crates/{name}", ignore=lambda at, _: left_out(at, top))
        with open(f"{room}/crates.txt", "w", encoding="utf-8") as file:
            file.writelines(lines_of(top, names))
        shutil.copy2(f"{top}/HANDLES", room)
        yield room
    finally:
        shutil.rmtree(room, ignore_errors=True)
        # Another run may have its copy there.
        with contextlib.suppress(OSError):
            os.rmdir(place)


def left_out(folder, top):
    """What isn't copied of a folder: of a crate's own what was built in it, and its wrong bodies."""
    return ["out", MUST_FAIL, GATE] if os.path.dirname(folder) == f"{top}/crates" else []


def lines_of(top, names):
    """The lines of these crates in crates.txt."""
    with open(f"{top}/crates.txt", encoding="utf-8") as file:
        return [line for line in file if ":" in line and line.split(":")[0].split()[:1] in [[it] for it in names]]
