"""Tries edits: in rounds where it can, and alone what a round doesn't tell. As many checks run side by side as there
are processors, and memory for; the longest begin first. What a check leaves is taken by those that follow, so of each
crate one round comes first, and no two edits are tried alone at a time."""

import os
import signal
from concurrent.futures import FIRST_COMPLETED, ThreadPoolExecutor, wait
from dataclasses import dataclass
from queue import SimpleQueue
from threading import Lock

from . import judging
from .edits import applied, owner, texts_for, together
from .judging import BAD, LEFT, UNTRIED, Verdict
from .names import Functions
from .rounds import Placed, rounds


@dataclass
class Task:
    """Something to do: what it is likely to take, in lines of code and in bytes of memory, and a call that answers the
    tasks that have to follow it."""

    lines: float
    memory: int
    call: object


class Coming:
    """Tasks that come while others run, put by another thread, until it says that these are all."""

    def __init__(self):
        self.queue, self.is_open = SimpleQueue(), True

    def put(self, tasks):
        self.queue.put(tasks)

    def end(self):
        self.queue.put(None)

    def take(self, is_idle):
        """The tasks that have come since, waiting for some where nothing else is to be done."""
        found = []
        while self.is_open and (not self.queue.empty() or is_idle and not found):
            tasks = self.queue.get()
            self.is_open = tasks is not None
            found += tasks or []
        return found


def in_lanes(coming, number, memory):
    """Runs tasks as they come, so many at a time, and those that come of them. Half of the memory is left to the proofs
    while these run."""
    left, running = [], {}
    pool = ThreadPoolExecutor(number)
    try:
        while left or running or coming.is_open:
            left += coming.take(not left and not running)
            left.sort(key=lambda it: -it.lines)
            for task in [*left]:
                room = (memory // 2 if coming.is_open else memory) - sum(it.memory for it in running.values())
                if len(running) < number and (not running or task.memory <= room):
                    left.remove(task)
                    running[pool.submit(task.call)] = task
            for it in wait(running, 1 if coming.is_open else None, FIRST_COMPLETED).done:
                del running[it]
                left += it.result()
    finally:
        pool.shutdown(wait=False, cancel_futures=True)


class Subject:
    """A crate with the edits that are to be tried on it, and what came of those that were. `say` is told how far it is,
    and `keep` each edit and its verdict."""

    def __init__(self, kit, crate, edits, say, keep):
        self.kit, self.crate, self.edits, self.say, self.keep = kit, crate, edits, say, keep
        self.texts = texts_for(crate.folder, edits)
        self.functions = Functions(crate.name, self.texts)
        for it in edits:
            it.fault = it.fault or applied([it], self.texts)[1]
        self.found = {it.name: Verdict(BAD, it.fault) for it in edits if it.fault}
        # (the edit that is tried alone, and those that wait for it)
        self.lonely = []
        self.rounds, self.alone, self.seconds, self.lock = 0, 0, 0, Lock()
        # (asked for once: what is asked of memory reads the files)
        self.lines, self.memory = sum(it.count("\n") for it in self.texts.values()), kit.memory(crate)

    def tasks(self):
        """The first round of its edits. The others, and those that have to be tried alone, come behind it, and take
        what it leaves."""
        good = [it for it in self.edits if not it.fault]
        all_placed = [Placed(it, owner(it, self.functions, self.texts)) for it in good]
        found = rounds([it for it in all_placed if it.function])
        rest = [it for it in all_placed if not it.function]
        behind = lambda: [*[self.round(it) for it in found[1:]], *[task for it in rest for task in self.apart(it)]]
        return [self.round(found[0], behind)] if found else behind()

    def round(self, group, behind=lambda: []):
        share = len(group) / max(1, len(self.functions.all))
        return Task(self.lines * min(1, share), self.memory, lambda: [*self.try_round(group), *behind()])

    def apart(self, placed):
        """The task in which an edit is tried alone: none yet while another one is, since each takes what the one before
        has left."""
        with self.lock:
            self.lonely.append(placed)
            return [Task(self.lines, self.memory, self.try_alone)] if len(self.lonely) == 1 else []

    def settle(self, edit, verdict):
        self.found[edit.name] = verdict
        self.keep(edit, verdict)
        if len(self.found) == len(self.edits):
            self.kit.forget(self.crate)

    def check(self, edits, only=()):
        """A check with these edits, and the files that they change. One that was killed, for memory most likely, is
        made once more."""
        texts = together(edits, self.texts) if only else applied(edits, self.texts)[0]
        proofs = self.left_out(only) if only else {}
        for _ in range(2):
            said = self.kit.check(self.crate, texts | proofs, only)
            with self.lock:
                self.seconds += said.seconds
                self.rounds += bool(only)
                self.alone += not only
            if said.status != -signal.SIGKILL:
                break
        return said, texts

    def left_out(self, names):
        """The files by which a check of these functions does without the proofs of the others, which tell nothing: an
        empty proof instead of its parts. What is proved for functions that call one another stays."""
        found = {}
        for it in self.functions.all:
            own, shared = ("/".join(["proofs", *parts]) for parts in judging.proofs_of(it))
            stays = it.name in names or it.cycle != it.last or os.path.exists(f"{self.crate.folder}/{shared}")
            if it.has_body() and not stays and not os.path.exists(f"{self.crate.folder}/{own}/Proof.antt"):
                found |= {f"{own}/Answers.antt": None, f"{own}/Invariants.antt": None, f"{own}/Proof.antt": ""}
        return found

    def try_round(self, group):
        """Tries the edits of a round. Answers the tasks for those of which it doesn't tell."""
        said, texts = self.check([it.edit for it in group], sorted({it.owner for it in group}))
        if said.status == -signal.SIGTERM:
            return []
        if not judging.is_ended(said) or judging.unread(said, texts):
            self.say(f"{self.crate.name}: a round of {len(group)} tells nothing: {judging.last_line(said)[:160]}")
            return self.parted(group, self.blamed(group, said, texts))
        verdicts = [(it, judging.own_verdict(said, it.function)) for it in group]
        for it, verdict in verdicts:
            if verdict.kind != LEFT:
                self.settle(it.edit, verdict)
        left = [it for it, verdict in verdicts if verdict.kind == LEFT]
        alone = f", alone then: {' '.join(it.edit.name for it in left)}" if left else ""
        refused = len(group) - len(left)
        self.say(f"{self.crate.name}: a round of {len(group)}, {refused} refused, {said.seconds:.0f} s{alone}")
        return [task for it in left for task in self.apart(it)]

    def blamed(self, group, said, texts):
        """The edits of a round in whose functions a check finds what keeps it from all."""
        functions = Functions(self.crate.name, self.texts | texts)
        found = [functions.at(path, line - 1) for path, line in judging.errors(said)]
        return [it for it in group if it.owner in [function.name for function in found if function]]

    def parted(self, group, blamed):
        """The tasks in place of a round that tells nothing: without the edits to blame, or, if it can't be told which
        these are, each half for itself."""
        half, rest = len(group) // 2, [it for it in group if it not in blamed]
        if blamed or not half:
            apart = [task for it in blamed or group for task in self.apart(it)]
            return [*apart, *([self.round(rest)] if blamed and rest else [])]
        return [self.round(group[:half]), self.round(group[half:])]

    def try_alone(self):
        """Tries the next edit that is tried alone, by a check of the whole crate. Answers the task for one behind."""
        edit, function = self.lonely[0].edit, self.lonely[0].function
        said, texts = self.check([edit])
        if said.status == -signal.SIGTERM:
            return []
        verdict = judging.whole_verdict(said, texts, function)
        self.settle(edit, verdict)
        self.say(f"{self.crate.name}: {edit.name} alone: {verdict.kind}, {said.seconds:.0f} s")
        with self.lock:
            self.lonely.pop(0)
            return [Task(self.lines, self.memory, self.try_alone)] if self.lonely else []

    def give_up(self, why):
        """Tells of all its edits that they weren't tried."""
        for it in self.edits:
            self.found.setdefault(it.name, Verdict(UNTRIED, why))
