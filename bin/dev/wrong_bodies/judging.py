"""What a check says of wrong bodies. Its output has a line for each function, as `fn redo_path::words::leave: no proof:
..`, notes on goals in a function's text, and errors in the files of its proof.

An edit is refused where a goal of its own function isn't proved, whatever becomes of the functions that it calls. Where
a whole check is made with one edit, it is enough that the crate isn't proved."""

import re
from collections import namedtuple

# What became of an edit. NAMED: it is refused only because the files of a proof name what the edit took away, as far
# as the check tells, which says little of the contract. LIMIT: only by a limit of the prover's. LEFT: this check
# doesn't tell. BAD: it can't be applied, compiled or read. UNTRIED: its check gave no verdict, or its crate isn't
# proved without it.
REFUSED, NAMED, LIMIT, LEFT, PROVED, BAD, UNTRIED = "refused", "named", "limit", "left", "proved", "bad", "untried"
# Those that an edit is to come to.
AS_IT_MUST = (REFUSED, NAMED, LIMIT)

# What a check came to: its exit status, what it wrote, and its processor time in seconds.
Said = namedtuple("Said", "status text seconds")
# What an edit came to, and why.
Verdict = namedtuple("Verdict", "kind why")

LINE = re.compile(r"^fn (\S+): (.*)$", re.M)
# A message that has a place: its file, its line, and its words.
MESSAGE = re.compile(r"^(?:note: )?(?:\./)?((?:src|specs|proofs)/\S+?):(\d+):\d+: (.*)$", re.M)
# How a function's line begins where nothing of its own is refused.
FINE = ("proved", "no holes", "depends on a hole", "could not tell")
# An error in a proof that says nothing of what it proves.
GONE = re.compile(r"has no field|is not in scope|has no `|was not admitted")
# One of declarations behind another error, which says nothing more.
BEHIND = re.compile(r"which (was|were) rejected, (was|were) not checked")
# What a note says of a goal that is seen to be false.
FALSE = "at which this goal is false"
COMPILER = re.compile(r"\berror\[[\w-]+\]")
LIMITS = re.compile(r"antt ran out of (stack|the (steps|memory) that the check of one declaration may (take|use))"
                    r"|(outgrew the memory limit|stopped at the step limit) \(")
UNREAD = re.compile(r"is not in scope|has no field|is no name|operand is missing|expected the end|cannot continue")
# The last line of a check that came to its end.
ENDED = re.compile(r"(only=\d+ holes=\d+|logic=(not-)?proved\b.*)$")


def is_ended(said):
    """Whether a check came to the end, so that it has a line for each function that it was to prove."""
    return said.status in (0, 1) and bool(ENDED.match(last_line(said)))


def last_line(said):
    return said.text.rstrip("\n").rpartition("\n")[2]


def first_line(said, words):
    return next(it for it in said.text.split("\n") if words.search(it))


def unread(said, changed):
    """The first error by which antt couldn't read a text of src/, of specs/ or of a changed file, or "". An edit that
    only makes a statement false reads well."""
    for path, _, words in MESSAGE.findall(said.text):
        error = re.match(r"error: (?:(`[^`]*`): )?(.*)", words)
        if error and (path in changed or not path.startswith("proofs/")):
            if not error[1] or UNREAD.search(re.sub(r"`[^`]*`", "", error[2])):
                return f"{path}: {words}"
    return ""


def errors(said):
    """The files and lines of the errors in code."""
    found = MESSAGE.findall(said.text)
    return [(path, int(line)) for path, line, words in found if path.startswith("src/") and words.startswith("error")]


def inside(name):
    """The parts of a function's path in its crate. A closure's begin with those of the function that it stands in."""
    return [it for it in name.split("::")[1:] if it != "fn"]


def is_of(name, function):
    """Whether a line of a check is of a function, or of a closure in it."""
    crate, *parts = name.split("::")
    if "fn" not in parts or crate != function.name.split("::")[0]:
        return name == function.name
    own = inside(function.name)
    return inside(name)[: len(own)] == own


def proofs_of(function):
    """The paths of a function's proof: its own, and that of the cycle of calls that it may be in."""
    own = inside(function.name)
    return [own, [*own[:-1], f"+{function.cycle}"]]


def is_goal(words):
    """Whether a message tells of a goal or of an answer that isn't met, and not only how to go on."""
    return "it is not proved" in words or "found no proof" in words or words.startswith("error")


def own_messages(said, function):
    """The errors and notes that stand in a function's text or in the files of its proof, in order."""
    folders, found = tuple("/".join(["proofs", *it, ""]) for it in proofs_of(function)), []
    for path, line, words in MESSAGE.findall(said.text):
        in_text = path == function.path and function.first < int(line) <= function.end
        in_proof = path.replace("/fn/", "/").startswith(folders)
        if is_goal(words) and (in_text or in_proof):
            found.append(f"{path}:{line}: {words}")
    return found


def own_verdict(said, function):
    """What a check tells of the edit in this function by the function's own goals: REFUSED, NAMED or LEFT."""
    lines = [line for name, line in LINE.findall(said.text) if is_of(name, function)]
    messages = own_messages(said, function)
    if not lines:
        return Verdict(LEFT, "no line names its function")
    if not messages or all(it.startswith(FINE) for it in lines):
        return Verdict(LEFT, "no goal of its own function is refused")
    return told_by(messages)


def told_by(messages):
    """Whether messages show a goal that isn't met, or only that a proof names what isn't there."""
    messages = [it for it in messages if not BEHIND.search(it)] or messages
    gone = [it for it in messages if it.startswith("proofs/") and GONE.search(it)]
    # (beside such an error, a goal that `search` didn't prove is one whose answer went by another name)
    shown = [it for it in messages if it not in gone and (not gone or FALSE in it or ": error" in it)]
    if not shown:
        return Verdict(NAMED, gone[0])
    return Verdict(REFUSED, min(shown, key=lambda it: FALSE not in it))


def whole_verdict(said, changed, function=None):
    """What a check of the whole crate with one edit tells, which changes these files, and maybe this function."""
    bad = unread(said, changed)
    if bad and said.status == 1:
        return Verdict(BAD, f"the prover can't read the edited text, so no contract was tried: {bad}")
    if said.status == 0:
        return Verdict(PROVED, "the crate is still proved; one that means the same as before can't be refused")
    if said.status == 1 and last_line(said).startswith("logic=not-proved"):
        own = own_verdict(said, function) if function else None
        return own if own and own.kind != LEFT else elsewhere(said)
    if said.status == 3 and LIMITS.search(said.text):
        return Verdict(LIMIT, first_line(said, LIMITS))
    if said.status == 1 and COMPILER.search(said.text):
        return Verdict(BAD, f"it doesn't compile: {first_line(said, COMPILER)}")
    return Verdict(UNTRIED, f"its check ended with status {said.status}: {last_line(said)}")


def elsewhere(said):
    """What a check tells of an edit by which some function isn't proved, whichever it is."""
    messages = [f"{path}:{line}: {words}" for path, line, words in MESSAGE.findall(said.text) if is_goal(words)]
    return told_by(messages) if messages else Verdict(REFUSED, last_line(said))
