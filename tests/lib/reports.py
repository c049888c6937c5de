"""What a report and a book hold, told again from the manual and without the program: the parts of a report, the first
line at fault of a text that is no book, what a tree's book says of its files, which targets a run keeps by it, the book
that a run leaves, and what is noted of it."""

import os
import re
from functools import lru_cache
from hashlib import sha256

# The file at the top of a tree that is the book of the last run.
BOOK = ".redo-book"

# The file at the top of a directory that tells of the files of a run that was broken off.
JOURNAL = ".redo-journal"

# The words behind `failed` in a row of a report.
WHY = (
    rb"norule|directory|nodirectory|both"
    rb"|(?:exit|depends|unquoted|outside|undeclared|exists|buildable|direct|elsewhere|toolarge|format) [0-9]+"
    rb"|script [0-9]+ (?:nul|interpreter|openquote|unsupported|unknowncommand|shape|ifshape|toodeep)"
)
DEP = rb"dep (?:(?:create|change) [^\n]*|always)\n"
ROW = rb"(?:source|built none|built [0-9]+|cyclic|failed (?:%s)) [^\n]*\n(?:%s)*" % (WHY, DEP)
# The line before a file of a report, and a report without its files.
FILE = re.compile(rb"file (0|[1-9][0-9]*) ([^\n]*)\n")
HEAD = re.compile(rb"(?:%s)*(?:begun [^\n]*\n)*end\n" % ROW)
# What became of a path, and the path.
WORDS = re.compile(rb"(source|built none|built [0-9]+|cyclic|failed (?:%s)) ([^\n]*)" % WHY)
# The row of a target that was built.
BUILT = re.compile(r"built (?:none|[0-9]+) (.*)")
# A line of a book but its last.
LINE = re.compile(rb"(?:(?P<kind>target|change) (?:none|[0-9a-f]{64})|(?P<create>create)) (?P<path>.+)|always")


def as_bytes(content):
    return content if isinstance(content, bytes) else content.encode()


def all_bytes(tree):
    """A tree with each content as bytes."""
    return {path: None if content is None else as_bytes(content) for path, content in tree.items()}


def parts(report):
    """A report over a bundle: its text without the files, and the files. None where it isn't one."""
    at = report.find(b"\nfile ") + 1 or len(report) - len(b"end\n")
    head, files = report[:at] + b"end\n", {}
    while found := FILE.match(report, at):
        end = found.end() + int(found[1])
        if report[end : end + 1] != b"\n":
            return None
        files[os.fsdecode(found[2])] = report[found.end() : end]
        at = end + 1
    return (head, files) if HEAD.fullmatch(head) and report[at:] == b"end\n" else None


def whole(head, files):
    """The report of these parts: the files stand in the order of their paths' bytes."""
    texts = [b"file %d %s\n%s\n" % (len(files[path]), os.fsencode(path), files[path]) for path in in_order(files)]
    return b"".join([head[: -len(b"end\n")], *texts, b"end\n"])


# What differs from run to run in the run of a report as JSON.
VARYING = "version", "directory", "began", "milliseconds"


def steady(report):
    """The value of a report as JSON, without what differs from run to run. A list has no run."""
    if "run" not in report:
        return report
    return {**report, "run": {name: it for name, it in report["run"].items() if name not in VARYING}}


def in_order(paths):
    return sorted(paths, key=os.fsencode)


def is_canonical(path):
    """Whether bytes are a path as its text has it, and not empty."""
    names = path.split(b"/")
    return (
        len(path) <= 1024
        and all(0 < len(name) <= 255 and name not in (b".", b"..") for name in names)
        and not re.search(rb"[\x00-\x1f\x7f]", path)
    )


def fault_of_book(text):
    """The first line at fault of a text that is no book, counted from 1; None where it is one."""
    *lines, rest = text.split(b"\n")
    target, entries = b"", None
    for number, line in enumerate(lines, 1):
        if line == b"end":
            return number + 1 if lines[number:] or rest else None
        found = LINE.fullmatch(line)
        path = found and found["path"]
        if not found or path is not None and not is_canonical(path):
            return number
        if found["kind"] == b"target":
            if path <= target:
                return number
            target, entries = path, set()
        else:
            entry = found["kind"] or found["create"], path
            if entries is None or entry in entries:
                return number
            entries.add(entry)
    return len(lines) + 1


def records(text):
    """The records of a book: of each target its state, and the lines behind its own."""
    found = {}
    for line in os.fsdecode(text).split("\n")[:-2]:
        if line.startswith("target "):
            _, at, target = line.split(" ", 2)
            found[target] = at, []
        else:
            found[target][1].append(line)
    return found


@lru_cache(1 << 14)
def short_digest(content):
    """The digest of a short text. Tests ask for the same ones again and again."""
    return sha256(content).hexdigest()


def state(content):
    """What a book says of a file: the digest of its bytes, or that there is none."""
    if content is None:
        return "none"
    return short_digest(content) if len(content) < 1000 else sha256(content).hexdigest()


def states(tree):
    """A tree with the state of each file in place of its content; a directory keeps None."""
    return {path: None if content is None else state(as_bytes(content)) for path, content in tree.items()}


def book_of(tree):
    """The text of a tree's book, where it has one."""
    return None if tree.get(BOOK) is None else as_bytes(tree[BOOK])


def sources(stated, book):
    """The sources of a tree of states, with their states: its files but the book, and but those that are as the book's
    targets were."""
    made = {target: at for target, (at, _) in records(book).items()} if book is not None else {}
    return {path: it for path, it in stated.items() if it is not None and path != BOOK and made.get(path) != it}


def bare(tree):
    """A tree without its book and without the files that are as the last run left them."""
    left = sources(states(tree), book_of(tree))
    return {path: content for path, content in tree.items() if content is None or path in left}


def candidates(path):
    """Where the rule of a target is looked for."""
    dir, slash, name = path.rpartition("/")
    if path in (BOOK, JOURNAL) or not path or name.endswith(".do"):
        return
    yield path + ".do"
    suffixes = [name[at:] for at, byte in enumerate(name) if byte == "."] + [""]
    while True:
        yield from (f"{dir}{slash}default{suffix}.do" for suffix in suffixes)
        if not dir:
            return
        dir, slash, _ = dir.rpartition("/")


def temporary(journal, number):
    """The name of a temporary file of the run with this journal."""
    return f".redo-{sha256(journal[:4096]).hexdigest()[:16]}-{number}.tmp"


def mended(tree):
    """What a run goes on with over a directory: without a journal its tree. With one, the journal and the files of its
    run that have temporary names have gone, and of each target the book has the journal's record where the file is as
    that says, else the old book's where it is as that says. A text that is no book is passed over."""
    if tree.get(JOURNAL) is None:
        return tree
    text = as_bytes(tree[JOURNAL])
    if fault_of_book(text) is not None:
        return {path: content for path, content in tree.items() if path != JOURNAL}
    front = temporary(text, "")[: -len(".tmp")]
    own = {path for path, content in tree.items() if content is not None and path.rpartition("/")[2].startswith(front)}
    found = {}
    for book in book_of(tree), text:
        told = records(book) if book is not None else {}
        found |= {target: it for target, it in told.items() if state(tree.get(target)) == it[0]}
    left = {path: content for path, content in tree.items() if path not in own and path != JOURNAL}
    return {**left, BOOK: book_text(found)}


def has_rule(path, stated, left):
    """Whether a path has a rule: it is no source and no directory, the directory that would hold it is there, and a
    candidate is a source."""
    above = path.rpartition("/")[0]
    if path in left or stated.get(path, "") is None or above and stated.get(above, "") is not None:
        return False
    return any(it in left for it in candidates(path))


def rule_of(path, left):
    """The .do file that the search for a path's rule chooses, whatever is at the path; None where it finds none."""
    return next((it for it in candidates(path) if it in left), None)


# Why a file is noted: a source that a rule would make, a file that a target was built without, and one without a rule.
UNBUILT = "{}: {}, so it counts as yours and isn't built; remove it, or build with --take, to have {} make it"
KNOWN = {True: "it isn't as the last run left it", False: "the book has no record of it"}
YOURS = "; remove it, or it counts as yours from the next run on"
UNMADE = "{}: it was built without a file now, but the file of an earlier run stays" + YOURS
RULELESS = "{}: no rule makes it any more, and its file stays" + YOURS


def stale_files(tree, requested, head):
    """What is noted of a run over a tree that came to this report: sources that have a rule, each with its .do file and
    whether it is recorded, targets that were built without a file, and targets without a rule."""
    stated, book, head = states(tree), book_of(tree), os.fsdecode(head)
    left = sources(stated, book)
    asked = {*requested, *re.findall(r"^dep change (.*)$", head, re.M)}
    bare = re.findall(r"^built none (.*)$", head, re.M)
    made = {target: at for target, (at, _) in (records(book) if book is not None else {}).items()}
    ruled = {path: rule_of(path, left) for path in {*left, *made}}
    return (
        [(path, ruled[path], path in made) for path in in_order(left) if path in asked and ruled[path]],
        [path for path in in_order(bare) if stated.get(path)],
        [path for path in in_order(made) if stated.get(path) == made[path] and not ruled[path]],
    )


def stale(tree, requested, head):
    """The lines of each kind of these notes."""
    unbuilt, unmade, ruleless = stale_files(tree, requested, head)
    return [
        [UNBUILT.format(path, KNOWN[is_known], rule) for path, rule, is_known in unbuilt],
        [UNMADE.format(path) for path in unmade],
        [RULELESS.format(path) for path in ruleless],
    ]


def dead_files(tree, requested, status, head):
    """The files that builds left and that a build of `all` needs no more, where it goes well."""
    if status or "all" not in requested:
        return []
    rows = {os.fsdecode(path) for path in became(head)}
    stated, book = states(tree), book_of(tree)
    made = {target: at for target, (at, _) in (records(book) if book is not None else {}).items()}
    return [path for path, at in made.items() if at != "none" and stated.get(path) == at and path not in rows]


def dead(tree, requested, status, head):
    """What is noted of them."""
    left = dead_files(tree, requested, status, head)
    if not left:
        return []
    words = "".join(" " + path for path in requested) if len(requested) > 1 else ""
    files = "1 file that builds left is" if len(left) == 1 else f"{len(left)} files that builds left are"
    return [f"{files} needed no more; see redo --dead{words}, and redo --clean --dead{words}"]


def notes(tree, requested, status, head, most=10):
    """The lines that are said of a run: of each kind at most so many, and then how many more there are."""
    lines = []
    for kind in stale(tree, requested, head):
        lines += kind[:most] + [f"and {len(kind) - most} more like it"] * (len(kind) > most)
    lines += dead(tree, requested or ["all"], status, head)
    return os.fsencode("".join(line + "\n" for line in lines))


# A line of notes on files.
NOTE = "|".join(re.escape(line).replace(r"\{\}", "[^\n]+") for line in (UNBUILT, UNMADE, RULELESS))
DEAD = rb"[1-9][0-9]* files? that builds left (?:is|are) needed no more; [^\n]+"
NOTES = re.compile(rb"^(?:%s|%s|and [1-9][0-9]* more like it)\n" % (NOTE.encode(), DEAD), re.M)


def notes_in(said):
    """The notes on files, of all that a run says behind its report: without what is said of failed targets."""
    return b"".join(NOTES.findall(said))


def noted(head, files, left):
    """The records of a run's built targets, by its report."""
    made = {path: state(content) for path, content in files.items()}
    found, entries = {}, []
    for line in os.fsdecode(head).split("\n"):
        if row := BUILT.fullmatch(line):
            entries = []
            found[row[1]] = made.get(row[1], "none"), entries
        elif not line.startswith("dep "):
            entries = []
        elif line.startswith("dep change "):
            path = line[len("dep change ") :]
            entries.append(f"change {left.get(path) or made.get(path, 'none')} {path}")
        else:
            entries.append(line[len("dep ") :])
    return found


def carried(stated, book, left, built=()):
    """The records of a book whose targets have a rule, are as the book says, and weren't built."""
    return {
        target: (at, entries)
        for target, (at, entries) in (records(book) if book is not None else {}).items()
        if target not in built and stated.get(target, "none") == at and has_rule(target, stated, left)
    }


def new_book(stated, book, head, files):
    """The book that a run leaves: over a tree of states with this book, it came to this report and these files."""
    left = sources(stated, book)
    made = noted(head, files, left)
    return book_text({**carried(stated, book, left, made), **made})


def book_text(found):
    """The text of a book with these records."""
    lines = []
    for target in in_order(found):
        at, entries = found[target]
        lines += [f"target {at} {target}", *entries]
    return os.fsencode("\n".join([*lines, "end\n"]))


def built_states(head, files):
    """The targets that a report says were built, with their states."""
    rows = [found[1] for line in os.fsdecode(head).split("\n") if (found := BUILT.fullmatch(line))]
    return {path: state(files.get(path)) for path in rows}


def kept(stated, book, requested, head, files):
    """The targets that a run over a tree of states keeps by a true book, where the same run without it comes to this
    report, without a cyclic target: those that aren't requested, whose records are carried, and of which each entry
    stands."""
    left = sources(stated, book)
    built = built_states(head, files)
    known = {**built, **left}

    def stands(entry):
        kind, _, rest = entry.partition(" ")
        if kind == "create":
            return rest not in left and stated.get(rest, "") is not None and not has_rule(rest, stated, left)
        at, _, path = rest.partition(" ")
        return kind == "change" and known.get(path) == at

    standing = {target for target, (_, it) in carried(stated, book, left).items() if all(map(stands, it))}
    return standing & built.keys() - set(requested)


def without_begun(head, targets):
    """A report, without its files, in which the scripts of these targets weren't begun."""
    skipped = {b"begun " + os.fsencode(target) for target in targets}
    return b"\n".join(line for line in head.split(b"\n") if line not in skipped)


def became(head):
    """What became of each path of a report."""
    rows = [line for line in head.split(b"\n")[:-2] if not line.startswith((b"dep ", b"begun "))]
    return dict(reversed(WORDS.fullmatch(row).groups()) for row in rows)


def with_book(tree, report):
    """The report of a run over a tree, with the new book among the files of the report."""
    head, files = parts(as_bytes(report))
    return whole(head, {**files, BOOK: new_book(states(tree), book_of(tree), head, files)})


def report_of(rows, kept=()):
    """The report of these paths, each with what became of it and its record. Bytes are its file's, None stands for no
    file, and words are those of its row. Those with a rule in their record were begun, but for those that are kept."""
    head, begun, files = [], [], {}
    for path in in_order(rows):
        end, record = rows[path]
        words = end if isinstance(end, str) else "built none" if end is None else f"built {len(end)}"
        head += [f"{words} {path}", *(f"dep {entry}" for entry in record)]
        if path not in kept and any(entry.startswith("change ") for entry in record):
            begun.append(f"begun {path}")
        if isinstance(end, bytes):
            files[path] = end
    return whole(os.fsencode("\n".join([*head, *begun, "end\n"])), files)
