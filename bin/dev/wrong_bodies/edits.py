"""Wrong bodies: files NAME.edit that say which text of a crate stands in place of which."""

import os
import re
from dataclasses import dataclass, field

# The folders of a crate's wrong bodies: what rt ci tries, what the gate tries beside that, and what it doesn't.
MUST_FAIL, GATE, MORE = "must-fail", "wrong-bodies", "wrong-bodies/more"
NAME = re.compile(r"[A-Za-z0-9_-][A-Za-z0-9_.-]*\.edit")


@dataclass
class Change:
    """One pair of an edit: a file, the text that stands in it once, and the text in its place."""

    path: str
    old: str
    new: str


@dataclass
class Edit:
    """A wrong body: its crate, its name, its file's bytes, what it changes, and why it can't be applied, or ""."""

    crate: str
    name: str
    data: bytes = b""
    changes: list = field(default_factory=list)
    fault: str = ""

    def label(self):
        return f"{self.crate}/{self.name}"


def changes_in(text):
    """The pairs of an edit's text, and what is wrong with it, or "". Lines that begin with none of the three words
    are passed over."""
    path, old, found = "", None, []
    for line in text.split("\n"):
        if line.startswith("file: "):
            path = line[len("file: ") :].strip()
            if os.path.normpath(path) != path or not path.startswith(("src/", "specs/", "proofs/")):
                return [], "a 'file:' line names no file below src/, specs/ or proofs/"
        elif line.startswith("old: "):
            old = line[len("old: ") :]
        elif line.startswith("new:"):
            if not path or not old:
                return [], "a 'new:' line stands before any 'file:' or 'old:' line"
            found.append(Change(path, old, re.sub(r"\A ", "", line[len("new:") :])))
            old = None
    return found, "" if found else "it has no 'old:' and 'new:' pair"


def applied(edits, texts):
    """The texts, by their paths, of the files that these edits change, and why that can't be done, or ""."""
    after = {}
    for change in [it for edit in edits for it in edit.changes]:
        text = after.get(change.path, texts.get(change.path))
        if text is None:
            return {}, f"there is no file {change.path}"
        if text.count(change.old) != 1:
            return {}, f"an 'old:' text is in {change.path} {text.count(change.old)} times, and not once"
        after[change.path] = text.replace(change.old, change.new)
    return after, "it changes nothing" if all(after[path] == texts[path] for path in after) else ""


def together(edits, texts):
    """The texts, by their paths, of the files that a round's edits change. A new text goes where the old one stands in
    the code as it is: what another edit puts in may have that text, too."""
    after = {}
    changes = [it for edit in edits for it in edit.changes]
    for change in sorted(changes, key=lambda it: -texts[it.path].index(it.old)):
        text, start = after.get(change.path, texts[change.path]), texts[change.path].index(change.old)
        after[change.path] = text[:start] + change.new + text[start + len(change.old) :]
    return after


def read_edit(crate, path):
    """The edit of a file."""
    with open(path, "rb") as file:
        data = file.read()
    changes, fault = changes_in(data.decode(errors="replace"))
    return Edit(crate, os.path.basename(path).removesuffix(".edit"), data, changes, fault)


def edits_in(crate, folder, parts):
    """The edits in these folders of a crate, by their names. What else stands there, but for notes, is a bad one."""
    found = {}
    for part in parts:
        place = f"{folder}/{part}"
        for name in sorted(os.listdir(place)) if os.path.isdir(place) else []:
            path = f"{place}/{name}"
            if name.endswith(".md") or f"{part}/{name}" == MORE:
                continue
            is_edit = os.path.isfile(path) and NAME.fullmatch(name)
            edit = read_edit(crate, path) if is_edit else Edit(crate, name, fault="its name isn't that of an edit")
            if edit.name in found:
                edit = Edit(crate, f"{part}/{name}", fault="another edit of the crate has its name")
            found[edit.name] = edit
    return [found[name] for name in sorted(found)]


def texts_for(folder, edits):
    """The texts, by their paths, of a crate's code, and of the other files that these edits name."""
    paths = {it.path for edit in edits for it in edit.changes}
    for above, _, names in os.walk(f"{folder}/src"):
        paths.update(os.path.relpath(f"{above}/{name}", folder) for name in names if name.endswith(".rt"))
    texts = {}
    for path in sorted(paths):
        if os.path.isfile(f"{folder}/{path}"):
            with open(f"{folder}/{path}", encoding="utf-8") as file:
                texts[path] = file.read()
    return texts


def owner(edit, functions, texts):
    """The function in whose body all changes of the edit stand, or None where there is no such function."""
    found = [] if edit.fault else [function_of(it, functions, texts) for it in edit.changes]
    # (a later change may be one of what an earlier one put in)
    is_one = found and found.count(found[0]) == len(found) and found[0]
    return found[0] if is_one and together([edit], texts) == applied([edit], texts)[0] else None


def function_of(change, functions, texts):
    """The function in whose body the change's old text stands, or None where there is no such function."""
    text = texts[change.path]
    if not change.path.startswith("src/") or text.count(change.old) != 1:
        return None
    line = text.count("\n", 0, text.index(change.old))
    found = functions.at(change.path, line)
    return found if found and line >= found.body else None
