"""What edits came to, kept by the sum of all that their checks read, so that an entry never goes stale. Only that an
edit is refused is kept. Entries lie beside the kit, as what `rt ci` keeps does, for the user who made them alone; where
nothing can be written there, in the user's cache."""

import contextlib
import hashlib
import json
import os
import stat
import tempfile

from .judging import AS_IT_MUST, Verdict

# How many entries are kept; beyond these, those that were used least lately go.
MOST = 10_000


def own_text():
    """A sum of this tool, since a verdict stands on it, too."""
    sum, folder = hashlib.sha256(), os.path.dirname(os.path.abspath(__file__))
    for name in sorted(os.listdir(folder)):
        if name.endswith(".py"):
            with open(f"{folder}/{name}", "rb") as file:
                sum.update(repr((name, file.read())).encode())
    return sum.hexdigest()


def usable(folder):
    """Whether a folder is there, or can be made, that this user and nobody else can write."""
    try:
        os.makedirs(folder, mode=0o700, exist_ok=True)
        found = os.lstat(folder)
    except OSError:
        return False
    is_own = stat.S_ISDIR(found.st_mode) and found.st_uid == os.geteuid() and not found.st_mode & 0o022
    return is_own and os.access(folder, os.W_OK)


def place(kit_folder):
    """The folder of the entries, or None where there is none."""
    cache = os.environ.get("XDG_CACHE_HOME") or os.path.expanduser("~/.cache")
    folders = [f"{os.path.dirname(kit_folder)}/redo-wrong-bodies", f"{cache}/redo-wrong-bodies"]
    return next((it for it in folders if usable(it)), None)


class Kept:
    """The entries in a folder. With none, nothing is kept."""

    def __init__(self, folder):
        self.folder, self.tool = folder, own_text()

    def key(self, edit, sum):
        """The name of an edit's entry, by the sum of its crate."""
        return hashlib.sha256(repr((self.tool, sum, edit.crate, edit.name, edit.data)).encode()).hexdigest()

    def get(self, key):
        """The verdict that is kept under a name, or None."""
        if not self.folder:
            return None
        try:
            with open(f"{self.folder}/{key}", encoding="utf-8") as file:
                found = json.load(file)
            if found["key"] == key and found["kind"] in AS_IT_MUST and isinstance(found["why"], str):
                os.utime(f"{self.folder}/{key}")
                return Verdict(found["kind"], found["why"])
        except (OSError, ValueError, KeyError, TypeError):
            pass
        return None

    def put(self, key, verdict):
        """Keeps that an edit is refused. It is written apart and renamed, so that nobody reads half of it."""
        if not self.folder or verdict.kind not in AS_IT_MUST:
            return
        with contextlib.suppress(OSError):
            file = tempfile.NamedTemporaryFile("w", prefix="new-", dir=self.folder, delete=False, encoding="utf-8")
            with file:
                json.dump({"key": key, "kind": verdict.kind, "why": verdict.why}, file)
            os.replace(file.name, f"{self.folder}/{key}")

    def shrink(self):
        """Removes the entries that were used least lately, beyond MOST."""
        if not self.folder:
            return
        with contextlib.suppress(OSError):
            entries = sorted((it.stat().st_mtime, it.path) for it in os.scandir(self.folder))
            for _, path in entries[: max(0, len(entries) - MOST)]:
                os.remove(path)
