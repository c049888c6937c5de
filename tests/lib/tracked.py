"""The files of the repository as git has them, copies of them, and room for copies. A test reads and runs a copy: so
what somebody built, edited or left in the tree that he works in changes nothing of what the test says, and the test
leaves nothing there. Where git doesn't know the tree, as in an unpacked archive, a list names the files of the examples,
and all else counts that no build leaves. Nothing here needs the program."""

import os
import re
import shutil
import subprocess
import tempfile
from fnmatch import fnmatch
from functools import cache

TOP = os.path.dirname(os.path.dirname(os.path.dirname(os.path.abspath(__file__))))
# Documents invite their reader to change what stands here. So a copy has of it what git has, committed or staged.
PLAYED_WITH = "examples/"
# Its files, for where git doesn't know the tree. tests/examples compares the list with what git has.
LIST = "examples/files.txt"
# Other folders that aren't the repository's.
LEFT = re.compile(r"examples|built|\.proving|\.trying|crates/\w+/out|(?:.*/)?__pycache__")
# By these, as a hook has them, git would look at another repository than at that of the folder.
ELSEWHERE = {"GIT_DIR", "GIT_WORK_TREE", "GIT_INDEX_FILE", "GIT_PREFIX", "GIT_COMMON_DIR", "GIT_OBJECT_DIRECTORY"}
# What a user has set for git has no effect on a clone.
WITHOUT_SETTINGS = {
    "GIT_CONFIG_GLOBAL": os.devnull,
    "GIT_CONFIG_NOSYSTEM": "1",
    **{f"GIT_{who}_{what}": "tests" for who in ("AUTHOR", "COMMITTER") for what in ("NAME", "EMAIL")},
}


def git(place, *words, **more):
    """What git prints in a folder."""
    environment = {name: value for name, value in os.environ.items() if name not in ELSEWHERE}
    environment.update(more.pop("env", {}))
    done = subprocess.run(["git", "-C", place, *words], env=environment, stdout=subprocess.PIPE, check=True, **more)
    return done.stdout.decode()


def room_on_disk():
    """A new directory, for `with`: it is removed at the end."""
    return tempfile.TemporaryDirectory()


def room():
    """The same in memory, where the system has a place for it: beside other work a test that waits for the disk takes
    many times as long. Those that are about directories stay on the disk."""
    return room_in_memory(runs_programs=True)


def room_in_memory(runs_programs=False):
    """The same, also where no program may be run from there, if the test runs none."""
    place = "/dev/shm"
    is_good = os.access(place, os.W_OK) and not (runs_programs and os.statvfs(place).f_flag & os.ST_NOEXEC)
    return tempfile.TemporaryDirectory(dir=place if is_good else None)


@cache
def has_git():
    """Whether git knows this tree. It doesn't answer where another user owns the clone."""
    if not os.path.exists(f"{TOP}/.git"):
        return False
    try:
        git(TOP, "rev-parse", stderr=subprocess.DEVNULL)
    except (OSError, subprocess.CalledProcessError):
        return False
    return True


def listed():
    """The names of the examples' files by the list."""
    with open(f"{TOP}/{LIST}", encoding="utf-8") as file:
        return file.read().splitlines()


def found():
    """The names of all files where git doesn't know the tree."""
    yield from listed()
    for above, folders, names in os.walk(TOP):
        inside = os.path.relpath(above, TOP)
        folders[:] = [it for it in folders if not LEFT.fullmatch(os.path.normpath(f"{inside}/{it}"))]
        yield from (os.path.normpath(f"{inside}/{name}") for name in names)


def tracked(*paths):
    """The names of the repository's files, in order: all, or those at and below these paths, in which a * stands for
    anything. One that was removed isn't there."""
    if has_git():
        names = git(TOP, "ls-files", "-z", "--", *paths).split("\0")[:-1]
        return [name for name in names if name.startswith(PLAYED_WITH) or os.path.lexists(f"{TOP}/{name}")]
    names = sorted(found())
    return [name for name in names if not paths or any(fnmatch(name, it) or fnmatch(name, f"{it}/*") for it in paths)]


def copy(place, *paths):
    """Copies the repository's files to a folder: all, or those at and below these paths. What was changed and not yet
    committed is copied as it stands, but for examples: there a change counts once it is staged."""
    names = tracked(*paths)
    staged = [name for name in names if name.startswith(PLAYED_WITH) and has_git()]
    if staged:
        git(TOP, "checkout-index", "-z", "--stdin", f"--prefix={place}/", input="\0".join(staged).encode())
    for name in {*names} - {*staged}:
        os.makedirs(os.path.dirname(f"{place}/{name}"), exist_ok=True)
        shutil.copy(f"{TOP}/{name}", f"{place}/{name}")


def origin(place):
    """Makes a repository with one commit of what `copy` copies, to be cloned."""
    copy(place)
    for words in ["init", "-q"], ["add", "-A", "-f"], ["commit", "-q", "-m", "all"]:
        git(place, *words, env=WITHOUT_SETTINGS)


def clone(place, source):
    """Clones a repository into a new folder."""
    git(".", "clone", "-q", "--shared", source, place, env=WITHOUT_SETTINGS)
