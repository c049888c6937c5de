"""Random trees of one generator, for the scripts that build many of them. A tree, and each change of it, is drawn from
a seed and its number: SEED names another seed than 1, COUNT how many are made, and NUMBER the only one."""

import os
import random
import re
from functools import cache
from posixpath import dirname, relpath

from lib.reports import BOOK, as_bytes, candidates

SEED = int(os.environ.get("SEED", 1))
# Whether it is for a whole run to show enough of what it is about.
IS_WHOLE = not {"COUNT", "NUMBER"} & os.environ.keys()


def numbers(count):
    """The numbers of the trees that are made."""
    if "NUMBER" in os.environ:
        return [int(os.environ["NUMBER"])]
    return range(int(os.environ.get("COUNT", count)))


def named(what, number):
    """What a message calls the tree of a number, with all that makes it again."""
    return f"{what} {number} (SEED={SEED} NUMBER={number})"


def chance_of(what):
    """The draws of a tree, or of something else by its name."""
    return random.Random(f"{SEED} {what}")


@cache
def from_directory(path, dir):
    """A path of a tree, as it is read in a directory."""
    return relpath("/" + path, "/" + dir)


class Tree:
    """A tree that changes: its files are `files`, with None for a directory. Targets ask for those behind them, seldom
    for others, so few are in rings."""

    def __init__(self, chance, dirs):
        self.chance = chance
        self.dirs = ["", *(path for path in dirs if path == dirs[0] or self.may(0.5))]
        self.dirs = [path for path in self.dirs if path.rpartition("/")[0] in self.dirs]
        self.files = {dir: None for dir in self.dirs if dir}

    def may(self, chance):
        return self.chance.random() < chance

    def one(self, items):
        return self.chance.choice(items)

    def some(self, least, most):
        return range(self.chance.randint(least, most))

    def path(self, name):
        """A path of this name in one of the directories."""
        dir = self.one(self.dirs)
        return f"{dir}/{name}" if dir else name

    def word(self, path, dir):
        """A word that names a path in a script of a directory."""
        text = from_directory(path, dir)
        return text if re.fullmatch(r"[A-Za-z0-9_./-]+", text) else f"'{text}'"

    def behind(self, target):
        """The targets behind one."""
        return self.targets[self.targets.index(target) + 1 :]

    def whole(self):
        """The tree with its paths in order."""
        return dict(sorted(self.files.items()))


class Wild(Tree):
    """A tree of names of all kinds, and of scripts of each form, also with faults."""

    DIRS = ["a", "a/b", "a/b/c", "d.x", "e f", "\u00e9"]
    STEMS = ["p", "q", "r.x", "s.y.x", "t", "u v", ".w", "x.", "z.y.x", "all"]
    RULES = ["default.do", "default.x.do", "default.y.x.do", "default.w.do"]
    WORDS = ["one", "'two words'", '"$1"', '"$2 and $3"', "''", "$1", "100%", "'#'", "'\n'", '"a\\"b\\$c"', "'\u00e9'"]
    FORMATS = ["x", "''", "'%s\\n'", "'%s-%s\\t%%'", '"$1\\n"']

    def __init__(self, number):
        super().__init__(chance_of(number), self.DIRS)
        self.targets = [self.path(stem) for stem in self.chance.choices(self.STEMS, k=12)]
        self.sources = [self.path(name) for name in ("src", ".hidden", "empty", "o ther", "large")]
        self.files |= {source: self.content(source) for source in self.sources}
        for place, target in enumerate(self.targets):
            if self.may(0.7):
                self.files[target + ".do"] = self.script(dirname(target), self.targets[place + 1 :])
        for rule in self.RULES:
            dir = self.one(self.dirs + [""])
            if self.may(0.5):
                self.files[f"{dir}/{rule}" if dir else rule] = self.script(dir, [])
        if self.may(0.2):
            self.files[self.one(self.targets)] = b"made by hand\n"

    def content(self, path):
        if path.endswith("empty"):
            return b""
        return self.chance.randbytes(100_000 if path.endswith("large") else self.chance.randint(1, 60))

    def word(self, path, dir):
        """Some words spell a path in another way, and some name none."""
        if self.may(0.02):
            return self.one(["/x", "../../../../x", "''"])
        text = super().word(path, dir)
        return "./" + text.replace("/", "//") if text[0] != "'" and self.may(0.1) else text

    def script(self, dir, behind):
        self.declared, self.asked = [], behind
        self.redirects = self.may(0.4)
        lines = ["#!/bin/sh -e"] if self.may(0.2) else []
        lines += [self.statement(dir, 0) for _ in self.some(0, 5)]
        return as_bytes("\n".join(lines) + self.one(["\n", "\n", "", "\n\n# the end"]))

    def statement(self, dir, depth):
        chance = self.chance.random()
        if chance < 0.3:
            return self.ask(dir)
        if chance < 0.4:
            missing = self.path("none") + self.one(["", ".do", ".do"])
            if self.may(0.1):
                missing = self.one(self.sources + self.targets)
            self.declared.append(missing)
            return "redo-ifcreate " + self.word(missing, dir)
        if chance < 0.6:
            return "echo " + " ".join(self.one(self.WORDS) for _ in self.some(0, 3)) + self.output(dir)
        if chance < 0.7:
            format = self.one(self.FORMATS)
            words = [self.one(self.WORDS[:5]) for _ in self.some(0, 3) if "%s" in format or self.may(0.1)]
            return " ".join(["printf", format, *words]) + self.output(dir)
        if chance < 0.82 and (self.declared or self.may(0.2)):
            words = [self.word(self.one(self.declared or self.sources), dir) for _ in self.some(1, 2)]
            return " ".join(["cat", *words]) + self.output(dir)
        if chance < 0.94 and depth < 3:
            return self.branch(dir, depth)
        if chance < 0.96:
            return self.one(["exit 0", "exit 3", "false", self.condition(dir)])
        if chance < 0.99:
            return self.one(["true # a comment", "true;true", "redo-always", "redo-always"])
        return self.one(["echo a | cat", "run it", "echo 'open", "fi", "exit", "printf '%d'"])

    def ask(self, dir):
        """Asks for sources and for targets: those behind the script's own, which make no ring, and seldom any."""
        targets = self.targets if self.may(0.25) else self.asked
        paths = [self.one(targets if targets and self.may(0.6) else self.sources) for _ in self.some(1, 3)]
        self.declared += paths
        return "redo-ifchange " + " ".join(self.word(path, dir) for path in paths)

    def branch(self, dir, depth):
        lines = [f"if {self.condition(dir)}; then"]
        lines += [self.statement(dir, depth + 1) for _ in self.some(1, 2)]
        if self.may(0.5):
            lines += ["else", self.statement(dir, depth + 1)]
        return "\n".join(lines + ["fi"])

    def condition(self, dir):
        if self.declared and self.may(0.4):
            return "test -f " + self.word(self.one(self.declared), dir)
        left, right = self.one(self.WORDS), self.one(self.WORDS)
        return self.one(["true", "false", f"test {left} = {right}", f"test {left} != one"])

    def output(self, dir):
        """A redirection, or none. Within one script most go the same way."""
        if self.may(0.08):
            return self.one(["", " > $3", ' > "$1"', f" > {self.word('other', dir)}"])
        return self.one([' > "$3"', ' >> "$3"', ' >> "$3"']) if self.redirects else ""

    def requested(self):
        if self.may(0.1):
            return []
        paths = self.chance.choices(self.targets, k=self.chance.randint(1, 4))
        if self.may(0.3):
            paths.append(self.one([*self.sources, self.one(self.dirs) or ".", "missing/p"]))
        return paths

    def change(self, files):
        """Puts the files of a run into the tree, and changes up to three things by hand."""
        self.files = {**self.files, **files}
        for _ in self.some(1, 3):
            tree = self.whole()
            path = self.one(list(files) if self.may(0.5) and files else [it for it in tree if tree[it] is not None])
            if self.may(0.3) and (path != BOOK or self.may(0.1)):
                self.files.pop(path, None)
            elif path in tree and path.endswith(".do"):
                self.files[path] = self.script(dirname(path), self.targets)
            elif path in tree and path != BOOK:
                self.files[path] = self.one([as_bytes(tree[path]) + b" ", b"", self.content(path)])


class Tame(Tree):
    """A tree in which what can be put back is drawn from few choices, so that much comes to be what it was."""

    DIRS = ["d", "d/e", "f"]
    TEXTS = ["", "0\n", "1\n"]

    def __init__(self, number):
        super().__init__(chance_of(number), self.DIRS)
        self.sources = [self.path(f"s{number}") for number in range(4)]
        self.absent = [self.path(f"n{number}") for number in range(2)]
        self.targets = [self.path(f"t{number}" + self.one(["", "", ".x"])) for number in range(10)]
        self.files |= {path: self.one(self.TEXTS) for path in self.sources}
        rules = [it for path in self.targets for it in candidates(path)]
        self.rules = [*(path + ".do" for path in self.targets), *{it for it in rules if "default" in it}]
        self.rules.sort()
        self.scripts = {rule: [self.script(rule) for _ in range(2)] for rule in self.rules}
        for rule in self.rules:
            if self.may(0.3 if "default" in rule else 0.85):
                self.files[rule] = self.scripts[rule][0]

    def script(self, rule):
        word = lambda path: self.word(path, dirname(rule))
        target = rule.removesuffix(".do")
        behind = self.behind(target) if target in self.targets else self.targets[-2:]
        behind = self.targets if self.may(0.02) else behind
        asked = [word(self.one(behind if behind and self.may(0.7) else self.sources)) for _ in range(3)]
        digit = self.one("01")
        reads = f"if test -f {asked[1]}; then cat {asked[1]}; else echo no; fi"
        lines = {
            "reads": f"redo-ifchange {asked[0]}\nif test -f {asked[0]}; then cat {asked[0]}; fi",
            "reads two": f"redo-ifchange {asked[0]} {asked[1]}\n{reads}",
            "branches": f"redo-ifchange {asked[0]}\nif test -f {asked[0]}; then redo-ifchange {asked[1]}; echo y; fi",
            "each": f"for x in {' '.join(asked)}; do redo-ifchange $x; done\necho {digit}",
            "asks": f"redo-ifchange {asked[0]}\necho {digit}",
            "names": f'redo-ifchange {asked[0]}\necho "$2" > $3',
            "creates": f"redo-ifcreate {word(self.one(self.absent))}\necho {digit}",
            "scripts": f"redo-ifchange {word(self.one(self.targets))}.do\necho 0",
            "always": f"redo-always\nredo-ifchange {asked[0]}\necho {digit}",
            "nothing": "true",
            "fails": f"redo-ifchange {asked[0]}\nfalse",
        }
        weights = [6, 6, 6, 4, 6, 2, 2, 1, 1, 1, 1]
        return self.chance.choices(list(lines.values()), weights)[0] + "\n"

    def requested(self):
        weights = [12, 6, *[1] * (len(self.targets) - 2)]
        return self.chance.choices(self.targets, weights, k=self.chance.randint(1, 2))

    def change(self, files):
        """Puts the files of a run into the tree, and makes up to three changes by hand."""
        self.files |= files
        for _ in self.some(0, 3):
            kinds = ["source", "script", "built", "absent", "book", "nothing"]
            kind = self.chance.choices(kinds, [8, 8, 4, 1, 0.3, 4])[0]
            if kind == "source":
                self.put(self.one(self.sources), self.TEXTS, 0.1)
            elif kind == "script":
                rule = self.one([it for it in self.rules if it in self.files or self.may(0.2)] or self.rules)
                self.put(rule, self.scripts[rule], 0.15)
            elif kind == "built":
                self.put(self.one(self.targets), self.TEXTS, 0.7)
            elif kind == "absent":
                self.put(self.one(self.absent) + self.one(["", "", ".do"]), [""], 0.7)
            elif kind == "book":
                self.files.pop(BOOK, None)

    def put(self, path, texts, gone):
        if self.may(gone):
            self.files.pop(path, None)
        else:
            self.files[path] = self.one(texts)


# What is put into a text: numbers, words, and pieces of them.
NUMBERS = b"0 1 -1 007 65536 65537 4294967296 18446744073709551615 18446744073709551616".split() + [b"9" * 400]
WORDS = b"if then else fi redo-ifchange redo-ifcreate redo-always test echo cat end true".split()
WORDS += [b"exit 300", b"file 3 x", b"dir x"]
PIECES = b"\0 \xff ' \" \\ $ $1 $9 # > >> .. / // % %s = |".split(b" ") + [b"\n", b" ", b"\t"]


def mutated(chance, text):
    """A text with one to four changes."""
    for _ in range(chance.randint(1, 4)):
        at = chance.randint(0, len(text))
        to = min(len(text), at + chance.randint(1, 12))
        kind = chance.randrange(8)
        if kind == 0:
            text = text[:at] + text[to:]
        elif kind == 1:
            text = text[:to] + text[at:]
        elif kind == 2:
            text = text[:at] + text[at:to][::-1] + text[to:]
        elif kind == 3 and (found := list(re.finditer(rb"[0-9]+", text))):
            number = chance.choice(found)
            text = text[: number.start()] + chance.choice(NUMBERS) + text[number.end() :]
        elif kind == 4:
            text = text[:at] + b" " + chance.choice(WORDS) + chance.choice([b" ", b"\n"]) + text[at:]
        elif kind == 5:
            lines = text.split(b"\n")
            line = chance.randrange(len(lines))
            lines.insert(chance.randrange(len(lines) + 1), lines.pop(line) if chance.random() < 0.5 else lines[line])
            text = b"\n".join(lines)
        elif kind == 6:
            text = text[:at] + bytes([chance.randrange(256)]) + text[at + 1 :]
        else:
            text = text[:at] + chance.choice(PIECES) + text[at:]
    return text
