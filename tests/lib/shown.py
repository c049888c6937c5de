"""The commands that the documents show, with what they print. In an indented or fenced block, and in a display of the
manual page, a line that begins with '$ ' is a command. The lines below it, up to the next command or the end of the
block, are what it prints on a terminal."""

import re
import subprocess
from collections import namedtuple

from lib.tracked import tracked

# Documents of which a clone runs the commands as they stand there.
DOCUMENTS = ["README.md", "docs/MANUAL.md", *(it for it in tracked("examples") if it.endswith("/README.md"))]

# A command: the number of its line, its text, and the lines that it prints.
Command = namedtuple("Command", "number text lines")

# How a manual page spells some signs. All other escapes there change the font, or show nothing.
SIGNS = {r"\-": "-", r"\e": "\\", r"\(rs": "\\", r"\(aq": "'", r"\(dq": '"', r"\(ga": "`", r"\(ti": "~", r"\(ha": "^"}


def shown(path):
    """Each line of a document as a block shows it, or None where no block is. Empty lines don't part a block."""
    inside = False
    with open(path, encoding="utf-8") as file:
        for line in file.read().split("\n"):
            if path.endswith(".1"):
                inside = {".nf": True, ".EX": True, ".fi": False, ".EE": False}.get(line, inside)
                shows = inside and not line.startswith(".")
                line = re.sub(r"\\([-e&]|\(..|f.)", lambda it: SIGNS.get(it[0], ""), line)
            else:
                fence = line.startswith("```")
                inside ^= fence
                shows = not fence and (inside or line.startswith("    ") or not line)
                line = line if inside else line[4:]
            yield line if shows else None
    yield None


def blocks(path):
    """The blocks of a document that have commands, each a list of them."""
    block = []
    for number, line in enumerate(shown(path), 1):
        if line is None:
            yield from [block] if block else []
            block = []
        elif line.startswith("$ "):
            block.append(Command(number, line[2:], []))
        elif block:
            block[-1].lines.append(line)


def printed(commands, place, environment):
    """What each of these commands prints, which a shell runs one after another from a folder. Behind one that ends the
    shell there is nothing more."""
    # A zero byte behind what each prints; the next one finds its exit status.
    session = "".join(f"{it.text}\nstatus=$?; printf '\\0'; (exit $status)\n" for it in commands)
    done = subprocess.run(["sh", "-c", session], cwd=place, env={**environment, "LC_ALL": "C"}, timeout=120,
                          stdin=subprocess.DEVNULL, stdout=subprocess.PIPE, stderr=subprocess.STDOUT, check=False)
    return done.stdout.decode(errors="replace").split("\0")[:-1]


def compare(case, document, commands, found):
    """Says of each command that doesn't print what the document shows."""
    for at, command in enumerate(commands):
        out = found[at].rstrip("\n") if at < len(found) else "(nothing: the shell ended)"
        name = f"{document}:{command.number}: {command.text}"
        case.equal(name, "what it prints", out, "\n".join(command.lines).rstrip("\n"))
