"""Rounds: wrong bodies that are tried in one check. No two of a round stand in one function, nor in functions that are
proved together since they call one another. A caller is judged by its own goals even if what it calls isn't proved, so
it doesn't matter who calls whom."""

from dataclasses import dataclass

from .judging import proofs_of

# How many edits a round may have: so few that processors share those of a crate, and that one spoils little.
MOST = 16


@dataclass(frozen=True)
class Placed:
    """An edit and the function that it stands in."""

    edit: object
    function: object

    @property
    def owner(self):
        return self.function.name


def meet(one, other):
    """Whether two edits can't be tried in one check."""
    return proofs_of(one.function)[-1] == proofs_of(other.function)[-1]


def rounds(all_placed):
    """Puts edits into few rounds, each into the first that it fits."""
    found = []
    for it in sorted(all_placed, key=lambda it: (it.owner, it.edit.name)):
        fitting = [group for group in found if len(group) < MOST and not any(meet(it, other) for other in group)]
        if fitting:
            fitting[0].append(it)
        else:
            found.append([it])
    return found
