"""How edits come into a replica: what they take of time, of memory afterwards, and of memory at the most, by the way they come.

All edits of a call are taken or none, so a call keeps them until the last one is in. Of an action what it did is kept, so that it can be undone.
"""
import resource
from collections.abc import Callable

import programs
from measuring import best, each, head, resident, row, seconds, words_of

from grove import Replica

AUTHOR = 9


def as_texts(replica: Replica, edits: int, edits_a_call: int) -> tuple[Callable, list]:
    return replica.apply, programs.cut(programs.text("tree", edits), edits_a_call)


def as_actions(replica: Replica, edits: int) -> tuple[Callable, list]:
    """The tree as one author makes it, whose names are 9.1, 9.2 and so on, of a vertex and its edge by turns."""
    lines = ["construct 0.0 main plus"]
    for number in range(1, edits):
        parent = (number - 1) // 2
        lines.append(f"construct {AUTHOR}.{2 * parent + 1} {'left' if number % 2 else 'right'} {'plus' if number < edits // 2 else 'num:7'}")
    return lambda line: replica.act(AUTHOR, line), lines


def measure(way: Callable, edits: int, *more) -> dict[str, float]:
    replica = Replica(seed=1)
    take, words = way(replica, edits, *more)
    before = resident()
    load = seconds(each, take, words)
    after = resident() - before
    most = max(after, resource.getrusage(resource.RUSAGE_SELF).ru_maxrss * 1024 - before)
    return {"load": load, "an_edit": load / edits * 1e6, "after": after / 1e6, "bytes": after / edits, "most": most / 1e6}


def main() -> None:
    words = words_of(__doc__)
    head("Edits", "How", "Time, s", "An edit, µs", "Memory after, MB", "Bytes an edit", "Memory at the most, MB")
    for edits in words.sizes:
        ways = {
            "one a call": (as_texts, edits, 1),
            "1,000 a call": (as_texts, edits, 1_000),
            "all in one call": (as_texts, edits, edits),
            "actions of one author": (as_actions, edits),
        }
        for name, way in ways.items():
            row(edits, name, *best(words.repeats, measure, *way).values())


if __name__ == "__main__":
    main()
