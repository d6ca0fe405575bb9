"""How a replica grows: what it takes of memory, and of time to load a text, to take edits and act one at a time, and to print.

A tree has live edges alone. Of a history nine tenths of the edges are deleted. Texts are loaded in calls of a thousand edits. Each size is
measured in processes of its own, of which the best counts; times are of the processor, through the package. With --tsv a file for
bench/growth.gp is written too.
"""
import pathlib
import random

import programs
from measuring import best, each, head, resident, row, seconds, words_of

from grove import Replica

ONE_AT_A_TIME = 2_000
HEADS = (
    "What", "Edits", "Memory, MB", "Bytes an edit", "Bytes a live vertex", "Load, s", "Apply, µs", "Of it the call, µs", "Act, µs", "Undo, µs",
    "Print, s", "Print, MB", "Canonical, s", "Canonical, MB",
)  # fmt: skip
SHOWN = ("load", "apply", "call", "act", "undo", "show", "show_size", "canonical", "canonical_size")
PLOTTED = ("memory", "load", "show", "canonical", "apply", "call", "act", "undo")


def one_at_a_time(replica: Replica, branches: int) -> dict[str, float]:
    """Microseconds of an edit, of a call without one, and of an action and its undoing."""
    rng = random.Random(1)
    wraps = [f"wrap {programs.name(at, 1)} right plus" for at in rng.sample(range(branches - 1), min(ONE_AT_A_TIME, branches - 1))]
    calls = {
        "apply": (replica.apply, programs.new_edits(rng, branches, 99, ONE_AT_A_TIME)),
        "call": (replica.apply, [b""] * ONE_AT_A_TIME),
        "act": (lambda line: replica.act(100, line), wraps),
        "undo": (replica.undo, [100] * len(wraps)),
    }
    return {name: seconds(each, take, words) / len(words) * 1e6 for name, (take, words) in calls.items()}


def measure(kind: str, edits: int) -> dict[str, float]:
    """Seconds, megabytes, and microseconds of what is done one at a time."""
    texts = programs.cut(programs.text(kind, edits), programs.EDITS_A_CALL)
    replica = Replica(seed=1)
    before = resident()
    load = seconds(each, replica.apply, texts)
    of = {"memory": (resident() - before) / 1e6, "load": load}
    for name, text in (("show", replica.show), ("canonical", replica.canonical)):
        of |= {name: seconds(text), f"{name}_size": len(text()) / 1e6}
    return of | one_at_a_time(replica, programs.live(kind, edits) // 2)


def main() -> None:
    words = words_of(__doc__, tsv="a file to write the plot from")
    lines = []
    head(*HEADS)
    for kind in programs.KINDS:
        for edits in words.sizes:
            of = best(words.repeats, measure, kind, edits)
            of_memory = (of["memory"] * 1e6 / count for count in (1e6, edits, programs.live(kind, edits) + 1))
            row(kind, edits, *of_memory, *(of[name] for name in SHOWN))
            lines.append((kind, edits, *(of[name] for name in PLOTTED)))
    if words.tsv:
        pathlib.Path(words.tsv).write_text("".join("\t".join(map(str, line)) + "\n" for line in lines))


if __name__ == "__main__":
    main()
