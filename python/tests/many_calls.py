"""Holds the library against the model in plain Python, over random calls.

    many_calls.py COUNT [SEED]

Each call must answer or refuse alike; now and then all texts must be alike, and which records the next call changes.
"""
import pathlib
import random
import sys

TESTS = pathlib.Path(__file__).resolve().parent
sys.path[:0] = [str(TESTS), str(TESTS.parent)]

from grove import BadLine, Refused, Replica  # noqa: E402
from plain_grove.model import Model  # noqa: E402
from random_calls import RandomCalls  # noqa: E402

CALLS_OF_A_REPLICA = 1200
FEWEST_BETWEEN_LOOKS = 40
MOST_LOOKS = 8000
DEEPEST = 20_000
CHANGING = {"act", "apply", "apply_pieces", "undo", "redo"}


def outcome(replica, call):
    """What a call answers, or the exception that it raises: all of what Grove tells, and of wrong calls the kind."""
    name, *arguments = call
    try:
        return "answered", getattr(replica, name)(*arguments)
    except Refused as refused:
        return "refused", type(refused).__name__, refused.answer
    except BadLine as bad:
        return "malformed", type(bad).__name__, bad.line
    except (TypeError, ValueError) as wrong:
        return "wrong", type(wrong).__name__


class Different(AssertionError):
    """The library and the model differ."""


def same(what, ours, theirs, calls):
    if ours != theirs:
        last = "\n".join(map(repr, calls[-10:]))
        raise Different(f"{what}: the library has\n{ours}\nand the model\n{theirs}\nafter {len(calls)} calls, the last of which are\n{last}")


def report_lines(report):
    """The print text by the report."""
    columns = ("position", "edge", "vertex", "what", "mode", "type", "mark")
    for kind in ("none", "multi", "cycle"):
        yield f"{kind} {len(report[kind])}\n"
        for tree in report[kind]:
            yield from (" ".join((str(node["depth"]), *map(node.get, columns))) + "\n" for node in tree)


def look(replica, model, calls):
    """All texts are alike."""
    text = model.show()
    same("show", replica.show(), text, calls)
    same("canonical", replica.canonical(), model.canonical(), calls)
    same("report", "".join(report_lines(replica.report())), text, calls)
    same("marks", replica.marks(), model.marks(), calls)
    same("summary", replica.summary(), model.summary(), calls)


class Pair:
    """A replica and a model that are given the same calls."""

    def __init__(self, rng):
        self.replica, self.model = Replica(rng.randrange(2**64)), Model()
        self.random = RandomCalls(rng, self.model.graph)
        self.calls = []

    def call(self, is_looked_at):
        """One more call; where it is looked at, also what it changes is compared, and all texts."""
        call = self.random.call()
        self.calls.append(call)
        if is_looked_at:
            self.model.keep_judgements()
        ours = outcome(self.replica, call)
        if is_looked_at or call[0] != "record":
            same(f"the outcome of {call}", ours, outcome(self.model, call), self.calls)
        if is_looked_at:
            self.look(call, ours)

    def look(self, call, told):
        if call[0] in CHANGING and told[0] in ("answered", "refused"):
            same(f"what {call} changes", self.replica.changed(), self.model.changed(), self.calls)
        look(self.replica, self.model, self.calls)


def run(count, seed=1):
    """So many calls; answers how often each outcome came, and how often all was compared."""
    rng = random.Random(seed)
    every = max(FEWEST_BETWEEN_LOOKS, count // MOST_LOOKS)
    looks = 0
    for start in range(0, count, CALLS_OF_A_REPLICA):
        pair = Pair(rng)
        for number in range(start, min(start + CALLS_OF_A_REPLICA, count)):
            pair.call(number % every == every - 1)
            looks += number % every == every - 1
        pair.replica.close()
    return looks


if __name__ == "__main__":
    sys.setrecursionlimit(DEEPEST)
    number = int(sys.argv[1])
    print(f"many calls: {number} calls, all texts compared {run(number, *map(int, sys.argv[2:]))} times, no difference")
