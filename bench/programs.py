"""Programs to measure with: edit texts of a given length, of eight authors that take turns."""
import random
from collections.abc import Iterator

AUTHORS = 8
EDITS_A_CALL = 1_000
VERSION = b"grove 2\n"


def name(number: int, kind: int) -> str:
    """The name that the author of the action with this number gave to the vertex (1) or the edge (2) that it made."""
    return f"{number % AUTHORS + 1}.{number // AUTHORS * 2 + kind}"


def tree(edits: int) -> Iterator[str]:
    """A sum in which each `plus` has two parts down to numbers: every edge is live, and nothing is marked."""
    branches = max(edits // 2, 1)
    for number in range(edits):
        source = f"{name((number - 1) // 2, 1)} plus {'left' if number % 2 else 'right'}" if number else "0.0 root main"
        target = "plus" if number < branches else f"num:{number % 1000}"
        yield f"+{name(number, 2)} {source} {name(number, 1)} {target}\n"


def history(edits: int) -> Iterator[str]:
    """A tree of a tenth of the edits, at whose ends numbers were put and deleted again, so that nine tenths of the edges are deleted.

    Each vertex that was taken away heads a tree of its own.
    """
    kept = live("history", edits)
    yield from tree(kept)
    for number in range(kept, edits):
        source = (number - kept) % max(kept // 2, 1)
        yield f"-{name(number, 2)} {name(source, 1)} plus left {name(number, 1)} num:{number % 1000}\n"


def chain(edits: int) -> Iterator[str]:
    """One `fst` under the other, as deep as there are edits."""
    for number in range(edits):
        source = f"{name(number - 1, 1)} fst of" if number else "0.0 root main"
        yield f"+{name(number, 2)} {source} {name(number, 1)} fst\n"


KINDS = {"tree": tree, "history": history}


def live(kind: str, edits: int) -> int:
    """How many of the edges are live."""
    return max(edits // 10, 3) if kind == "history" else edits


def text(kind: str, edits: int) -> bytes:
    return "".join({**KINDS, "chain": chain}[kind](edits)).encode()


def new_edits(rng: random.Random, branches: int, author: int, count: int) -> list[bytes]:
    """Edits of the author, each of which puts a number beside what stands at a random place."""
    places = [name(rng.randrange(branches), 1) for _ in range(count)]
    return [f"+{author}.{2 * at + 2} {place} plus left {author}.{2 * at + 1} num:1\n".encode() for at, place in enumerate(places)]


def cut(text: bytes, edits_a_call: int) -> list[bytes]:
    """The text in texts of so many edits each, which tell the version if it does."""
    version = VERSION if text.startswith(VERSION) else b""
    lines = text.removeprefix(VERSION).splitlines(keepends=True)
    return [version + b"".join(lines[at : at + edits_a_call]) for at in range(0, len(lines), edits_a_call)]


def joined(texts: list[bytes]) -> bytes:
    """One text of version two with the edits of these."""
    return VERSION + b"".join(text.removeprefix(VERSION) for text in texts)
