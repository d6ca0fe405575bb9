"""A replica of a program: what an editor asks of Grove."""
import ctypes
import json
import operator
import secrets
from collections.abc import Iterable

from . import faults
from .library import FAULTS, LIBRARY, Code, FirstBadLine, Handle, Text
from .records import Answer, Record
from .refusals import Nothing, refusal

LAST_AUTHOR = 2**32 - 1
FIRST_ROOM = 4096


class Replica:
    """A live graph, the marks of which are kept from call to call.

    Replicas that took the same edits, in any order and with any repeats, show the same. A call that fails leaves the replica as it was.
    A replica is given to one call at a time; it may go from thread to thread. It is freed by `close`, at the end of a `with` block, or
    with the object.
    """

    def __init__(self, seed: int | None = None):
        """An empty program. What is looked up is found by hashes under the seed, which no answer depends on; it is random if left out."""
        self._handle = Handle()
        self._room = ctypes.create_string_buffer(FIRST_ROOM)
        self._length = ctypes.c_size_t()
        seed = secrets.randbits(64) if seed is None else seed
        self._check(LIBRARY.grove_new(checked(seed, 2**64 - 1, "seed"), self._handle))

    def __enter__(self) -> "Replica":
        return self

    def __exit__(self, *_) -> None:
        self.close()

    def __del__(self) -> None:
        self.close()

    def close(self) -> None:
        """Frees the replica. Every later call but this one raises ValueError."""
        LIBRARY.grove_free(self._handle)

    # ---- what changes the program

    def apply(self, edits: str | bytes) -> None:
        """Joins an edit text with the program: all of its lines, or none of them and its BadLine is raised."""
        edits = as_bytes(edits)
        bad = FirstBadLine()
        self._check_text(LIBRARY.grove_apply(self._handle, edits, len(edits), bad), bad)

    def apply_pieces(self, pieces: Iterable[bytes]) -> None:
        """As `apply`, of a text that comes in pieces, cut anywhere."""
        for piece in map(as_bytes, pieces):
            self._check(LIBRARY.grove_piece(self._handle, piece, len(piece)))
        bad = FirstBadLine()
        self._check_text(LIBRARY.grove_take(self._handle, bad), bad)

    def act(self, author: int, line: str) -> Answer:
        """Does an action of an author, as `construct 1.1 cond true`, or raises its Refused; a line that is no action raises Syntax."""
        line = as_bytes(line)
        return self._answer(LIBRARY.grove_act(self._handle, as_author(author), line, len(line)))

    def undo(self, author: int) -> Answer:
        """Undoes the author's last action on this replica that was neither refused nor undone, or raises its Refused."""
        return self._answer(LIBRARY.grove_undo(self._handle, as_author(author)))

    def redo(self, author: int) -> Answer:
        """Does again what the author undid last, unless the author has acted since, or raises its Refused."""
        return self._answer(LIBRARY.grove_redo(self._handle, as_author(author)))

    # ---- what tells of it

    def show(self) -> str:
        """The print text: all trees, a line a node, with types and marks."""
        return self._text(Text.PRINT)

    def canonical(self) -> str:
        """The canonical text: the edits of the program, one line for each edge, in order."""
        return self._text(Text.CANONICAL)

    def report(self) -> dict[str, list[list[dict]]]:
        """The report of docs/report.schema.json: arrays of trees, each an array of nodes."""
        return json.loads(self._text(Text.JSON))

    def marks(self) -> list[Record]:
        """The records that have a mark, in the order of the print text."""
        trees = (tree for trees in sorted_trees(self.report()) for tree in trees)
        return [Record.of(node) for tree in trees for node in tree if node["mark"] != "-"]

    def changed(self) -> list[Record]:
        """The records that the last call that changed the program changed, in vertex order; what has come has changed."""
        return [Record.read(line) for line in self._text(Text.CHANGED).splitlines()]

    def record(self, vertex: str) -> Record | None:
        """The record of a vertex, given as its name and constructor, `1.1 if`; None where the program has no such vertex."""
        words = as_bytes(vertex)
        code, line = self._read(lambda room, size: LIBRARY.grove_judged(self._handle, words, len(words), room, size, self._length))
        if code == Code.NO_VERTEX:
            return None
        self._check(code)
        return Record.read(line)

    def summary(self) -> str:
        """What the program has, by ranges of names: what another replica is told to answer what this one lacks."""
        return self._text(Text.SUMMARY)

    def lacking(self, summary: str | bytes) -> str:
        """The edits that another replica lacks by its summary, which it is to apply; a text that is no summary raises its BadLine.

        Once each of two replicas has applied what the other answered, both have all edits of both, where no name was given twice.
        """
        summary = as_bytes(summary)
        bad = FirstBadLine()
        code, edits = self._read(lambda room, size: LIBRARY.grove_lacking(self._handle, summary, len(summary), room, size, self._length, bad))
        self._check_text(code, bad)
        return edits

    def greatest(self, author: int) -> int:
        """The greatest counter of the author's names in the program, or 0."""
        counter = ctypes.c_uint64()
        self._check(LIBRARY.grove_greatest(self._handle, as_author(author), counter))
        return counter.value

    # ---- codes and texts

    def _check(self, code: int) -> None:
        if code == Code.DONE:
            return
        if code == Code.NO_MEMORY:
            raise MemoryError
        if code == Code.MALFORMED:
            raise faults.Syntax(1)
        raise ValueError("the replica is closed" if not self._handle.at else f"wrong call ({Code(code).name})")

    def _check_text(self, code: int, bad: FirstBadLine) -> None:
        if code == Code.MALFORMED:
            raise faults.BY_NAME[FAULTS[bad.fault]](bad.line)
        self._check(code)

    def _answer(self, code: int) -> Answer:
        if code == Code.NOTHING:
            raise Nothing("nothing")
        if code == Code.REFUSED:
            raise refusal(self._text(Text.ANSWER).rstrip())
        self._check(code)
        return Answer(self._text(Text.ANSWER).rstrip(), self._text(Text.EDITS))

    def _text(self, which: Text) -> str:
        code, text = self._read(lambda room, size: LIBRARY.grove_text(self._handle, which, room, size, self._length))
        self._check(code)
        return text

    def _read(self, call) -> tuple[int, str]:
        """What a call writes to the room, which is made as large as the call says that it has to be."""
        code = call(self._room, len(self._room))
        if code == Code.NO_ROOM:
            self._room = ctypes.create_string_buffer(self._length.value)
            code = call(self._room, len(self._room))
        return code, ctypes.string_at(self._room, self._length.value).decode() if code == Code.DONE else ""


def sorted_trees(report: dict) -> list:
    return [report[kind] for kind in ("none", "multi", "cycle")]


def as_bytes(text: str | bytes) -> bytes:
    if isinstance(text, str):
        return text.encode()
    if isinstance(text, (bytes, bytearray, memoryview)):
        return bytes(text)
    raise TypeError(f"{type(text).__name__} is no text")


def as_author(author: int) -> int:
    return checked(author, LAST_AUTHOR, "author", least=1)


def checked(number: int, most: int, what: str, least: int = 0) -> int:
    """The number, which ctypes would otherwise cut to its lowest bits without a word."""
    if not least <= operator.index(number) <= most:
        raise ValueError(f"{number} is no {what}")
    return number
