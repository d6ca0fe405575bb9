"""What a replica tells of its vertices and of its actions."""
import json
from typing import NamedTuple


class Record(NamedTuple):
    """How a vertex is judged, by the words of the print text.

    `vertex` is its name and constructor, as in edit texts. `mode` is `syn`, `ana:` and a type, or the sort of what is no expression;
    `type` and `mark` are `-` where there is none.
    """

    vertex: str
    mode: str
    type: str
    mark: str

    @classmethod
    def read(cls, line: str) -> "Record":
        """The record in the JSON of one line."""
        return cls.of(json.loads(line))

    @classmethod
    def of(cls, members: dict) -> "Record":
        """The record in a node of a report, or in a line of its own."""
        return cls(f"{members['vertex']} {members['what']}", members["mode"], members["type"], members["mark"])


class Answer(NamedTuple):
    """What an action answered, as in journals, and the text of the edits that it made, which other replicas apply."""

    text: str
    edits: str

    @property
    def name(self) -> str | None:
        """The name of the vertex that was made, or of the edge by which one was moved."""
        word, _, name = self.text.partition(" ")
        return name if word in ("made", "moved") else None
