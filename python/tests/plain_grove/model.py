"""A replica in plain Python, with the calls of `grove.Replica`."""
import operator
from collections import defaultdict

from grove import faults, refusals
from grove.records import Answer, Record

from .actions import Plan, Refusal
from .forms import LAST_AUTHOR
from .graphs import Graph
from .marking import Marking
from .summaries import lacking, read_summary, summary_of
from .texts import BadLine, Fault, edit_line, read_constructor, read_name, read_text
from .undoing import take_and_tell, undoing_edits


class Model:
    """Keeps a graph and what each author did and undid. Marks are made anew where they are asked for."""

    def __init__(self, seed=None):
        self.graph = Graph()
        self.done = defaultdict(list)
        self.undone = defaultdict(list)
        self.before = {}
        self.marked = None

    def __enter__(self):
        return self

    def __exit__(self, *_):
        self.close()

    def close(self):
        self.graph = None

    def marking(self):
        if self.marked is None:
            self.marked = Marking(self.graph)
        return self.marked

    def judgements(self):
        """How each vertex is judged, and whether it is the root of a cycle."""
        marking = self.marking()
        return {vertex: (record, marking.kinds.get(vertex) == "cycle") for vertex, record in marking.records.items()}

    def keep_judgements(self):
        """Keeps the judgements as they are, so that `changed` can tell which are others since."""
        self.before = self.judgements()

    def take(self, edits):
        self.marked = None
        return take_and_tell(self.graph, edits)

    def apply(self, text):
        self.take(read_by(read_text, text))

    def apply_pieces(self, pieces):
        self.apply(b"".join(pieces))

    def act(self, author, line):
        check_author(author)
        try:
            edits, answer = Plan(self.graph, author, line).make()
        except Fault:
            raise faults.Syntax(1) from None
        except Refusal as refusal:
            raise refusals.refusal(f"refused {refusal}") from None
        self.done[author].append(self.take(edits))
        self.undone[author].clear()
        return Answer(answer, text_of(edits))

    def undo(self, author):
        return self.turn(author, self.done, self.undone, "undone")

    def redo(self, author):
        return self.turn(author, self.undone, self.done, "redone")

    def turn(self, author, deeds, others, word):
        """Undoes the last of an author's deeds; what that changed is put with the others."""
        check_author(author)
        if not deeds[author]:
            raise refusals.refusal("nothing")
        try:
            edits = undoing_edits(self.graph, author, deeds[author][-1])
        except Refusal as refusal:
            raise refusals.refusal(f"refused {refusal}") from None
        deeds[author].pop()
        others[author].append(self.take(edits))
        return Answer(f"{word} {len(edits)}", text_of(edits))

    def show(self):
        return self.marking().text()

    def canonical(self):
        return text_of(("+" if live else "-", edge) for edge, live in sorted(self.graph.is_live.items()))

    def marks(self):
        nodes = (line.split(" ") for line in self.marking().lines)
        return [Record(f"{node[3]} {node[4]}", *node[5:]) for node in nodes if len(node) == 8 and node[7] != "-"]

    def changed(self):
        """The records of the vertices that are judged otherwise than at the last `keep_judgements`, in vertex order."""
        now = self.judgements()
        return [now[vertex][0] for vertex in sorted(now) if self.before.get(vertex) != now[vertex]]

    def record(self, vertex):
        name, _, constructor = vertex.partition(" ")
        try:
            found = read_name(name) + read_constructor(constructor)
        except Fault:
            raise faults.Syntax(1) from None
        return self.marking().records[found] if self.graph.is_vertex(found) else None

    def summary(self):
        return summary_of(self.graph)

    def lacking(self, summary):
        return text_of(lacking(self.graph, read_by(read_summary, summary)))

    def greatest(self, author):
        check_author(author)
        return self.graph.greatest.get(author, 0)


def read_by(read, text):
    try:
        return read(text.encode() if isinstance(text, str) else bytes(memoryview(text)))
    except BadLine as bad:
        raise faults.BY_NAME[bad.fault](bad.line) from None


def check_author(author):
    if not 0 < operator.index(author) <= LAST_AUTHOR:
        raise ValueError(f"no author has the number {author}")


def text_of(edits):
    lines = "".join(edit_line(sign, edge) for sign, edge in edits)
    return "grove 2\n" + lines if lines else ""
