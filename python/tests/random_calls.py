"""Random calls of a replica: every kind of call and of action, sensible and not, good texts and bad ones."""
from plain_grove.forms import FORMS, POSITIONS, WORDS
from plain_grove.summaries import ranges_of, summary_text, told_of
from plain_grove.texts import ROOT, edge_text, name_text, vertex_text, word_of

AUTHORS = (1, 2, 3)
LITERALS = ("num:0", "num:7", "num:18446744073709551615", "var:x", "var:y", "pvar:x", "pvar:y", "pvar:" + "long_" * 12)
OF_SORT = {
    sort: [word for word in (*WORDS, *LITERALS) if FORMS[word.split(":")[0]][0] == sort and (":" in word or word not in ("var", "num", "pvar"))]
    for sort in ("exp", "pat", "typ")
}
EVERY = sum(OF_SORT.values(), [])
BAD_BYTES = b"\n\0 +-.:019azA\xff\xc3"
ODD_NAMES = ("0.1", "1.0", "0.0", "3.18446744073709551615", "3.18446744073709551613", "4294967295.1", "4294967296.1", "1.18446744073709551616")
WRONG_AUTHORS = (0, -1, 2**32, 2**64, 1.5, "1", None)
WRONG_TEXTS = (5, None, ["+"], 1.5)


class RandomCalls:
    """Makes calls by the graph of a model, so that most of them mean something. A call is the name of a method and its arguments."""

    def __init__(self, rng, graph):
        self.rng, self.graph = rng, graph
        self.makers, self.weights = zip(
            (self.action, 40), (self.edits, 16), (self.pieces, 6), (self.bad_edits, 6), (self.bad_action, 4),
            (self.turn, 12), (self.question, 12), (self.exchange, 4), (self.wrong_call, 4),
        )

    def call(self):
        return self.rng.choices(self.makers, self.weights)[0]()

    # ---- parts

    def vertex(self):
        if not self.graph.edges or self.rng.random() < 0.02:
            return ROOT
        return self.rng.choice(self.graph.edges)[self.rng.choice((2, 4))]

    def place(self):
        """A vertex and a position, mostly of a vertex that has some and one that it has."""
        vertex = next((vertex for vertex in (self.vertex() for _ in range(3)) if self.graph.places(vertex)), ROOT)
        positions = list(self.graph.places(vertex))
        return vertex, self.rng.choice(positions if positions and self.rng.random() < 0.93 else POSITIONS)

    def constructor(self, vertex, position):
        """A constructor, mostly of the sort that the place wants."""
        return self.rng.choice(OF_SORT[self.graph.places(vertex).get(position, "exp")] if self.rng.random() < 0.9 else EVERY)

    def edge_name(self):
        return name_text(self.rng.choice(self.graph.edges)) if self.graph.edges and self.rng.random() < 0.95 else "1.1"

    def new_name(self):
        """Mostly a good one; now and then none of an author, or one that leaves its author no others."""
        if self.rng.random() < 0.005:
            return self.rng.choice(ODD_NAMES)
        return f"{self.rng.choice(AUTHORS)}.{self.rng.randrange(1, 3000)}"

    # ---- what changes the graph

    def action(self):
        return "act", self.rng.choice(AUTHORS), self.action_line()

    def action_line(self):
        verb = self.rng.choice(("construct", "construct", "construct", "wrap", "become", "delete", "cut", "relocate", "restore"))
        vertex, position = self.place()
        place = f"{name_text(vertex)} {position}"
        if verb == "cut":
            return f"cut {self.edge_name()}"
        if verb == "delete":
            return f"delete {place}"
        if verb == "relocate":
            return f"relocate {self.edge_name()} {place}"
        if verb == "restore":
            return f"restore {name_text(self.vertex())} {place}"
        return f"{verb} {place} {self.constructor(vertex, position)}"

    def edit(self):
        """A line: the deletion of an edge that is there, a repeat of one, or a new edge."""
        if self.graph.edges and self.rng.random() < 0.3:
            return self.rng.choice("+---") + edge_text(self.rng.choice(self.graph.edges)) + "\n"
        vertex, position = self.place()
        name = self.edge_name() if self.rng.random() < 0.03 else self.new_name()
        return f"+{name} {vertex_text(vertex)} {position} {self.target(vertex, position)}\n"

    def target(self, vertex, position):
        """A vertex that is there, now and then also of the wrong sort, or a new one."""
        other = self.vertex()
        if self.rng.random() < 0.3 and FORMS[word_of(other)][0] == self.graph.places(vertex).get(position):
            return vertex_text(other)
        return f"{self.new_name()} {self.constructor(vertex, position)}"

    def text(self):
        heading = "grove 2\n" if self.rng.random() < 0.9 else ""
        return (heading + "".join(self.edit() for _ in range(self.rng.randrange(5)))).encode()

    def edits(self):
        return "apply", self.text()

    def pieces(self):
        text = self.text() if self.rng.random() < 0.8 else self.spoilt(self.text())
        cuts = sorted(self.rng.randrange(len(text) + 1) for _ in range(self.rng.randrange(5)))
        return "apply_pieces", [text[start:end] for start, end in zip([0, *cuts], [*cuts, len(text)])]

    def spoilt(self, text):
        """The text with a byte changed, taken out or put in; now and then that leaves it good."""
        at = self.rng.randrange(len(text) + 1)
        put = bytes([self.rng.choice(BAD_BYTES)]) if self.rng.random() < 0.7 else b""
        return text[:at] + put + text[at + self.rng.randrange(2):]

    def bad_edits(self):
        return "apply", self.spoilt(self.text())

    def bad_action(self):
        return "act", self.rng.choice(AUTHORS), self.spoilt(self.action_line().encode()).decode("latin-1")

    def turn(self):
        return self.rng.choice(("undo", "undo", "redo")), self.rng.choice(AUTHORS)

    # ---- what does not

    def question(self):
        if self.rng.random() < 0.3:
            return "greatest", self.rng.choice(AUTHORS)
        words = vertex_text(self.vertex())
        if self.rng.random() < 0.3:
            words = self.spoilt(words.encode()).decode("latin-1")
        return "record", words

    def exchange(self):
        """The summary, or what another lacks that has a part of the edges and some others."""
        if self.rng.random() < 0.3:
            return ("summary",)
        edges = self.rng.sample(self.graph.edges, self.rng.randrange(len(self.graph.edges) + 1))
        told = told_of(edges, [edge for edge in edges if self.rng.random() < 0.5])
        told |= {(self.rng.randrange(2), self.rng.choice(AUTHORS), self.rng.randrange(3000)) for _ in range(self.rng.randrange(3))}
        summary = summary_text(ranges_of(told)).encode()
        return "lacking", summary if self.rng.random() < 0.7 else self.spoilt(summary)

    def wrong_call(self):
        if self.rng.random() < 0.5:
            name = self.rng.choice(("undo", "redo", "greatest"))
            return name, self.rng.choice(WRONG_AUTHORS)
        return self.rng.choice(("apply", "lacking")), self.rng.choice(WRONG_TEXTS)
