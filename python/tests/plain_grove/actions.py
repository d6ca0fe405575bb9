"""What each action does to a graph, and what it answers."""
from .forms import FORMS, LAST_COUNTER, POSITIONS, first_position
from .texts import (
    Fault, constructor_text, name_text, read_constructor, read_name, read_position, sort_of, vertex_text, word_of,
)

OPERANDS = {
    "construct": ("vertex", "position", "constructor"),
    "wrap": ("vertex", "position", "constructor"),
    "become": ("vertex", "position", "constructor"),
    "delete": ("vertex", "position"),
    "cut": ("edge",),
    "relocate": ("edge", "vertex", "position"),
    "restore": ("moved", "vertex", "position"),
}
READERS = {"vertex": read_name, "moved": read_name, "edge": read_name, "position": read_position, "constructor": read_constructor}


class Refusal(Exception):
    """Why an action does nothing, as its answer tells it."""


def refuse(*words):
    raise Refusal(" ".join(words))


def read_action(line):
    """The verb of an action line and its operands by what they are."""
    verb, *words = line.split(" ")
    operands = OPERANDS.get(verb)
    if operands is None or len(operands) != len(words):
        raise Fault("syntax")
    return verb, {operand: READERS[operand](word) for operand, word in zip(operands, words)}


class Plan:
    """The edits of one action of an author on a graph, and its answer. Each action is in a block of its own."""

    def __init__(self, graph, author, line):
        self.graph, self.author = graph, author
        self.verb, operands = read_action(line)
        self.named = operands.get("vertex")
        self.moved_name = operands.get("moved")
        self.edge_name = operands.get("edge")
        self.position = operands.get("position")
        self.constructor = operands.get("constructor")

    def make(self):
        """The edits and the answer; where a fault applies the first one is raised as a Refusal."""
        if self.verb == "cut":
            return self.cut()
        self.find_vertices()
        self.check_position()
        self.find_relocated()
        self.check_sort()
        self.standing = self.graph.children_at(self.source, self.place)
        self.check_occupied()
        self.check_empty()
        self.check_wrap()
        self.check_edges()
        self.check_move()
        self.check_names()
        return getattr(self, "do_" + self.verb)()

    def cut(self):
        edges = sorted(self.graph.edges_named.get(self.edge_name, ()))
        if not edges:
            refuse("8 no-edge", name_text(self.edge_name))
        return [("-", edge) for edge in edges], "done"

    def find_vertices(self):
        """The one vertex of the place, and that of `restore`. That a name has none comes before that one has several."""
        names = [self.named] + [self.moved_name] * (self.moved_name is not None)
        found = [sorted(self.graph.vertices_named.get(name, ())) for name in names]
        for name, vertices in zip(names, found):
            if not vertices:
                refuse("1 no-vertex", name_text(name))
        for vertices in found:
            if len(vertices) > 1:
                refuse("2 ambiguous-vertex", vertex_text(vertices[0]), vertex_text(vertices[1]))
        self.source = found[0][0]
        self.moved = found[-1][0] if self.moved_name is not None else None

    def check_position(self):
        self.place = POSITIONS[self.position]
        if self.place not in FORMS[word_of(self.source)][1]:
            refuse("3 no-position", vertex_text(self.source))
        self.wanted = FORMS[word_of(self.source)][1][self.place]

    def find_relocated(self):
        """The live edges with the name that `relocate` gives; what it moves is clear where there is one."""
        self.relocated = []
        if self.verb == "relocate":
            named = self.graph.edges_named.get(self.edge_name, ())
            self.relocated = sorted(edge for edge in named if self.graph.is_live[edge])
            if len(self.relocated) == 1:
                self.moved = self.relocated[0][4]

    def check_sort(self):
        found = None
        if self.constructor:
            found = sort_of((0, 0, *self.constructor))
        elif self.moved:
            found = sort_of(self.moved)
        if found not in (None, self.wanted):
            refuse("4 wrong-sort", self.wanted, found)

    def check_occupied(self):
        if self.verb not in ("construct", "restore", "relocate"):
            return
        in_the_way = [edge for edge in self.standing if edge[:2] != self.edge_name]
        if in_the_way:
            refuse("5 occupied", name_text(in_the_way[0]))

    def check_empty(self):
        if self.verb in ("wrap", "become", "delete") and not self.standing:
            refuse("6 empty", name_text(self.source), self.place)

    def check_wrap(self):
        if self.verb != "wrap":
            return
        made = (0, 0, *self.constructor)
        self.under = first_position(word_of(made), self.wanted)
        if self.under is None:
            refuse("7 cannot-wrap", constructor_text(made))

    def check_edges(self):
        if self.verb == "relocate" and not self.relocated:
            refuse("8 no-edge", name_text(self.edge_name))
        several = self.relocated if self.verb == "relocate" else self.standing if self.verb == "become" else []
        if len(several) > 1:
            refuse("9 ambiguous-edge", name_text(several[0]), name_text(several[1]))

    def check_move(self):
        if self.moved is None:
            return
        if self.moved in self.graph.walk(self.source):
            refuse("10 into-itself", name_text(self.moved))
        parents = sorted(self.graph.parents.get(self.moved, ()))
        if self.verb == "restore" and parents:
            refuse("11 not-loose", name_text(parents[0]))

    def check_names(self):
        self.carried = self.carried_edges() if self.verb == "become" else []
        self.greatest = self.graph.greatest.get(self.author, 0)
        count = {"construct": 2, "wrap": 2 + len(self.standing), "become": 2 + len(self.carried), "delete": 0}.get(self.verb, 1)
        if count and self.greatest + count > LAST_COUNTER:
            refuse("12 names-spent", str(self.greatest))

    def carried_edges(self):
        """The edges below the vertex that is replaced whose positions the new constructor has too, with the same sorts."""
        old = self.standing[0][4]
        takes = FORMS[word_of((0, 0, *self.constructor))][1]
        return [
            edge
            for position, sort in FORMS[word_of(old)][1].items() if takes.get(position) == sort
            for edge in self.graph.children_at(old, position) if edge != self.standing[0]
        ]

    def new_name(self, number):
        return self.author, self.greatest + number

    def insertion(self, number, source, position, target):
        return "+", self.new_name(number) + (source, position, target)

    def made(self):
        vertex = self.new_name(1) + self.constructor
        return vertex, self.insertion(2, self.source, self.position, vertex), f"made {name_text(vertex)}"

    def do_construct(self):
        _, edit, answer = self.made()
        return [edit], answer

    def do_wrap(self):
        vertex, edit, answer = self.made()
        under = POSITIONS.index(self.under)
        put_below = [self.insertion(number, vertex, under, edge[4]) for number, edge in enumerate(self.standing, 3)]
        return [("-", edge) for edge in self.standing] + [edit] + put_below, answer

    def do_become(self):
        vertex, edit, answer = self.made()
        edits = [("-", self.standing[0]), edit]
        for number, edge in enumerate(self.carried, 3):
            edits += [("-", edge), self.insertion(number, vertex, edge[3], edge[4])]
        return edits, answer

    def do_delete(self):
        return [("-", edge) for edge in self.standing], "done"

    def move(self, edits):
        edit = self.insertion(1, self.source, self.position, self.moved)
        return edits + [edit], f"moved {name_text(edit[1])}"

    def do_relocate(self):
        return self.move([("-", self.relocated[0])])

    def do_restore(self):
        return self.move([])
