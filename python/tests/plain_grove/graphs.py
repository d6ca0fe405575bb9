"""A graph of edits: the state of each edge, and the trees that follow from it."""
from collections import defaultdict

from .forms import FORMS, POSITION_RANK
from .texts import ROOT, word_of


class Graph:
    """The state of each edge that an edit names, and its look-ups."""

    def __init__(self):
        self.is_live = {}
        self.edges = []
        self.children = defaultdict(set)
        self.parents = defaultdict(set)
        self.edges_named = defaultdict(set)
        self.vertices_named = defaultdict(set)
        self.vertices_named[ROOT[:2]].add(ROOT)
        self.greatest = defaultdict(int)

    def take(self, sign, edge):
        """Raises the state of one edge: a deletion wins over any insertion."""
        was = self.is_live.get(edge)
        now = sign == "+" and was is not False
        if was is None:
            self.add_names(edge)
        self.is_live[edge] = now
        if now:
            self.children[edge[2], edge[3]].add(edge)
            self.parents[edge[4]].add(edge)
        elif was:
            self.children[edge[2], edge[3]].discard(edge)
            self.parents[edge[4]].discard(edge)

    def add_names(self, edge):
        self.edges.append(edge)
        self.edges_named[edge[:2]].add(edge)
        for vertex in (edge[2], edge[4]):
            self.vertices_named[vertex[:2]].add(vertex)
        for author, counter in (edge[:2], edge[2][:2], edge[4][:2]):
            self.greatest[author] = max(self.greatest[author], counter)

    def vertices(self):
        return sorted(vertex for named in self.vertices_named.values() for vertex in named)

    def is_vertex(self, vertex):
        return vertex in self.vertices_named.get(vertex[:2], ())

    def children_at(self, vertex, position):
        """The live edges at a position, given by its word, in edge order."""
        return sorted(self.children.get((vertex, POSITION_RANK[position]), ()))

    def places(self, vertex):
        """The words of the positions of a vertex, in table order."""
        return FORMS[word_of(vertex)][1]

    def only_parent(self, vertex):
        """The source of the one live edge to a vertex, or None where there is none or are more."""
        parents = self.parents.get(vertex, ())
        return next(iter(parents))[2] if len(parents) == 1 else None

    def walk(self, vertex):
        """The vertices up from one, each the only parent of the one before, until a tree's head or a vertex that was seen."""
        seen = {}
        while vertex is not None and vertex not in seen:
            seen[vertex] = None
            vertex = self.only_parent(vertex)
        return list(seen)

    def heads(self):
        """Of each vertex that heads a tree whether its tree is of `none`, `multi` or `cycle`."""
        kinds = {}
        done = set()
        for vertex in self.vertices():
            count = len(self.parents.get(vertex, ()))
            if count != 1:
                kinds[vertex] = "multi" if count else "none"
            cycle = self.cycle_above(vertex, done)
            if cycle:
                kinds[min(cycle)] = "cycle"
        return kinds

    def cycle_above(self, vertex, done):
        """The cycle that the walk up from a vertex ends in, unless one of those vertices is done already; all of them are then."""
        walk = {}
        while vertex is not None and vertex not in walk and vertex not in done:
            walk[vertex] = None
            vertex = self.only_parent(vertex)
        done.update(walk)
        return list(walk)[list(walk).index(vertex):] if vertex in walk else []
