"""Names, vertices and edges, how they are written, and how edit texts are read.

A name is a pair of numbers. A vertex is (author, counter, rank of its constructor, what that carries), and an edge (author, counter,
source, rank of its position, target): Python's order of tuples is then the order of vertices and of edges.
"""
import re

from .forms import FIRST_OF_VERSION_TWO, FORMS, LAST_AUTHOR, LAST_COUNTER, POSITIONS, POSITIONS_OF_VERSION_TWO, POSITION_RANK, RANK, WORDS

ROOT = (0, 0, RANK["root"], 0)

NUMBER = re.compile(r"0|[1-9][0-9]*", re.ASCII)
IDENTIFIER = re.compile(r"[a-z][a-z0-9_]*", re.ASCII)
LONGEST_IDENTIFIER = {1: 32, 2: 64}


class Fault(Exception):
    """Why a line has no reading, by the fault's word."""


class BadLine(Exception):
    """The first bad line of a text, counted from 1, and the word of its fault."""

    def __init__(self, line, fault):
        super().__init__(line, fault)
        self.line, self.fault = line, fault


def name_text(name):
    return f"{name[0]}.{name[1]}"


def constructor_text(vertex):
    word = WORDS[vertex[2]]
    return f"{word}:{vertex[3]}" if word in ("var", "num", "pvar") else word


def vertex_text(vertex):
    return f"{name_text(vertex)} {constructor_text(vertex)}"


def edge_text(edge):
    return f"{name_text(edge)} {vertex_text(edge[2])} {POSITIONS[edge[3]]} {vertex_text(edge[4])}"


def edit_line(sign, edge):
    return f"{sign}{edge_text(edge)}\n"


def word_of(vertex):
    return WORDS[vertex[2]]


def sort_of(vertex):
    return FORMS[WORDS[vertex[2]]][0]


def read_number(text, last):
    if not NUMBER.fullmatch(text) or int(text) > last:
        raise Fault("syntax")
    return int(text)


def read_name(text):
    author, dot, counter = text.partition(".")
    if not dot:
        raise Fault("syntax")
    return read_number(author, LAST_AUTHOR), read_number(counter, LAST_COUNTER)


def read_constructor(text, version=2):
    """The rank of the constructor and what it carries."""
    word, colon, carried = text.partition(":")
    rank = RANK.get(word)
    if rank is None or version == 1 and rank >= FIRST_OF_VERSION_TWO or bool(colon) != (word in ("var", "num", "pvar")):
        raise Fault("syntax")
    if word == "num":
        return rank, read_number(carried, LAST_COUNTER)
    if colon and not (IDENTIFIER.fullmatch(carried) and len(carried) <= LONGEST_IDENTIFIER[version]):
        raise Fault("syntax")
    return rank, carried or 0


def read_position(text, version=2):
    if text not in POSITION_RANK or version == 1 and text in POSITIONS_OF_VERSION_TWO:
        raise Fault("syntax")
    return POSITION_RANK[text]


def is_vertex(vertex):
    return vertex == ROOT or vertex[0] > 0 and vertex[1] > 0 and vertex[2] != ROOT[2]


def read_line(line, version):
    """The sign and the edge that a line spells, which comes without its LF."""
    words = line[1:].split(" ")
    if line[:1] not in ("+", "-") or len(words) != 6:
        raise Fault("syntax")
    name = read_name(words[0])
    source = read_name(words[1]) + read_constructor(words[2], version)
    position = read_position(words[3], version)
    target = read_name(words[4]) + read_constructor(words[5], version)
    if name[0] == 0 or name[1] == 0 or not is_vertex(source) or not is_vertex(target):
        raise Fault("bad-vertex")
    wanted = FORMS[word_of(source)][1].get(words[3])
    if wanted is None:
        raise Fault("no-position")
    if wanted != sort_of(target):
        raise Fault("wrong-sort")
    return line[0], name + (source, position, target)


def read_text(text, version=None):
    """All edits of a text of bytes; the version is told by its first line unless it is given."""
    lines = text.decode("latin-1").split("\n")
    rest = lines.pop()
    first = 1
    if version is None:
        version = 2 if lines[:1] == ["grove 2"] else 1
        first = version
    edits = []
    for number, line in enumerate(lines[first - 1:], first):
        try:
            edits.append(read_line(line, version))
        except Fault as fault:
            raise BadLine(number, str(fault)) from None
    if rest:
        raise BadLine(len(lines) + 1, "rest")
    return edits
