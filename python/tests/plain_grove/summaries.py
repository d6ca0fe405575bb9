"""What a graph has, told by ranges of names, and what another lacks by that.

A range is (what is told, author, first counter, last counter), where 0 tells of names that the graph has and 1 of deleted edges. The name of a
vertex is told with those of deleted edges where it stands between two of them, the second of which leads to it.
"""
import bisect
import re

from .forms import LAST_AUTHOR, LAST_COUNTER
from .texts import NUMBER, BadLine

HAD, GONE = range(2)
SIGNS = "+-"
LINE = re.compile(rf"([+-])({NUMBER.pattern})\.({NUMBER.pattern})(?:-({NUMBER.pattern}))?", re.ASCII)


def told_of(edges, gone):
    """What is told of these edges, some of which are gone: pairs of what is told and of a name that no two of the edges have."""
    edges_named = {}
    for edge in edges:
        edges_named.setdefault(edge[:2], set()).add(edge)
    named = {name for edge in edges for name in (edge[:2], edge[2][:2], edge[4][:2]) if len(edges_named.get(name, ())) < 2}
    deleted = {edge[:2] for edge in gone if len(edges_named[edge[:2]]) < 2}
    return {(HAD, *name) for name in named} | {(GONE, *name) for name in deleted | set(between(edges_named, gone, deleted))}


def between(edges_named, gone, deleted):
    """The names of vertices between those of deleted edges."""
    for edge in gone:
        author, counter = edge[:2]
        vertex = edge[4][:2]
        if edge[:2] in deleted and vertex == (author, counter - 1) and vertex not in edges_named and (author, counter - 2) in deleted:
            yield vertex


def ranges_of(told):
    ranges = []
    for what, author, counter in sorted(told):
        if ranges and ranges[-1][:2] == (what, author) and ranges[-1][3] + 1 == counter:
            ranges[-1] = (*ranges[-1][:3], counter)
        else:
            ranges.append((what, author, counter, counter))
    return ranges


def summary_text(ranges):
    return "".join(f"{SIGNS[what]}{author}.{first}{'' if first == last else f'-{last}'}\n" for what, author, first, last in ranges)


def summary_of(graph):
    """The text of the summary of a graph."""
    return summary_text(ranges_of(told_of(graph.edges, [edge for edge in graph.edges if not graph.is_live[edge]])))


def read_range(line):
    """The range that a line spells, which comes without its LF, or None."""
    found = LINE.fullmatch(line)
    if not found:
        return None
    sign, author, first, last = found[1], int(found[2]), int(found[3]), int(found[4] or found[3])
    if author > LAST_AUTHOR or first > LAST_COUNTER or last > LAST_COUNTER or found[4] and last <= first:
        return None
    return SIGNS.index(sign), author, first, last


def read_summary(text):
    """The ranges that a text of bytes spells."""
    lines = text.decode("latin-1").split("\n")
    rest = lines.pop()
    ranges = []
    for number, line in enumerate(lines, 1):
        found = read_range(line)
        if not found:
            raise BadLine(number, "syntax")
        if ranges and found[:3] <= (*ranges[-1][:2], ranges[-1][3] + 1):
            raise BadLine(number, "out-of-order")
        ranges.append(found)
    if rest:
        raise BadLine(len(lines) + 1, "rest")
    return ranges


def lacking(graph, ranges):
    """The edits of a graph, in edge order, that another does not tell of by its ranges."""
    def is_told(what, edge):
        before = bisect.bisect(ranges, (what, *edge[:2], LAST_COUNTER))
        return before > 0 and ranges[before - 1][:2] == (what, edge[0]) and edge[1] <= ranges[before - 1][3]

    return [("+" if live else "-", edge) for edge, live in sorted(graph.is_live.items()) if not is_told(HAD if live else GONE, edge)]
