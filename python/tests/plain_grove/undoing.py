"""Undoing: what an action changed, and the edits that take it back."""
from typing import NamedTuple

from .actions import refuse
from .forms import LAST_COUNTER
from .texts import name_text


class Change(NamedTuple):
    """The live edges that edits took away and put there, and what stood at their places just after."""

    removed: list
    added: list
    after: list


def standing_at(graph, places):
    return sorted(edge for place in places for edge in graph.children.get(place, ()))


def take_and_tell(graph, edits):
    """Takes edits; answers what they changed."""
    before = {edge: graph.is_live.get(edge, False) for _, edge in edits}
    for sign, edge in edits:
        graph.take(sign, edge)
    removed = sorted(edge for edge, live in before.items() if live and not graph.is_live[edge])
    added = sorted(edge for edge, live in before.items() if not live and graph.is_live[edge])
    return Change(removed, added, standing_at(graph, touched_places(removed, added)))


def touched_places(removed, added):
    return {edge[2:4] for edge in removed + added}


def undoing_edits(graph, author, change):
    """The edits that undo a change, where nobody has touched its places since."""
    now = standing_at(graph, touched_places(change.removed, change.added))
    if now != change.after:
        refuse("1 touched", name_text(min(set(now) ^ set(change.after))))
    greatest = graph.greatest.get(author, 0)
    if greatest + len(change.removed) > LAST_COUNTER:
        refuse("2 names-spent", str(greatest))
    again = [("+", (author, greatest + number) + edge[2:]) for number, edge in enumerate(change.removed, 1)]
    return [("-", edge) for edge in change.added] + again
