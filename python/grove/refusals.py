"""Why an action, or undoing one, does nothing. Each refusal of the formats is an exception of its own; all are Refused."""


class Refused(Exception):
    """Nothing was changed. `name` is the refusal's word, and `shown` has the words behind it, as names of edges or sorts."""

    name = ""

    def __init__(self, answer: str, shown: tuple[str, ...] = ()):
        super().__init__(answer)
        self.answer = answer
        self.shown = shown


class NoVertex(Refused):
    name = "no-vertex"


class AmbiguousVertex(Refused):
    name = "ambiguous-vertex"


class NoPosition(Refused):
    name = "no-position"


class WrongSort(Refused):
    name = "wrong-sort"


class Occupied(Refused):
    name = "occupied"


class Empty(Refused):
    name = "empty"


class CannotWrap(Refused):
    name = "cannot-wrap"


class NoEdge(Refused):
    name = "no-edge"


class AmbiguousEdge(Refused):
    name = "ambiguous-edge"


class IntoItself(Refused):
    name = "into-itself"


class NotLoose(Refused):
    name = "not-loose"


class NamesSpent(Refused):
    name = "names-spent"


class Touched(Refused):
    """What an action left at its places does not stand there any more, so it is not undone."""

    name = "touched"


class Nothing(Refused):
    """The author has no action that could be undone."""

    name = "nothing"


BY_NAME = {refusal.name: refusal for refusal in Refused.__subclasses__()}


def refusal(answer: str) -> Refused:
    """The exception of an answer such as `refused 5 occupied 1.2`, or `nothing`."""
    words = answer.split()
    if words[0] == Nothing.name:
        return Nothing(answer)
    return BY_NAME[words[2]](answer, tuple(words[3:]))
