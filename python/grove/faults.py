"""Why a text has no reading. Each fault of the formats is an exception of its own; all are BadLine."""


class BadLine(Exception):
    """The first bad line of a text; nothing of the text was taken. `line` is counted from 1, and `name` is the fault's word."""

    name = ""

    def __init__(self, line: int):
        super().__init__(f"line {line}: {self.name}")
        self.line = line


class Syntax(BadLine):
    """The line has no form that its version knows."""

    name = "syntax"


class BadVertex(BadLine):
    """The edge's name has a 0, or an end of it is no well formed vertex."""

    name = "bad-vertex"


class NoPosition(BadLine):
    """The constructor of the source has no such position."""

    name = "no-position"


class WrongSort(BadLine):
    """The sort of the target is not that of the position."""

    name = "wrong-sort"


class Rest(BadLine):
    """Bytes stand behind the last LF."""

    name = "rest"


class OutOfOrder(BadLine):
    """Of a summary: the range does not come after the one before it, or stands right behind it."""

    name = "out-of-order"


BY_NAME = {fault.name: fault for fault in (Syntax, BadVertex, NoPosition, WrongSort, Rest, OutOfOrder)}
