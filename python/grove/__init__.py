"""Grove in Python: replicas of a program that many authors edit, over the library libgrove.so, which python/build makes.

    from grove import Replica

    with Replica() as replica:
        replica.apply("+1.2 0.0 root main 1.1 plus\\n")
        answer = replica.act(1, "construct 1.1 left num:1")
        print(answer.text, answer.edits, replica.show(), sep="\\n")

`grove.faults` has what is wrong with a text and `grove.refusals` why an action does nothing, each an exception of its own.
"""
from . import faults, refusals
from .faults import BadLine
from .records import Answer, Record
from .refusals import Refused
from .replica import Replica

__all__ = ["Answer", "BadLine", "Record", "Refused", "Replica", "faults", "refusals"]
