"""A member that was away asks another one for what it lacks, by what it has, and need not read all that came to the log meanwhile.

The question is the text of a summary, as FORMATS.md has it, up to the end of what is sent. The answer is one record of `folder.py`: a line
with the place up to which the other has taken the log, and the edits that are lacking. A question and its answer are about as long as the
replicas differ and as their names have gaps, whatever the length of the program.
"""
import os
import pathlib
import socket

from folder import record, whole_records
from grove import BadLine, Replica

SECONDS_TO_ANSWER = 5
PIECE = 1 << 16


class NoPeer(Exception):
    """The other does not run, or its answer was cut. What it would have told is in the log too."""


class Port:
    """Where a member answers others: a socket in its folder."""

    def __init__(self, folder: str | os.PathLike):
        self.path = port_of(folder)
        self.path.unlink(missing_ok=True)
        self.socket = socket.socket(socket.AF_UNIX)
        self.socket.bind(str(self.path))
        self.socket.listen()
        self.socket.setblocking(False)

    def close(self) -> None:
        self.socket.close()
        self.path.unlink(missing_ok=True)

    def answer(self, replica: Replica, place: str) -> int:
        """Answers each that asks by now, from a replica that has all of the log up to a place; tells how many asked."""
        count = 0
        while asking := self._next():
            count += 1
            with asking:
                try:
                    edits = replica.lacking(received(asking))
                    asking.sendall(record(place.encode() + b"\n" + edits.encode()))
                except (BadLine, OSError):
                    pass
        return count

    def _next(self) -> socket.socket | None:
        try:
            asking, _ = self.socket.accept()
        except BlockingIOError:
            return None
        asking.settimeout(SECONDS_TO_ANSWER)
        return asking


def port_of(folder: str | os.PathLike) -> pathlib.Path:
    return pathlib.Path(folder) / "port"


def received(end: socket.socket) -> bytes:
    """All that the other side sends."""
    return b"".join(iter(lambda: end.recv(PIECE), b""))


def ask(folder: str | os.PathLike, summary: str) -> tuple[str, bytes]:
    """What the member of a folder answers to a summary: its place in the log, and the edits that are lacking."""
    try:
        with socket.socket(socket.AF_UNIX) as end:
            end.settimeout(SECONDS_TO_ANSWER)
            end.connect(str(port_of(folder)))
            end.sendall(summary.encode())
            end.shutdown(socket.SHUT_WR)
            answer = received(end)
    except OSError as fault:
        raise NoPeer(str(fault)) from fault
    # An answer that was cut would be taken for all that is lacking.
    whole = list(whole_records(answer))
    if len(whole) != 1:
        raise NoPeer("the answer was cut")
    place, _, edits = whole[0].partition(b"\n")
    return place.decode(), edits
