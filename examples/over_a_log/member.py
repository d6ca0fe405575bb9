"""A member: an author's replica, joined to a log that others are joined to."""
import enum
import sys
import time

from grove import Answer, BadLine, Replica

from folder import Folder
from logs import Log, LogDown
from peer import NoPeer, ask

LEAST_BETWEEN_SAVES = 256


class Taken(enum.Enum):
    """What came of following the log."""

    SOME = enum.auto()
    NOTHING_LEFT = enum.auto()
    LOG_DOWN = enum.auto()


class Member:
    """Acts at once, whether the log is there or not, and shares when it is.

    Entries are taken in any order and any number of times, so whatever is in doubt is sent again and read again: an action that the log
    may not have, and entries that this member may have.
    """

    def __init__(self, log: Log, folder: Folder, author: int):
        self.log, self.folder, self.author = log, folder, author
        self.replica = Replica()
        self.place, program = folder.taken()
        self.replica.apply(program)
        # All names that this author gave are here before it gives another one: what was acted stands in the outbox or in the program.
        self.waiting = folder.outbox()
        for lines in self.waiting:
            self.replica.apply(lines)
        self.lines = program.count(b"\n")
        self.unsaved = len(self.waiting)

    def act(self, line: str) -> Answer:
        """Does an action of the author's own, which is on the disk before it is told; raises its Refused as Replica.act does."""
        answer = self.replica.act(self.author, line)
        self._keep(answer.edits.encode())
        return answer

    def _keep(self, lines: bytes) -> None:
        if lines:
            self.folder.keep(lines)
            self.waiting.append(lines)

    def offer_all(self) -> None:
        """Sends the whole program again, as to a log that lost its entries."""
        self._keep(self.replica.canonical().encode())

    def send(self) -> list[bytes]:
        """Appends what waits to the log, an entry for each action, and tells what was acknowledged; the rest goes on waiting."""
        sent = 0
        try:
            for lines in self.waiting:
                self.log.append(lines)
                sent += 1
        except LogDown:
            pass
        acknowledged, self.waiting = self.waiting[:sent], self.waiting[sent:]
        self.unsaved += sent
        return acknowledged

    def catch_up(self, folder: str) -> bool:
        """Takes what the member of another folder has and this one lacks, and follows the log on from where that member is.

        Where the other does not answer all is as it was, and what it would have told comes from the log. A place that is before its own
        costs a member reading again, and no more.
        """
        try:
            place, edits = ask(folder, self.replica.summary())
            self.replica.apply(edits)
        except (NoPeer, BadLine) as fault:
            print(f"{folder} does not answer: {fault}", file=sys.stderr)
            return False
        self.place = place or self.place
        self.unsaved += edits.count(b"\n")
        self._save_if_due()
        return True

    def take(self, seconds: float) -> Taken:
        """Takes some entries of the log, waiting so long for the first."""
        try:
            entries = self.log.follow(self.place, seconds)
        except LogDown:
            time.sleep(seconds)
            return Taken.LOG_DOWN
        for entry in entries:
            self._take_entry(entry.lines)
        if entries:
            self.place = entries[-1].place
        self.unsaved += len(entries)
        self._save_if_due()
        return Taken.SOME if entries else Taken.NOTHING_LEFT

    def _take_entry(self, lines: bytes) -> None:
        """An entry that is no edit text is passed over by all members alike, since each entry is read by itself, whole or not at all."""
        try:
            self.replica.apply(lines)
        except BadLine as bad:
            print(f"an entry is malformed {bad.line} {bad.name}", file=sys.stderr)

    def _save_if_due(self) -> None:
        """A save costs as much as the program is long, so the longer it is the more must have come since the last one."""
        if self.unsaved > LEAST_BETWEEN_SAVES + self.lines // 4:
            self.save()

    def save(self) -> None:
        program = self.replica.canonical().encode()
        self.folder.forget(self.place, program, self.waiting)
        self.lines, self.unsaved = program.count(b"\n"), 0

    def close(self) -> None:
        self.save()
        self.folder.close()
        self.replica.close()
