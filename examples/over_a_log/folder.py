"""What a member keeps on its disk, so that it can be killed at any moment."""
import fcntl
import os
import pathlib
import zlib


class InUse(Exception):
    """Another process has the folder. An author acts at one place at a time, or two actions would give one name."""


class Folder:
    """Two files. `outbox` has the edits of each action of the author's own, from before they were shown to anyone until after they were
    acknowledged. `taken` has the program up to a place of the log.

    What `keep` and `forget` write is on the disk when they return. A crash in their midst leaves the folder as it was before, or as it is
    after; an action is kept whole or not at all.
    """

    def __init__(self, path: str | os.PathLike):
        self.path = pathlib.Path(path)
        self.path.mkdir(parents=True, exist_ok=True)
        self.lock = os.open(self.path / "lock", os.O_CREAT | os.O_RDWR)
        try:
            fcntl.flock(self.lock, fcntl.LOCK_EX | fcntl.LOCK_NB)
        except BlockingIOError:
            os.close(self.lock)
            raise InUse(str(path)) from None
        self._write_whole("outbox", b"".join(map(record, self.outbox())))
        self.end = open(self.path / "outbox", "ab", buffering=0)

    def close(self) -> None:
        self.end.close()
        os.close(self.lock)

    def keep(self, lines: bytes) -> None:
        """Appends the edits of an action to the outbox."""
        self.end.write(record(lines))
        os.fsync(self.end.fileno())

    def outbox(self) -> list[bytes]:
        """The edits of each action that was kept and not forgotten, in order."""
        path = self.path / "outbox"
        return list(whole_records(path.read_bytes())) if path.exists() else []

    def taken(self) -> tuple[str, bytes]:
        """The place in the log up to which all was taken, and the program as it was then."""
        path = self.path / "taken"
        place, _, program = path.read_bytes().partition(b"\n") if path.exists() else (b"", b"", b"")
        return place.decode(), program

    def forget(self, place: str, program: bytes, waiting: list[bytes]) -> None:
        """Keeps the program, which has all up to the place, and an outbox with those actions alone that still wait."""
        self._write_whole("taken", place.encode() + b"\n" + program)
        self._write_whole("outbox", b"".join(map(record, waiting)))
        self.end.close()
        self.end = open(self.path / "outbox", "ab", buffering=0)

    def _write_whole(self, name: str, content: bytes) -> None:
        """Puts a file in the place of another at once."""
        new = self.path / f"{name}.new"
        with open(new, "wb") as file:
            file.write(content)
            file.flush()
            os.fsync(file.fileno())
        os.replace(new, self.path / name)
        at = os.open(self.path, os.O_RDONLY)
        os.fsync(at)
        os.close(at)


def record(lines: bytes) -> bytes:
    """The lines behind their length and their sum, by which a torn record is known."""
    return b"%d %d\n" % (len(lines), zlib.crc32(lines)) + lines


def whole_records(content: bytes):
    """The lines of each record, up to the first that is torn."""
    while content:
        head, ended, content = content.partition(b"\n")
        length, _, check = head.partition(b" ")
        if not (ended and length.isdigit() and check.isdigit()):
            return
        lines, content = content[: int(length)], content[int(length) :]
        if len(lines) != int(length) or zlib.crc32(lines) != int(check):
            return
        yield lines
