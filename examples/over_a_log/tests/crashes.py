"""Eight authors over a log, while the server and they are killed and started again at random: crashes.py redis|postgres SECONDS [SEED].

In the end all have printed the same, which is also what a replica prints that reads the log from its beginning, and each edit that was kept
by an author or acknowledged by the log is there.
"""
import collections
import pathlib
import random
import subprocess
import sys
import tempfile
import threading
import time

HERE = pathlib.Path(__file__).parent
sys.path[:0] = [str(HERE.parent), str(HERE.parents[2] / "python")]

from logs import LogDown, log_at  # noqa: E402
from servers import PostgresServer, RedisServer  # noqa: E402

from grove import BadLine, Replica  # noqa: E402

AUTHORS = 8
SERVERS = {"redis": RedisServer, "postgres": PostgresServer}
NO_EDITS = (b"", b"nothing of an edit\n", b"+1.2 0.0 root main 1.1 plus", b"grove 2\n+1.2 0.0 root left 1.1 plus\n", b"\xff\0\n")
SECONDS_TO_SETTLE = 120


class Author:
    """The process of an author, and what it told in all its lives."""

    def __init__(self, folder: pathlib.Path, address: str, number: int):
        self.words = [sys.executable, str(HERE / "random_author.py"), address, str(folder / f"author{number}"), str(number), str(folder)]
        self.told = collections.defaultdict(set)
        self.process = self.reader = None

    def start(self) -> None:
        self.process = subprocess.Popen(self.words, stdout=subprocess.PIPE, stderr=subprocess.DEVNULL)
        self.reader = threading.Thread(target=self.read, args=(self.process.stdout,))
        self.reader.start()

    def read(self, lines) -> None:
        for line in lines:
            if line.endswith(b"\n"):
                word, _, rest = line.decode().rstrip("\n").partition(" ")
                self.told[word].add(rest)

    def kill(self) -> None:
        self.process.kill()
        self.process.wait()
        self.reader.join()

    def is_running(self) -> bool:
        return self.process is not None and self.process.poll() is None

    def end(self, seconds: float) -> int:
        status = self.process.wait(seconds)
        self.reader.join()
        return status


class Trouble:
    """What happens to a server and authors, and how often."""

    def __init__(self, rng: random.Random, server, authors: list[Author]):
        self.rng, self.server, self.authors = rng, server, authors
        self.counts = collections.Counter()

    def strike(self) -> None:
        """Brings somebody back, or kills somebody, or appends what is no edit."""
        down = [one for one in (self.server, *self.authors) if not one.is_running()]
        up = [author for author in self.authors if author.is_running()]
        if down and self.rng.random() < 0.6:
            self.rng.choice(down).start()
        elif self.rng.random() < 0.2:
            self.put_no_edits()
        else:
            self.kill(self.rng.choice(up) if up and self.rng.random() < 0.7 else self.server)

    def kill(self, one) -> None:
        if one.is_running():
            one.kill()
            self.counts["the server killed" if one is self.server else "authors killed"] += 1

    def put_no_edits(self) -> None:
        try:
            log_at(self.server.address()).append(self.rng.choice(NO_EDITS))
            self.counts["entries without edits"] += 1
        except LogDown:
            pass

    def run(self, seconds: float) -> None:
        """One author comes when two thirds of the time are over, far behind the others."""
        ends = time.monotonic() + seconds
        late = self.authors[-1]
        self.authors = self.authors[:-1]
        for author in self.authors:
            author.start()
        while time.monotonic() < ends:
            time.sleep(self.rng.uniform(0.02, 0.4))
            if time.monotonic() > ends - seconds / 3 and late not in self.authors:
                self.authors.append(late)
                late.start()
            self.strike()

    def end(self) -> None:
        """All are up again."""
        for one in (self.server, *self.authors):
            if not one.is_running():
                one.start()


def settle(folder: pathlib.Path, authors: list[Author]) -> None:
    """Tells all to act no more, and to end once each has sent what it had."""
    (folder / "stop").touch()
    ends = time.monotonic() + SECONDS_TO_SETTLE
    while not all(author.told["settled"] for author in authors):
        assert time.monotonic() < ends, "authors do not settle"
        time.sleep(0.05)
    (folder / "end").touch()


def read_log(address: str) -> tuple[Replica, int]:
    """A replica that took the whole log from its beginning, an entry at a time, and how many entries there are."""
    log, replica, place, count = log_at(address), Replica(), "", 0
    while entries := log.follow(place, 0.01):
        for entry in entries:
            try:
                replica.apply(entry.lines)
            except BadLine:
                pass
        place, count = entries[-1].place, count + len(entries)
    return replica, count


def has(states: dict[str, str], edit: str) -> bool:
    """Whether a program, as the sign of each edge, has an edit: a deletion is for good, and an insertion may be deleted since."""
    return states.get(edit[1:]) in (edit[0], "-")


def hold_against_each_other(folder: pathlib.Path, server, authors: list[Author]) -> str:
    replica, entries = read_log(server.address())
    due = replica.show()
    for number, _ in enumerate(authors, 1):
        assert (folder / f"author{number}" / "shown").read_text() == due, f"author {number} shows something else"
    states = {line[1:]: line[0] for line in replica.canonical().splitlines()}
    kept = set().union(*(author.told["kept"] for author in authors))
    acknowledged = set().union(*(author.told["acknowledged"] for author in authors))
    lost = [edit for edit in kept | acknowledged if not has(states, edit)]
    assert not lost, f"{len(lost)} edits are lost, as {lost[0]}"
    caught = sum(len(author.told["caught"]) for author in authors)
    return f"{entries} entries, {len(states)} edges, {len(kept)} edits kept, {len(acknowledged)} acknowledged, {due.count(chr(10))} lines, {caught} caught up by others"


def run(kind: str, seconds: float, seed: int) -> None:
    with tempfile.TemporaryDirectory() as name:
        folder = pathlib.Path(name)
        folder.chmod(0o755)
        (folder / "server").mkdir()
        server = SERVERS[kind](folder / "server")
        server.start()
        authors = [Author(folder, server.address(), number) for number in range(1, AUTHORS + 1)]
        trouble = Trouble(random.Random(seed), server, authors)
        try:
            trouble.run(seconds)
            trouble.end()
            settle(folder, authors)
            statuses = [author.end(SECONDS_TO_SETTLE) for author in authors]
            assert statuses == [0] * AUTHORS, f"authors ended with {statuses}"
            told = hold_against_each_other(folder, server, authors)
            strikes = ", ".join(f"{word} {count}" for word, count in sorted(trouble.counts.items()))
            print(f"{kind}: {AUTHORS} authors show the same; {told}; {strikes}; seed {seed}")
        finally:
            for one in (*authors, server):
                if one.process is not None and one.is_running():
                    one.kill()


if __name__ == "__main__":
    run(sys.argv[1], float(sys.argv[2]), int(sys.argv[3]) if len(sys.argv) > 3 else random.randrange(2**32))
