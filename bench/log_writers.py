"""How many authors one log carries.

Writers, each a process, append an entry with one edit after the other and wait for each to be acknowledged. Beside them one member follows
the log and takes every entry. Each row has the entries a second that were acknowledged to all writers, the middle of the times that an
entry took, and the entries a second that the member took. Of the runs that with the most entries counts; seconds are those of the clock.
"""
import multiprocessing
import pathlib
import statistics
import sys
import tempfile
import time

from measuring import TOP, head, need, row, words_of

need("redis-server", "postgresql", "python3-redis", "python3-psycopg2")
sys.path[:0] = [str(TOP / "examples" / "over_a_log"), str(TOP / "examples" / "over_a_log" / "tests")]

from logs import log_at  # noqa: E402
from servers import PostgresServer, RedisServer  # noqa: E402

from grove import Replica  # noqa: E402

WRITERS = (1, 8, 64)
SECONDS = 5


class LooseRedisServer(RedisServer):
    """Syncs once a second, so a machine that fails loses what was acknowledged in its last second."""

    def words(self) -> list[str]:
        return [*super().words()[:-1], "everysec"]


SERVERS = {"Redis, each entry synced": RedisServer, "Redis, synced once a second": LooseRedisServer, "PostgreSQL": PostgresServer}


def entry(author: int, number: int) -> bytes:
    return f"grove 2\n+{author}.{number * 2 + 2} 0.0 root main {author}.{number * 2 + 1} num:1\n".encode()


def write(address: str, author: int, start, seconds: float, answers) -> None:
    log = log_at(address)
    log.follow("", 0.001)
    times = []
    start.wait()
    ends = time.monotonic() + seconds
    while (now := time.monotonic()) < ends:
        log.append(entry(author, len(times)))
        times.append(time.monotonic() - now)
    answers.put((len(times), statistics.median(times)))


def follow(address: str, start, seconds: float, answers) -> None:
    log, place, count, replica = log_at(address), "", 0, Replica()
    start.wait()
    ends = time.monotonic() + seconds
    while time.monotonic() < ends:
        for taken in log.follow(place, 0.1):
            replica.apply(taken.lines)
            place, count = taken.place, count + 1
    answers.put(count)


def measure(kind: str, writers: int, seconds: float) -> tuple[float, float, float]:
    with tempfile.TemporaryDirectory() as name:
        folder = pathlib.Path(name)
        folder.chmod(0o755)
        (folder / "server").mkdir()
        server = SERVERS[kind](folder / "server")
        server.start()
        try:
            time.sleep(1)
            return run(server.address(), writers, seconds)
        finally:
            server.kill()


def run(address: str, writers: int, seconds: float) -> tuple[float, float, float]:
    start = multiprocessing.Barrier(writers + 1)
    written, taken = multiprocessing.Queue(), multiprocessing.Queue()
    processes = [multiprocessing.Process(target=write, args=(address, author, start, seconds, written)) for author in range(1, writers + 1)]
    processes.append(multiprocessing.Process(target=follow, args=(address, start, seconds, taken)))
    for process in processes:
        process.start()
    counts = [written.get() for _ in range(writers)]
    count = taken.get()
    for process in processes:
        process.join()
    middle = statistics.median(time for _, time in counts)
    return sum(number for number, _ in counts) / seconds, middle * 1000, count / seconds


def main() -> None:
    words = words_of(__doc__, WRITERS, "writers", seconds=f"of each run, {SECONDS} where left out")
    head("Log", "Writers", "Entries a second", "An entry, ms", "Taken a second")
    for kind in SERVERS:
        for writers in words.sizes:
            row(kind, writers, *max(measure(kind, writers, float(words.seconds or SECONDS)) for _ in range(words.repeats)))


if __name__ == "__main__":
    main()
