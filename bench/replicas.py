"""How many edits a second one replica takes, and one process with several replicas, each in a thread of its own.

Each replica has a tree of the size already, and takes new edits at random places, one a call or a thousand a call. A second of a replica is
one of its thread's processor time. A second of the process is one of the clock, without the time for which its slowest thread stood in line
for a processor while others used it: so it tells what threads lose to each other, and not what they lose to other programs.
"""
import pathlib
import random
import threading
import time

import programs
from measuring import each, head, in_own_process, row, words_of

from grove import Replica

SIZES = (10_000, 100_000)
THREADS = (1, 2, 4)
EDITS_A_CALL = (1, 1_000)
NEW_EDITS = 50_000


def in_line() -> float:
    """The seconds for which this thread was ready and had no processor."""
    told = pathlib.Path(f"/proc/self/task/{threading.get_native_id()}/schedstat").read_text()
    return int(told.split()[1]) / 1e9


class Taker(threading.Thread):
    """Has a replica of its own take edits, from when all are ready."""

    def __init__(self, size: int, author: int, edits_a_call: int, start: threading.Barrier):
        super().__init__()
        self.replica = Replica(seed=1)
        each(self.replica.apply, programs.cut(programs.text("tree", size), programs.EDITS_A_CALL))
        lines = programs.new_edits(random.Random(author), size // 2, author, NEW_EDITS)
        self.texts = programs.cut(b"".join(lines), edits_a_call)
        self.at_once = start
        self.processor = self.clock = 0.0

    def run(self) -> None:
        self.at_once.wait()
        processor, clock = time.thread_time(), time.monotonic() - in_line()
        each(self.replica.apply, self.texts)
        self.processor, self.clock = time.thread_time() - processor, time.monotonic() - in_line() - clock


def measure(size: int, threads: int, edits_a_call: int) -> dict[str, float]:
    """Edits a second of a replica and of the process."""
    start = threading.Barrier(threads)
    takers = [Taker(size, 90 + count, edits_a_call, start) for count in range(threads)]
    for taker in takers:
        taker.start()
    for taker in takers:
        taker.join()
    edits = NEW_EDITS * threads
    return {"replica": edits / sum(taker.processor for taker in takers), "process": edits / max(taker.clock for taker in takers)}


def main() -> None:
    words = words_of(__doc__, SIZES)
    head("Edits before", "Edits a call", "Replicas", "Edits a second of a replica", "Edits a second of the process")
    for size in words.sizes:
        for edits_a_call in EDITS_A_CALL:
            for threads in THREADS:
                runs = [in_own_process(measure, size, threads, edits_a_call) for _ in range(words.repeats)]
                row(size, edits_a_call, threads, *(max(run[of] for run in runs) for of in ("replica", "process")))


if __name__ == "__main__":
    main()
