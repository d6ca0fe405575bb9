"""What the scripts here share: time of the processor, memory, the best of some runs, and tables in Markdown."""
import argparse
import concurrent.futures
import multiprocessing
import os
import pathlib
import resource
import subprocess
import sys
import time
from collections.abc import Callable, Iterable

TOP = pathlib.Path(__file__).resolve().parents[1]
sys.path.insert(0, str(TOP / "python"))

SIZES = (10_000, 100_000, 1_000_000)
REPEATS = 3
PASSED_OVER = 77


def words_of(documentation: str, sizes: Iterable[int] = SIZES, counts: str = "edits", **more: str) -> argparse.Namespace:
    """The words of the command line: `--sizes`, `--repeats`, and those that are named with their help."""
    parser = argparse.ArgumentParser(description=documentation, formatter_class=argparse.RawDescriptionHelpFormatter)
    parser.add_argument("--sizes", type=int, nargs="+", default=list(sizes), help=f"numbers of {counts}")
    parser.add_argument("--repeats", type=int, default=REPEATS, help="runs of which the best counts")
    for name, help in more.items():
        parser.add_argument(f"--{name}", help=help)
    return parser.parse_args()


def need(*packages: str) -> None:
    """Installs those of these Debian packages that are missing, and says so; where that cannot be, ends with the status of what was passed over."""
    missing = [it for it in packages if subprocess.run(["dpkg", "-s", it], capture_output=True, check=False).returncode]
    if not missing:
        return
    print(f"installing {' '.join(missing)}", file=sys.stderr)
    environment = {**os.environ, "DEBIAN_FRONTEND": "noninteractive"}
    for words in (["update"], ["install", "-y", "--no-install-recommends", *missing]):
        if subprocess.run(["apt-get", "-qq", *words], env=environment, stdout=subprocess.DEVNULL, check=False).returncode:
            print(f"passed over: {' '.join(missing)} cannot be installed here", file=sys.stderr)
            raise SystemExit(PASSED_OVER)


def seconds(work: Callable, *words) -> float:
    """The time of the processor, user and system, that the work takes in this process."""
    start = time.process_time()
    work(*words)
    return time.process_time() - start


def each(take: Callable, words: Iterable) -> None:
    for word in words:
        take(word)


def resident() -> int:
    """The bytes of memory that this process has now."""
    pages = int(pathlib.Path("/proc/self/statm").read_text().split()[1])
    return pages * resource.getpagesize()


def in_own_process(measure: Callable[..., dict], *words) -> dict:
    """What the measure tells in a fresh process, which has nothing of what was measured before."""
    with concurrent.futures.ProcessPoolExecutor(1, mp_context=multiprocessing.get_context("spawn")) as pool:
        return pool.submit(measure, *words).result()


def least(runs: list[dict]) -> dict:
    """The least of each measure, since whatever else the machine does only adds."""
    return {key: min(run[key] for run in runs) for key in runs[0]}


def best(repeats: int, measure: Callable[..., dict], *words) -> dict:
    return least([in_own_process(measure, *words) for _ in range(repeats)])


def row(*cells) -> None:
    """Writes a row of a table, as soon as it is known."""
    print("|", " | ".join(map(cell, cells)), "|", flush=True)


def head(*names: str) -> None:
    row(*names)
    print("|" + "---|" * len(names))


def cell(it) -> str:
    """Whole numbers with their thousands parted, others with three digits that count."""
    if isinstance(it, int):
        return f"{it:,}"
    if isinstance(it, float):
        return f"{it:,.0f}" if it >= 100 else f"{it:.3g}"
    return str(it)
