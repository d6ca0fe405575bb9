"""One replica, loaded, edited at its foot and printed, by the library for C; with --beside PROGRAM beside another program that does the same.

The foot of a tree is a random one of its lowest places, that of a chain its end: there a number is put, and deleted again. PROGRAM is called
as bench/one_replica.c, and tells what it took in the same lines. Both have to print the same. Of few edits instructions are counted too, by
valgrind, since these are the same however busy the machine is. Needs a C compiler.
"""
import os
import pathlib
import random
import re
import subprocess
import tempfile

import programs
from measuring import TOP, cell, head, least, need, row, words_of

PAIRS_AT_FOOT = 10_000
MOST_COUNTED = 10_000
NO_EDITS = pathlib.Path("/dev/null")
WHAT = {
    "load": ("load, s", 1),
    "foot": ("an edit at the foot, µs", 1e6),
    "show": ("print, s", 1),
    "memory_bytes": ("memory, MB", 1e-6),
    "instructions": ("load and print, million instructions", 1e-6),
    "foot_instructions": ("an edit at the foot, thousand instructions", 1e-3),
}


def build(folder: pathlib.Path) -> str:
    program = str(folder / "one_replica")
    sources = ("-I", TOP / "library", TOP / "bench" / "one_replica.c", TOP / "library" / "out" / "libgrove.a")
    subprocess.run([os.environ.get("CC", "cc"), "-O2", *sources, "-o", program], check=True)
    return program


def places_of(kind: str, edits: int) -> list[str]:
    """Vertices at which a number may be put, with the position."""
    if kind == "chain":
        return [f"{programs.name(edits - 1, 1)} fst of"]
    return [f"{programs.name(at, 1)} plus left" for at in range(edits // 4, edits // 2 - 1)]


def at_foot(kind: str, edits: int) -> str:
    """Edits of author 99 by turns put a number at a place and delete it again."""
    places, rng = places_of(kind, edits), random.Random(1)
    edges = [f"99.{2 * at + 2} {rng.choice(places)} 99.{2 * at + 1} num:1\n" for at in range(PAIRS_AT_FOOT)]
    return "".join(sign + edge for edge in edges for sign in "+-")


def run(program: str, *paths: pathlib.Path) -> dict[str, float]:
    lines = subprocess.run([program, *paths], check=True, capture_output=True, text=True).stdout.splitlines()
    return {key: float(number) for key, number in map(str.split, lines)}


def counted(program: str, *paths: pathlib.Path) -> float:
    words = ["valgrind", "--tool=callgrind", "--callgrind-out-file=/dev/null", program, *paths]
    told = subprocess.run(words, check=True, capture_output=True, text=True).stderr
    return float(re.search(r"Collected : (\d+)", told)[1])


def instructions(program: str, text: pathlib.Path, foot: pathlib.Path, shown: pathlib.Path) -> dict[str, float]:
    rest = counted(program, text, NO_EDITS, shown)
    return {"instructions": rest, "foot_instructions": (counted(program, text, foot, shown) - rest) / (2 * PAIRS_AT_FOOT)}


def compare(kind: str, edits: int, programs_beside: list[str], repeats: int, counts: bool, folder: pathlib.Path) -> None:
    """Writes the rows of a kind and size. The programs run by turns, so that what else the machine does falls on both."""
    text, foot = folder / "text", folder / "foot"
    text.write_bytes(programs.text(kind, edits))
    foot.write_text(at_foot(kind, edits))
    shown = [folder / f"shown{count}" for count in range(len(programs_beside))]
    rounds = [[run(program, text, foot, to) for program, to in zip(programs_beside, shown, strict=True)] for _ in range(repeats)]
    if len({path.read_bytes() for path in shown}) > 1:
        raise SystemExit(f"the print texts of a {kind} of {edits} edits differ")
    measures = [least(runs) for runs in zip(*rounds, strict=True)]
    if counts:
        measures = [it | instructions(program, text, foot, to) for it, program, to in zip(measures, programs_beside, shown, strict=True)]
    grove, *other = measures
    for key in grove:
        what, unit = WHAT[key]
        beside = [cell(number) for it in other for number in (it[key] * unit, grove[key] / it[key])]
        row(kind, edits, what, grove[key] * unit, *beside)


def main() -> None:
    words = words_of(__doc__, beside="the path of another program")
    need("valgrind")
    head("What", "Edits", "Measure", "Grove", *(["The other program", "Ratio"] if words.beside else []))
    with tempfile.TemporaryDirectory() as name:
        folder = pathlib.Path(name)
        beside = [build(folder), *([words.beside] if words.beside else [])]
        for kind in ("tree", "chain"):
            for edits in words.sizes:
                compare(kind, edits, beside, words.repeats, edits <= MOST_COUNTED, folder)


if __name__ == "__main__":
    main()
