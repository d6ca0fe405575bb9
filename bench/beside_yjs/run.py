"""Grove beside Yjs on the same edges, by node and Debian's node-yjs.

One author builds a tree, and deletes some of its edges on the way. Each side runs in a process of its own, and the least of each measure
counts. In reverse Yjs takes the square of the time, and so it does that once, and for few edits alone.
"""
import json
import os
import pathlib
import subprocess
import sys
import tempfile

HERE = pathlib.Path(__file__).resolve().parent
sys.path.append(str(HERE.parent))

from measuring import cell, head, least, need, row, words_of  # noqa: E402

ROWS = {
    "author": ("authoring one at a time", "s"),
    "whole": ("taking the whole state", "s"),
    "in_order": ("taking updates in order", "s"),
    "again": ("taking them a second time", "s"),
    "reverse": ("taking updates in reverse", "s"),
    "joined": ("taking them in reverse, joined to one", "s"),
    "state_bytes": ("the whole state", "B"),
    "update_bytes": ("all updates", "B"),
    "catching_up_bytes": ("catching up with the last 100 edits, both ways", "B"),
    "memory_bytes": ("memory of what took the whole state", "B"),
}
MOST_IN_REVERSE = 10_000
YJS = ["node", "--expose-gc", "--max-old-space-size=8000", str(HERE / "yjs.js")]
GROVE = [sys.executable, str(HERE / "grove_side.py")]


def insertion(number: int, branches: int) -> str:
    parent = (number - 1) // 2
    source = f"1.{2 * parent + 1} plus {'left' if number % 2 else 'right'}" if number else "0.0 root main"
    target = "plus" if number < branches else "num:7"
    return f"+1.{2 * number + 2} {source} 1.{2 * number + 1} {target}"


def edits(size: int) -> list[str]:
    """The lines of a tree of `plus` by author 1, who makes 1.1, 1.2, 1.3 .. by turns a vertex and its edge; each tenth line deletes an edge."""
    branches = size * 9 // 20
    lines = []
    for number in range(size - size // 10):
        lines.append(insertion(number, branches))
        if number % 9 == 8:
            lines.append("-" + insertion(number - 5, branches)[1:])
    return lines


def run(words: list[str]) -> dict:
    environment = {**os.environ, "NODE_PATH": "/usr/share/nodejs"}
    return json.loads(subprocess.run(words, check=True, capture_output=True, env=environment).stdout)


def measure(words: list[str], repeats: int, reverse: bool) -> dict:
    once = [run([*words, "reverse"])] if reverse else []
    return {**(once[0] if once else {}), **least([run(words) for _ in range(repeats)])}


def shown(number: float | None, unit: str) -> str:
    if number is None:
        return "not run"
    return f"{cell(float(number))} s" if unit == "s" else f"{number / 1e6:,.3f} MB"


def compare(size: int, repeats: int, reverse: bool) -> None:
    with tempfile.NamedTemporaryFile("w", suffix=".edits") as file:
        file.write("\n".join(edits(size)) + "\n")
        file.flush()
        grove, yjs = measure([*GROVE, file.name], repeats, True), measure([*YJS, file.name], repeats, reverse)
    for key, (what, unit) in ROWS.items():
        other = yjs.get(key)
        row(size, what, shown(grove[key], unit), shown(other, unit), cell(float(other / grove[key])) if other else "")


def main() -> None:
    words = words_of(__doc__)
    need("nodejs", "node-yjs")
    head("Edits", "What", "Grove", "Yjs", "Yjs by Grove")
    for size in words.sizes:
        compare(size, words.repeats, size <= MOST_IN_REVERSE)


if __name__ == "__main__":
    main()
