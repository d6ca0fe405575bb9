"""The cases of .ci/cases: commands with their inputs, and what they are to write."""
import pathlib
from typing import NamedTuple

CASES = pathlib.Path(__file__).resolve().parents[2] / ".ci" / "cases"


class Case(NamedTuple):
    title: str
    command: str
    text: str
    written: str


def stored_cases(*files: str) -> list[Case]:
    return [read_case(name, case) for name in files for case in (CASES / name).read_text().split("== ")[1:]]


def read_case(name: str, case: str) -> Case:
    """A title, `$ WORDS`, the input, `> STATUS` and what is written; a line of a single backslash takes away the line end before it."""
    title, rest = case.split("\n$ ", 1)
    asked, wanted = rest.split("\n> ", 1)
    command, has_text, text = asked.partition("\n")
    _, _, written = wanted.partition("\n")
    return Case(f"{name}: {title}", command, (text + "\n" if has_text else "").replace("\n\\\n", ""), written)
