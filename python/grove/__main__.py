"""Shows programs: python3 -m grove show FILE.., merge FILE.. or summary FILE.., of edit texts, which are joined; - is standard input.

lacking SUMMARY FILE.. writes those of their edits that who has the summary lacks.
"""
import pathlib
import sys

from . import BadLine, Replica

TEXTS = {"show": Replica.show, "merge": Replica.canonical, "summary": Replica.summary}


def read(name: str) -> bytes:
    return sys.stdin.buffer.read() if name == "-" else pathlib.Path(name).read_bytes()


def told(name: str, call, *words):
    """What a call answers of a file's text. Where the text has no reading, that is told and the process ends."""
    try:
        return call(*words)
    except BadLine as bad:
        print(f"{name}: malformed {bad.line} {bad.name}", file=sys.stderr)
        raise SystemExit(3) from None


def main(words: list[str]) -> int:
    command, *names = words or [""]
    summary = names.pop(0) if command == "lacking" and names else None
    if not names or command not in (*TEXTS, "lacking"):
        print(__doc__, file=sys.stderr)
        return 2
    with Replica() as replica:
        for name in names:
            told(name, replica.apply, read(name))
        sys.stdout.write(TEXTS[command](replica) if summary is None else told(summary, replica.lacking, read(summary)))
    return 0


if __name__ == "__main__":
    sys.exit(main(sys.argv[1:]))
