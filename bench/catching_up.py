"""What two replicas send each other until both have the same: catching_up.py [EDITS [APART]] > catching_up.tsv.

For each kind of program, two replicas have the same edits, and then each takes half of APART further ones, insertions and deletions. Each
tells its summary and takes what the other answers. Bytes are those of both summaries and both answers, `packed` the same as zlib packs each
of the four, and `whole` those of sending the canonical text both ways. Times are of the processor, of one call and the best of three.
"""
import random
import sys
import time
import zlib
from collections.abc import Iterator
from pathlib import Path

sys.path.insert(0, str(Path(__file__).parents[1] / "python"))

import programs  # noqa: E402

from grove import Refused, Replica  # noqa: E402

REPEATS = 3
AUTHORS = 8
MOST_VERTICES_IN_SIGHT = 200
ACTIONS = {"construct {at} left plus": 30, "construct {at} right num:1": 30, "wrap {at} left plus": 15, "delete {at} right": 8, "cut {edge}": 8, "relocate {edge} {at} left": 9}
COLUMNS = "kind edits apart deleted ranges summary_bytes answer_bytes bytes packed whole summary_ms lacking_ms apply_ms".split()


def scattered(edits: int) -> Iterator[str]:
    """A tree of which every third edge is deleted: no range tells of two deleted edges."""
    for number, line in enumerate(programs.tree(edits)):
        yield ("-" if number // programs.AUTHORS % 3 == 2 else "+") + line[1:]


def acted(edits: int) -> Iterator[str]:
    """What authors made by actions that construct, wrap, move and delete, mostly where they acted last."""
    rng, replica, count = random.Random(1), Replica(seed=1), 0
    seen = {author: (["0.0"], ["1.1"]) for author in range(1, AUTHORS + 1)}
    while count < edits:
        author = rng.randrange(1, AUTHORS + 1)
        vertices, edges = seen[author]
        action = rng.choices(list(ACTIONS), ACTIONS.values())[0] if len(vertices) > 1 else "construct {at} main plus"
        try:
            made = replica.act(author, action.format(at=rng.choice(vertices[-MOST_VERTICES_IN_SIGHT:]), edge=rng.choice(edges[-MOST_VERTICES_IN_SIGHT:]))).edits.splitlines()[1:]
        except Refused:
            if len(vertices) == 1:
                vertices.append("1.1")
            continue
        for line in made:
            words = line[1:].split(" ")
            edges.append(words[0])
            if words[5] == "plus":
                vertices.append(words[4])
        count += len(made)
    yield from replica.canonical().splitlines(keepends=True)[1:]


KINDS = {**programs.KINDS, "scattered": scattered, "acted": acted}


def further(rng: random.Random, lines: list[str], author: int, count: int) -> str:
    """Edits of an author: deletions of edges that are there, and insertions beside them."""
    edits = []
    for at in range(1, count + 1):
        line = rng.choice(lines)
        source = " ".join(line.split(" ")[1:4])
        edits.append(f"-{line[1:]}" if at % 2 else f"+{author}.{2 * at} {source} {author}.{2 * at - 1} {'plus' if 'root' in source else 'num:1'}\n")
    return "grove 2\n" + "".join(edits)


def timed(replica: Replica, call, *words):
    """What a call of a replica answers, and the milliseconds that it takes."""
    times = []
    for _ in range(REPEATS):
        # A text that was made is kept until the replica takes something.
        replica.apply("")
        start = time.process_time()
        answer = call(replica, *words)
        times.append((time.process_time() - start) * 1e3)
    return answer, min(times)


def packed(*texts: str) -> int:
    return sum(len(zlib.compress(text.encode(), 9)) for text in texts)


def measure(kind: str, edits: int, apart: int) -> dict:
    lines = list(KINDS[kind](edits))
    rng = random.Random(1)
    ann, ben = Replica(seed=1), Replica(seed=2)
    for replica, author in ((ann, 98), (ben, 99)):
        replica.apply("grove 2\n" + "".join(lines))
        replica.apply(further(rng, lines, author, apart // 2))
    summary, summary_ms = timed(ann, Replica.summary)
    answer, lacking_ms = timed(ben, Replica.lacking, summary)
    other_summary = ben.summary()
    other_answer = ann.lacking(other_summary)
    whole = len(ann.canonical()) + len(ben.canonical())
    _, apply_ms = timed(ann, Replica.apply, answer)
    ben.apply(other_answer)
    assert ann.canonical() == ben.canonical(), "both have the same"
    told, answered = len(summary) + len(other_summary), len(answer) + len(other_answer)
    bytes_of = (told, answered, told + answered, packed(summary, other_summary, answer, other_answer), whole)
    return dict(zip(COLUMNS, (kind, len(lines), apart, ann.canonical().count("\n-"), summary.count("\n"), *bytes_of, summary_ms, lacking_ms, apply_ms), strict=True))


def main(words: list[str]) -> None:
    edits, apart = (*map(int, words), *(100_000, 100)[len(words):])
    print(*COLUMNS, sep="\t")
    for kind in KINDS:
        row = measure(kind, edits, apart)
        print(*(f"{value:.1f}" if isinstance(value, float) else value for value in row.values()), sep="\t", flush=True)


if __name__ == "__main__":
    main(sys.argv[1:])
