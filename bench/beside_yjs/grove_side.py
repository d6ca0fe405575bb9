"""The same edges through Grove: grove_side.py EDITS [reverse]. Answers a JSON object with the keys of yjs.js; times are of the processor, in seconds.

Marks are kept throughout. Authoring is by actions, of which each is planned and answered with its edit. A whole state is loaded by texts of a
thousand edits.
"""
import json
import pathlib
import sys

sys.path.append(str(pathlib.Path(__file__).resolve().parents[1]))

from measuring import each, resident, seconds  # noqa: E402
from programs import EDITS_A_CALL, cut, joined  # noqa: E402

from grove import Replica  # noqa: E402

CATCHING_UP = 100


def action(line: str) -> str:
    """The action that makes an edit."""
    edge, source, _, position, _, target = line[1:].split(" ")
    return f"construct {source} {position} {target}" if line[0] == "+" else f"cut {edge}"


def author(replica: Replica, lines: list[str], updates: list[bytes]) -> None:
    for line in lines:
        updates.append(replica.act(1, action(line)).edits.encode())


def taken(updates: list[bytes], state: str) -> tuple[Replica, float]:
    """The seconds that a new replica takes for the updates, which have to make it the same as the state."""
    replica = Replica()
    time = seconds(each, replica.apply, updates)
    assert replica.canonical() == state
    return replica, time


def catching_up_bytes(replica: Replica, updates: list[bytes]) -> int:
    """The bytes of the summary of who lacks the last updates, and of what is answered."""
    behind = Replica()
    behind.apply(joined(updates[:-CATCHING_UP]))
    summary = behind.summary()
    return len(summary) + len(replica.lacking(summary))


def measure(lines: list[str], reverse: bool) -> dict:
    replica, updates = Replica(), []
    answer = {"edits": len(lines), "author": seconds(author, replica, lines, updates)}
    state = replica.canonical()
    answer |= {"state_bytes": len(state), "update_bytes": sum(map(len, updates))}
    pieces = cut(state.encode(), EDITS_A_CALL)
    before = resident()
    whole, answer["whole"] = taken(pieces, state)
    answer["memory_bytes"] = resident() - before
    whole.close()
    in_order, answer["in_order"] = taken(updates, state)
    answer["again"] = seconds(each, in_order.apply, updates)
    answer["catching_up_bytes"] = catching_up_bytes(replica, updates)
    if reverse:
        reversed_updates = updates[::-1]
        answer["reverse"] = taken(reversed_updates, state)[1]
        answer["joined"] = taken([joined(reversed_updates)], state)[1]
    return answer


if __name__ == "__main__":
    edits = pathlib.Path(sys.argv[1]).read_text().splitlines()
    print(json.dumps(measure([line for line in edits if line[0] in "+-"], len(sys.argv) > 2)))
