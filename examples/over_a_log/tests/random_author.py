"""An author that acts at random, and is killed at random: random_author.py ADDRESS FOLDER AUTHOR SIGNS.

Tells on standard output, a line at a time: `kept EDIT` once an edit of its own is on its disk, `acknowledged EDIT` once the log has it; at the start
`caught PLACE` where another author answered what was missed, up to that place of the log. Once
there is a file `stop` in the folder SIGNS it acts no more, tells `settled` when nothing of its own waits, and once there is a file `end` takes
what is left and writes its print text to the file `shown` of its folder. What comes from the log comes to it out of order and more than once.
"""
import pathlib
import random
import sys
import time

HERE = pathlib.Path(__file__).parent
sys.path[:0] = [str(HERE.parent), str(HERE.parents[2] / "python"), str(HERE.parents[2] / "python" / "tests")]

from folder import Folder, InUse  # noqa: E402
from logs import Entry, log_at  # noqa: E402
from member import Member, Taken  # noqa: E402
from peer import Port  # noqa: E402

from grove import BadLine, Refused  # noqa: E402
from plain_grove.forms import FORMS  # noqa: E402

LEAVES = {"exp": ("num:7", "var:x", "true"), "pat": ("pvar:x",), "typ": ("tnum",)}
BRANCHES = {"exp": ("plus", "lam", "ap", "if", "pair", "let", "case"), "pat": ("pvar:y",), "typ": ("tarrow", "tsum")}


class Disorderly:
    """A log that gives what it is asked for in a random order, and some of what it gave before."""

    def __init__(self, log, rng: random.Random):
        self.log, self.rng, self.given = log, rng, []

    def append(self, lines: bytes) -> None:
        self.log.append(lines)
        if self.rng.random() < 0.1:
            self.log.append(lines)

    def follow(self, place: str, seconds: float) -> list[Entry]:
        entries = self.log.follow(place, seconds)
        if not entries:
            return []
        again = self.rng.sample(self.given, min(3, len(self.given)))
        self.given = (self.given + entries)[-500:]
        return self.rng.sample(entries + again, len(entries) + len(again)) + entries[-1:]


class Hand:
    """Chooses actions by what it saw of the program."""

    def __init__(self, rng: random.Random):
        self.rng = rng
        self.vertices, self.edges = [("0.0", "root")], []

    def see(self, lines: str) -> None:
        for line in lines.splitlines():
            if line.startswith("+"):
                edge, _, _, _, name, constructor = line[1:].split(" ")
                self.vertices.append((name, constructor))
                self.edges.append(edge)

    def action(self) -> str:
        name, constructor = self.rng.choice(self.vertices[-200:] if self.rng.random() < 0.7 else self.vertices)
        positions = FORMS[constructor.partition(":")[0]][1]
        verb = self.rng.choices(("construct", "wrap", "cut", "relocate", "delete", "restore"), (60, 8, 12, 10, 5, 5))[0]
        if verb == "cut" and self.edges:
            return f"cut {self.rng.choice(self.edges)}"
        if not positions:
            return self.action()
        position, sort = self.rng.choice(list(positions.items()))
        if verb == "relocate" and self.edges:
            return f"relocate {self.rng.choice(self.edges)} {name} {position}"
        if verb == "restore":
            return f"restore {self.rng.choice(self.vertices)[0]} {name} {position}"
        if verb == "delete":
            return f"delete {name} {position}"
        words = BRANCHES if verb == "wrap" or self.rng.random() < 0.7 else LEAVES
        return f"{'wrap' if verb == 'wrap' else 'construct'} {name} {position} {self.rng.choice(words[sort])}"


def tell(word: str, lines: str) -> None:
    told = "".join(f"{word} {line}\n" for line in lines.splitlines() if line[:1] in "+-")
    sys.stdout.write(told)
    sys.stdout.flush()


def act(member: Member, hand: Hand) -> None:
    try:
        answer = member.act(hand.action())
    except Refused:
        return
    tell("kept", answer.edits)
    hand.see(answer.edits)


def send(member: Member) -> None:
    for lines in member.send():
        tell("acknowledged", lines.decode())


def open_folder(path: str) -> Folder:
    """The folder of a process that was just killed may be in use for a moment yet."""
    while True:
        try:
            return Folder(path)
        except InUse:
            time.sleep(0.01)


def act_until(stop: pathlib.Path, member: Member, hand: Hand, port: Port) -> None:
    while not stop.exists():
        for _ in range(hand.rng.randrange(1, 4)):
            act(member, hand)
        send(member)
        member.take(0.02)
        port.answer(member.replica, member.place)


def settle(end: pathlib.Path, member: Member, port: Port) -> None:
    """Stays until all authors have sent what they had, and takes that."""
    while member.waiting:
        send(member)
        member.take(0.02)
    print("settled", flush=True)
    while not end.exists():
        member.take(0.1)
        port.answer(member.replica, member.place)
    while member.take(0.1) is not Taken.NOTHING_LEFT:
        pass


def main(address: str, folder: str, author: str, signs: str) -> None:
    rng = random.Random()
    member = Member(Disorderly(log_at(address), rng), open_folder(folder), int(author))
    # Another author may be dead or not listening yet: then all comes from the log.
    others = [str(other) for other in pathlib.Path(signs).glob("author*") if other != pathlib.Path(folder)]
    if others and member.catch_up(rng.choice(others)):
        print(f"caught {member.place}", flush=True)
    port = Port(folder)
    hand = Hand(rng)
    hand.see(member.replica.canonical())
    act_until(pathlib.Path(signs, "stop"), member, hand, port)
    settle(pathlib.Path(signs, "end"), member, port)
    pathlib.Path(folder, "shown").write_text(member.replica.show())
    member.close()


if __name__ == "__main__":
    main(*sys.argv[1:])
