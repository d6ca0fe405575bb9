"""Joins an author to a log: join.py ADDRESS FOLDER AUTHOR [PEER].

Reads action lines from standard input, as `construct 0.0 main plus`, and writes what each answers. `show` writes the print text of what is
there by then, `offer` sends the whole program again. After the last line it stays until the log has all of its edits and it has all of
the log's, and writes the print text. Where PEER, the folder of another member, is told, what came while this one was away is asked of that
one; what it does not answer is read from the log.
"""
import select
import sys

from grove import BadLine, Refused

from folder import Folder
from logs import log_at
from member import Member, Taken
from peer import Port

SECONDS_BETWEEN_LOOKS = 0.2


def do(member: Member, line: str) -> None:
    if line == "show":
        sys.stdout.write(member.replica.show())
    elif line == "offer":
        member.offer_all()
    elif line:
        try:
            print(member.act(line).text)
        except (BadLine, Refused) as fault:
            print(fault)
    sys.stdout.flush()


def catch_up(member: Member) -> None:
    """Takes what is there before the first line is read, unless the log is down."""
    while member.take(SECONDS_BETWEEN_LOOKS) is Taken.SOME:
        pass


def follow_input(member: Member, port: Port) -> None:
    """Does what the input says as it comes; where no line is there, sends and takes."""
    # A buffer would hold lines back of which select does not know.
    lines = open(0, "rb", buffering=0)
    while True:
        if not select.select([lines], [], [], 0)[0]:
            member.send()
            member.take(SECONDS_BETWEEN_LOOKS)
            port.answer(member.replica, member.place)
            continue
        line = lines.readline()
        if not line:
            return
        do(member, line.decode().rstrip("\n"))


def settle(member: Member) -> None:
    """Stays until nothing waits and nothing more comes."""
    taken = None
    while member.waiting or taken is not Taken.NOTHING_LEFT:
        member.send()
        taken = member.take(SECONDS_BETWEEN_LOOKS)


def main(words: list[str]) -> int:
    if len(words) not in (3, 4):
        print(__doc__, file=sys.stderr)
        return 2
    address, folder, author, *peers = words
    member = Member(log_at(address), Folder(folder), int(author))
    for peer in peers:
        member.catch_up(peer)
    catch_up(member)
    # It listens only now, so two that come at once do not wait for each other.
    port = Port(folder)
    follow_input(member, port)
    port.close()
    settle(member)
    sys.stdout.write(member.replica.show())
    member.close()
    return 0


if __name__ == "__main__":
    sys.exit(main(sys.argv[1:]))
