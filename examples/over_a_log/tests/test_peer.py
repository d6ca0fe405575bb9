"""A member that was away catches up by another one, and by the log where the other does not answer."""
import pathlib
import socket
import sys
import tempfile
import threading
import unittest

HERE = pathlib.Path(__file__).parent
sys.path[:0] = [str(HERE.parent), str(HERE.parents[2] / "python")]

from folder import Folder  # noqa: E402
from logs import Entry  # noqa: E402
from member import Member, Taken  # noqa: E402
from peer import NoPeer, Port, ask, port_of, received  # noqa: E402


class ListLog:
    """A log in memory, which counts the entries that it gave."""

    def __init__(self):
        self.entries, self.given = [], 0

    def append(self, lines: bytes) -> None:
        self.entries.append(lines)

    def follow(self, place: str, seconds: float) -> list[Entry]:
        first = int(place or 0)
        self.given += len(self.entries) - first
        return [Entry(str(at + 1), lines) for at, lines in enumerate(self.entries[first:], first)]


class Peers(unittest.TestCase):
    def setUp(self):
        room = tempfile.TemporaryDirectory()
        self.addCleanup(room.cleanup)
        self.room, self.log = pathlib.Path(room.name), ListLog()
        self.ann = self.member("ann", 1)
        self.addCleanup(self.ann.close)
        self.act(100)
        ben = self.member("ben", 2)
        self.take_all(ben)
        ben.close()
        self.act(300)

    def member(self, name: str, author: int) -> Member:
        return Member(self.log, Folder(self.room / name), author)

    def act(self, count: int) -> None:
        """Actions of ann's, which she sends and takes."""
        for _ in range(count):
            self.ann.act("wrap 0.0 main pair" if self.ann.replica.greatest(1) else "construct 0.0 main true")
        self.ann.send()
        self.take_all(self.ann)

    def take_all(self, member: Member) -> None:
        while member.take(0) is not Taken.NOTHING_LEFT:
            pass

    def answering(self, port: Port) -> threading.Thread:
        """Answers one question meanwhile."""

        def answer():
            while not port.answer(self.ann.replica, self.ann.place):
                pass

        thread = threading.Thread(target=answer)
        thread.start()
        self.addCleanup(thread.join)
        return thread

    def falls_back(self, ben: Member) -> None:
        place, shown = ben.place, ben.replica.show()
        self.assertFalse(ben.catch_up(self.room / "ann"))
        self.assertEqual((ben.place, ben.replica.show()), (place, shown))
        self.take_all(ben)
        self.assertEqual(ben.replica.show(), self.ann.replica.show())
        ben.close()

    def test_what_came_meanwhile_is_asked_and_not_read(self):
        port, ben = Port(self.room / "ann"), self.member("ben", 2)
        self.addCleanup(port.close)
        self.answering(port)
        given = self.log.given
        self.assertTrue(ben.catch_up(self.room / "ann"))
        self.take_all(ben)
        self.assertEqual((ben.place, self.log.given), (self.ann.place, given))
        self.assertEqual(ben.replica.show(), self.ann.replica.show())
        ben.close()
        ben = self.member("ben", 2)
        self.assertEqual(ben.replica.show(), self.ann.replica.show(), "what was caught up is saved")
        ben.close()

    def test_who_does_not_run_does_not_answer(self):
        self.falls_back(self.member("ben", 2))

    def test_an_answer_that_is_cut_is_none(self):
        port = Port(self.room / "ann")
        answering = self.answering(port)
        whole = ask(self.room / "ann", "")
        answering.join()
        port.close()
        answer = b"%s\n%s" % (whole[0].encode(), whole[1])
        for cut in (0, 1, 5, len(answer) // 2, len(answer) - 1):
            with self.subTest(cut):
                self.answer_once(b"%d 0\n" % len(answer) + answer[:cut])
                self.assertRaises(NoPeer, ask, self.room / "ann", "")
        self.answer_once(b"")
        self.falls_back(self.member("ben", 2))

    def answer_once(self, answer: bytes) -> None:
        """Somebody who listens in ann's place, and answers this."""
        path = port_of(self.room / "ann")
        path.unlink(missing_ok=True)
        end = socket.socket(socket.AF_UNIX)
        end.bind(str(path))
        end.listen()

        def serve():
            with end, end.accept()[0] as asking:
                received(asking)
                asking.sendall(answer)

        thread = threading.Thread(target=serve)
        thread.start()
        self.addCleanup(thread.join)

    def test_a_question_that_is_no_summary_is_not_answered(self):
        port = Port(self.room / "ann")
        self.addCleanup(port.close)
        self.answering(port)
        self.assertRaises(NoPeer, ask, self.room / "ann", "no summary\n")


if __name__ == "__main__":
    unittest.main()
