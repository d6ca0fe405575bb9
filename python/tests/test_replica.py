"""What a replica answers: the stored cases of the commands, the story of README.md, each fault and refusal, and wrong calls."""
import pathlib
import subprocess
import sys
import threading
import unittest

PYTHON = pathlib.Path(__file__).resolve().parents[1]
EXAMPLES = PYTHON.parent / "examples"
sys.path[:0] = [str(PYTHON / "tests"), str(PYTHON)]

from grove import BadLine, Record, Refused, Replica, faults, refusals  # noqa: E402
from grove.library import LIBRARY, Code  # noqa: E402
from stored_cases import stored_cases  # noqa: E402

PLUS = "+1.2 0.0 root main 1.1 plus\n"


def example(name: str) -> str:
    return (EXAMPLES / name).read_text()


def replica_of(*texts: str) -> Replica:
    replica = Replica(seed=1)
    for text in texts:
        replica.apply(text)
    return replica


class StoredCases(unittest.TestCase):
    """The commands' own cases, as far as a replica can answer them."""

    def test_texts(self):
        for case in stored_cases("graphs", "marks", "merge", "show"):
            if case.command in ("show", "merge"):
                with self.subTest(case.title):
                    self.assertEqual(self.answer(case), without_version(case.written))

    def answer(self, case) -> str:
        with Replica() as replica:
            try:
                replica.apply(case.text)
            except BadLine as bad:
                return f"malformed {bad.line} {bad.name}\n"
            return replica.show() if case.command == "show" else without_version(replica.canonical())

    def test_actions_of_sessions(self):
        """Sessions at one replica whose blocks have one author: each line answers as in the journal."""
        for case in stored_cases("actions"):
            lines = case.text.splitlines()
            if sum(line.startswith("replica ") for line in lines) == 1:
                with self.subTest(case.title):
                    self.run_session(lines, case.written.splitlines())

    def run_session(self, lines: list[str], journal: list[str]) -> None:
        due = dict(line.split(" = ") for line in journal if " = " in line)
        with Replica() as replica:
            for line in lines:
                if line.startswith("load "):
                    replica.apply("grove 2\n" + line.split(" ", 2)[2] + "\n")
                elif line[0].isdigit():
                    author, action = line.split(" ", 1)
                    self.assertEqual(answer_of(replica, int(author), action), due[line])


def without_version(text: str) -> str:
    """The canonical text of a replica is of version two always, that of `merge` of the version of its input."""
    return text.removeprefix("grove 2\n")


def answer_of(replica: Replica, author: int, action: str) -> str:
    try:
        return replica.act(author, action).text
    except Refused as refused:
        return refused.answer


class Story(unittest.TestCase):
    def test_both_orders_show_the_same(self):
        one, two = replica_of(example("ann.edits"), example("ben.edits")), replica_of(example("ben.edits"), example("ann.edits"))
        self.assertEqual(one.show(), two.show())
        self.assertEqual(one.canonical(), two.canonical())
        self.assertIn("2 cond 2.2 2.1 num:0 ana:bool num inconsistent\n", one.show())
        self.assertEqual(one.marks(), [Record("2.1 num:0", "ana:bool", "num", "inconsistent")])

    def test_an_act_makes_edits_for_others(self):
        ann, ben = replica_of(PLUS), replica_of(PLUS)
        answer = ann.act(1, "construct 1.1 left num:1")
        self.assertEqual((answer.text, answer.name), ("made 1.3", "1.3"))
        self.assertEqual(answer.edits, "grove 2\n+1.4 1.1 plus left 1.3 num:1\n")
        self.assertEqual(ann.changed(), [Record("1.3 num:1", "ana:num", "num", "-")])
        ben.apply(answer.edits)
        self.assertEqual(ben.show(), ann.show())

    def test_undo_and_redo(self):
        replica = replica_of(PLUS)
        empty = replica.show()
        replica.act(1, "construct 1.1 left num:1")
        self.assertEqual(replica.undo(1).text, "undone 1")
        self.assertEqual(replica.redo(1).text, "redone 1")
        self.assertEqual(replica.undo(1).text, "undone 1")
        self.assertNotEqual(replica.show(), empty, "the vertex stays, as a tree of its own")
        with self.assertRaises(refusals.Nothing):
            replica.undo(1)

    def test_report_and_records(self):
        replica = replica_of(example("let.edits"))
        self.assertEqual(replica.report()["none"][0][1]["what"], "let")
        self.assertEqual(replica.record("1.7 var:x"), Record("1.7 var:x", "syn", "num", "-"))
        self.assertIsNone(replica.record("9.9 var:x"))
        self.assertEqual((replica.greatest(1), replica.greatest(7)), (8, 0))

    def test_pieces(self):
        text = example("sum.edits").encode()
        whole, pieces = replica_of(text.decode()), Replica()
        pieces.apply_pieces(bytes([byte]) for byte in text)
        self.assertEqual(pieces.show(), whole.show())

    def test_long_texts(self):
        lines = [f"+1.{2 * at} 1.{2 * at - 1} fst of 1.{2 * at + 1} fst\n" for at in range(1, 20_000)]
        replica = replica_of("".join(lines))
        self.assertEqual(replica.canonical(), "grove 2\n" + "".join(lines))


class Failures(unittest.TestCase):
    def test_each_fault(self):
        for line, fault in {
            "x\n": faults.Syntax,
            "+0.2 0.0 root main 1.1 plus\n": faults.BadVertex,
            "+1.2 0.0 root left 1.1 plus\n": faults.NoPosition,
            "+1.2 0.0 root main 1.1 tnum\n": faults.WrongSort,
            PLUS + "+": faults.Rest,
        }.items():
            with self.subTest(fault.name), Replica() as replica:
                replica.apply(PLUS)
                before = replica.show()
                with self.assertRaises(fault) as raised:
                    replica.apply("+1.4 1.1 plus left 1.3 num:1\n" + line)
                self.assertEqual(raised.exception.line, 3 if fault is faults.Rest else 2)
                self.assertEqual(replica.show(), before)

    def test_a_refusal_shows_what_it_met(self):
        replica = replica_of(PLUS)
        with self.assertRaises(refusals.Occupied) as raised:
            replica.act(1, "construct 0.0 main num:1")
        self.assertEqual((raised.exception.answer, raised.exception.shown), ("refused 5 occupied 1.2", ("1.2",)))
        with self.assertRaises(faults.Syntax):
            replica.act(1, "construct 0.0 main")

    def test_wrong_calls(self):
        replica = replica_of(PLUS)
        for call in (lambda: replica.act(0, "cut 1.2"), lambda: replica.undo(2**32), lambda: replica.greatest(-1), lambda: Replica(seed=2**64)):
            self.assertRaises(ValueError, call)
        for call in (lambda: replica.apply(7), lambda: replica.act("1", "cut 1.2"), lambda: replica.act(1, None)):
            self.assertRaises(TypeError, call)

    def test_null_pointers(self):
        self.assertEqual(LIBRARY.grove_apply(None, b"", 0, None), Code.WRONG_CALL)
        self.assertEqual(LIBRARY.grove_new(1, None), Code.WRONG_CALL)

    def test_closed(self):
        with Replica() as replica:
            pass
        replica.close()
        self.assertRaises(ValueError, replica.show)
        self.assertRaises(ValueError, replica.act, 1, "cut 1.2")


class Threads(unittest.TestCase):
    def test_each_thread_has_a_replica_of_its_own(self):
        shown = []
        threads = [threading.Thread(target=lambda: shown.append(self.acted())) for _ in range(4)]
        for thread in threads:
            thread.start()
        for thread in threads:
            thread.join()
        self.assertEqual(len(shown), 4)
        self.assertEqual(len(set(shown)), 1)

    def acted(self) -> str:
        with Replica() as replica:
            for _ in range(200):
                replica.act(1, "construct 0.0 main plus") if replica.greatest(1) == 0 else replica.act(1, "wrap 0.0 main pair")
            return replica.show()


class Commands(unittest.TestCase):
    def run_module(self, *words: str) -> subprocess.CompletedProcess:
        return subprocess.run([sys.executable, "-m", "grove", *words], cwd=PYTHON, capture_output=True, text=True, check=False)

    def test_show(self):
        shown = self.run_module("show", str(EXAMPLES / "ann.edits"), str(EXAMPLES / "ben.edits"))
        self.assertEqual(shown.stdout, replica_of(example("ann.edits"), example("ben.edits")).show())

    def test_bad_line(self):
        bad = self.run_module("show", str(EXAMPLES / "wrong_sort.edits"))
        self.assertEqual(bad.returncode, 3)
        self.assertIn("malformed 1 wrong-sort", bad.stderr)


if __name__ == "__main__":
    unittest.main()
