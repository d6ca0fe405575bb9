"""Two replicas tell what they have, and each takes what the other answers: both have all edits of both then."""
import pathlib
import random
import sys
import unittest

PYTHON = pathlib.Path(__file__).resolve().parents[1]
sys.path[:0] = [str(PYTHON / "tests"), str(PYTHON)]

from grove import Refused, Replica, faults  # noqa: E402

VERBS = ("construct {at} main plus", "construct {at} left num:7", "construct {at} right plus", "wrap {at} left plus", "cut {edge}", "delete {at} left")


def act_at_random(rng: random.Random, replica: Replica, author: int, count: int) -> None:
    """Actions of an author at vertices and edges that the author may have named; some are refused."""
    for _ in range(count):
        last = max(2, replica.greatest(author))
        at = "0.0" if rng.random() < 0.05 else f"{author}.{rng.randrange(1, last + 1) | 1}"
        try:
            replica.act(author, rng.choice(VERBS).format(at=at, edge=f"{author}.{rng.randrange(2, last + 1) & ~1}"))
        except Refused:
            pass


def catch_up(replica: Replica, other: Replica) -> str:
    """Answers what was sent."""
    sent = other.lacking(replica.summary())
    replica.apply(sent)
    return sent


def lines_of(replica: Replica) -> set[str]:
    return set(replica.canonical().splitlines()[1:])


class CatchingUp(unittest.TestCase):
    def test_both_have_all(self):
        for seed in range(60):
            with self.subTest(seed), Replica() as ann, Replica() as ben, Replica() as both:
                rng = random.Random(seed)
                act_at_random(rng, ann, 1, rng.randrange(60))
                ben.apply(ann.canonical())
                act_at_random(rng, ann, 1, rng.randrange(40))
                act_at_random(rng, ben, 2, rng.randrange(40))
                both.apply(ann.canonical())
                both.apply(ben.canonical())
                before = lines_of(ann), lines_of(ben)
                told = ann.summary(), ben.summary()
                sent = ben.lacking(told[0]), ann.lacking(told[1])
                ann.apply(sent[0])
                ben.apply(sent[1])
                self.assertEqual((ann.show(), ben.show()), (both.show(), both.show()))
                self.assertEqual((ann.lacking(ben.summary()), ben.lacking(ann.summary())), ("", ""))
                self.assertEqual(set(sent[0].splitlines()[1:]) & before[0], set(), "nothing is sent in vain")
                self.assertEqual(set(sent[1].splitlines()[1:]) & before[1], set(), "nothing is sent in vain")

    def test_one_after_the_other(self):
        with Replica() as ann, Replica() as ben:
            act_at_random(random.Random(1), ann, 1, 50)
            act_at_random(random.Random(2), ben, 2, 50)
            catch_up(ann, ben)
            catch_up(ben, ann)
            self.assertEqual(ann.canonical(), ben.canonical())

    def test_summaries(self):
        with Replica() as replica:
            self.assertEqual((replica.summary(), replica.lacking("")), ("", ""))
            replica.apply("+1.2 0.0 root main 1.1 plus\n+1.4 1.1 plus left 1.3 num:1\n-1.7 1.1 plus right 2.1 num:1\n-1.8 1.1 plus right 2.3 num:1\n")
            self.assertEqual(replica.summary(), "+0.0\n+1.1-4\n+1.7-8\n+2.1\n+2.3\n-1.7-8\n")
            self.assertEqual(replica.lacking("+1.1-8\n-1.8\n"), "grove 2\n-1.7 1.1 plus right 2.1 num:1\n")

    def test_one_range_tells_of_deleted_edges_and_the_vertices_between(self):
        with Replica() as replica:
            replica.apply("-1.2 0.0 root main 1.1 plus\n-1.4 1.1 plus left 1.3 plus\n-1.6 1.3 plus left 1.5 num:1\n+1.8 1.3 plus right 1.7 num:1\n-1.10 1.1 plus right 1.9 num:1\n")
            self.assertEqual(replica.summary(), "+0.0\n+1.1-10\n-1.2-6\n-1.10\n")
            replica.apply("-1.8 1.3 plus right 1.7 num:1\n")
            self.assertEqual(replica.summary(), "+0.0\n+1.1-10\n-1.2-10\n")

    def test_names_given_twice_are_not_told(self):
        with Replica() as replica:
            replica.apply("+1.2 0.0 root main 1.1 plus\n-1.2 0.0 root main 1.3 plus\n")
            self.assertEqual(replica.summary(), "+0.0\n+1.1\n+1.3\n")

    def test_faults(self):
        with Replica() as replica:
            for text, fault, line in (
                ("+1.1\n1.2\n", faults.Syntax, 2),
                ("+1.1-1\n", faults.Syntax, 1),
                ("+1.1\n+1.2\n", faults.OutOfOrder, 2),
                ("-1.1\n+1.1\n", faults.OutOfOrder, 2),
                ("+1.1", faults.Rest, 1),
            ):
                with self.assertRaises(fault) as raised:
                    replica.lacking(text)
                self.assertEqual(raised.exception.line, line)
            self.assertRaises(TypeError, replica.lacking, None)


if __name__ == "__main__":
    unittest.main()
