"""The library and the model in plain Python answer random calls alike."""
import sys
import unittest

import many_calls


class RandomCalls(unittest.TestCase):
    def test_alike(self):
        sys.setrecursionlimit(many_calls.DEEPEST)
        self.assertGreater(many_calls.run(2_000, seed=7), 0)


if __name__ == "__main__":
    unittest.main()
