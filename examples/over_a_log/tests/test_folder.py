"""What a member keeps on its disk: whatever a crash leaves of the outbox is read as the actions before the torn one."""
import pathlib
import sys
import tempfile
import unittest

sys.path.insert(0, str(pathlib.Path(__file__).parents[1]))

from folder import Folder, InUse, record  # noqa: E402

ACTIONS = [b"grove 2\n+1.2 0.0 root main 1.1 plus\n", b"", b"7 8\n", b"grove 2\n-1.2 0.0 root main 1.1 plus\n+1.4 0.0 root main 1.3 true\n"]


class OnDisk(unittest.TestCase):
    def setUp(self):
        room = tempfile.TemporaryDirectory()
        self.addCleanup(room.cleanup)
        self.path = pathlib.Path(room.name, "member")

    def opened(self) -> Folder:
        folder = Folder(self.path)
        self.addCleanup(folder.close)
        return folder

    def reopened(self) -> list[bytes]:
        folder = Folder(self.path)
        actions = folder.outbox()
        folder.close()
        return actions

    def test_outbox_cut_anywhere(self):
        self.reopened()
        whole = b"".join(map(record, ACTIONS))
        ends = [len(b"".join(map(record, ACTIONS[:count]))) for count in range(len(ACTIONS) + 1)]
        for cut in range(len(whole) + 1):
            (self.path / "outbox").write_bytes(whole[:cut])
            due = ACTIONS[: sum(end <= cut for end in ends) - 1]
            self.assertEqual(self.reopened(), due)
            self.assertEqual((self.path / "outbox").read_bytes(), b"".join(map(record, due)), "a torn record stays, and hides what comes after")

    def test_outbox_with_a_byte_changed(self):
        self.reopened()
        whole = b"".join(map(record, ACTIONS))
        for place in range(len(whole)):
            (self.path / "outbox").write_bytes(whole[:place] + bytes([whole[place] ^ 1]) + whole[place + 1 :])
            actions = self.reopened()
            self.assertEqual(actions, ACTIONS[: len(actions)])

    def test_kept_and_forgotten(self):
        folder = self.opened()
        for lines in ACTIONS:
            folder.keep(lines)
        self.assertEqual(folder.outbox(), ACTIONS)
        folder.forget("17-0", b"the program\n", ACTIONS[2:])
        folder.keep(b"more\n")
        self.assertEqual(folder.taken(), ("17-0", b"the program\n"))
        self.assertEqual(folder.outbox(), [*ACTIONS[2:], b"more\n"])

    def test_one_process_at_a_time(self):
        self.opened()
        self.assertRaises(InUse, Folder, self.path)


if __name__ == "__main__":
    unittest.main()
