"""The server without a browser: what windows are told, who may call, and calls that mean nothing."""
import http.client
import json
import pathlib
import sys
import threading
import unittest

EDITOR = pathlib.Path(__file__).resolve().parents[1]
sys.path[:0] = [str(EDITOR), str(EDITOR.parents[1] / "python")]

from desks import Meeting  # noqa: E402
from server import serve  # noqa: E402

PLUS = "+1.2 0.0 root main 1.1 plus\n"
LET = "grove 2\n+1.2 0.0 root main 1.1 let\n"


def messages(window) -> list[dict]:
    told = []
    while not window.messages.empty():
        told.append(json.loads(window.messages.get()))
    return told


class Meetings(unittest.TestCase):
    def test_a_window_is_told_the_program_and_then_changes(self):
        meeting = Meeting(PLUS)
        window = meeting.open_window(1)
        meeting.act(1, "construct 1.1 left true")
        whole, change = messages(window)
        self.assertEqual(whole["program"], "grove 2\n" + PLUS)
        self.assertEqual(whole["records"], [["0.0 root", None, None, None], ["1.1 plus", None, 0, None]])
        self.assertEqual(whole["types"], ["num"])
        self.assertEqual(change["edits"], "grove 2\n+1.4 1.1 plus left 1.3 true\n")
        self.assertEqual(change["records"], [["1.3 true", 0, 1, "inconsistent"]])
        self.assertEqual(change["types"], ["bool"], "a type is sent once")

    def test_others_are_told_who_did_what(self):
        meeting = Meeting(LET)
        window = meeting.open_window(2)
        meeting.act(1, "construct 1.1 def num:1")
        change = messages(window)[-1]
        self.assertEqual((change["by"], change["did"]), (1, "construct 1.1 def num:1"))
        self.assertEqual(meeting.print_text(1), meeting.print_text(2))

    def test_offline_and_online(self):
        meeting = Meeting(PLUS)
        for author in (1, 2, 3):
            meeting.open_window(author)
        meeting.set_online(1, False)
        meeting.act(1, "construct 1.1 left num:1")
        meeting.act(2, "construct 1.1 left num:2")
        self.assertEqual(meeting.print_text(2), meeting.print_text(3))
        self.assertNotIn("conflict", meeting.print_text(1) + meeting.print_text(2))
        self.assertEqual(meeting.desk(1).state()["unsent"], 1)
        meeting.set_online(1, True)
        self.assertIn("conflict:2", meeting.print_text(1))
        self.assertEqual(len({meeting.print_text(author) for author in (1, 2, 3)}), 1)

    def test_refusals_and_faults_change_nothing(self):
        meeting = Meeting(PLUS)
        window = meeting.open_window(1)
        messages(window)
        self.assertEqual(meeting.act(1, "construct 0.0 main num:1"), {"refused": "refused 5 occupied 1.2"})
        self.assertEqual(meeting.act(1, "construct"), {"fault": "syntax", "line": 1})
        self.assertEqual(meeting.take(1, PLUS + "+"), {"fault": "rest", "line": 2})
        self.assertEqual(meeting.undo(1), {"refused": "nothing"})
        self.assertEqual(messages(window), [])

    def test_authors_are_the_least_without_a_window(self):
        meeting = Meeting()
        one, two = meeting.open_window(1), meeting.open_window(2)
        self.assertEqual(meeting.free_author(), 3)
        meeting.close_window(one)
        self.assertEqual(meeting.free_author(), 1)
        meeting.close_window(two)


class Calls(unittest.TestCase):
    def setUp(self):
        self.server = serve(Meeting(PLUS), 0)
        threading.Thread(target=self.server.serve_forever, daemon=True).start()
        self.addCleanup(self.server.server_close)
        self.addCleanup(self.server.shutdown)

    def ask(self, method: str, path: str, body: str | None = None, **headers: str) -> http.client.HTTPResponse:
        line = http.client.HTTPConnection("localhost", self.server.server_port, timeout=10)
        self.addCleanup(line.close)
        line.request(method, path, body, {name.replace("_", "-"): value for name, value in headers.items()})
        return line.getresponse()

    def test_files_of_the_page_alone(self):
        for path, status in {"/?author=1": 200, "/editor.js": 200, "/server.py": 404, "/../server.py": 404, "/%2e%2e/run": 404, "/print": 404}.items():
            self.assertEqual(self.ask("GET", path).status, status, path)
        self.assertEqual(self.ask("GET", "/").getheader("Location"), "/?author=1")

    def test_an_act(self):
        body = json.dumps({"author": 1, "line": "construct 1.1 left num:1"})
        told = self.ask("POST", "/act", body, Content_Type="application/json")
        self.assertEqual(json.loads(told.read()), {"answer": "made 1.3"})
        self.assertIn(b"1.3 num:1", self.ask("GET", "/print?author=2").read())

    def test_calls_that_mean_nothing(self):
        for path, body, status in (
            ("/act", "{", 404), ("/act", "[]", 404), ("/act", '{"author": 0, "line": ""}', 404), ("/act", '{"author": 1}', 400),
            ("/other", '{"author": 1}', 404),
        ):
            self.assertEqual(self.ask("POST", path, body, Content_Type="application/json").status, status, body)

    def test_other_sites_may_not_call(self):
        body = json.dumps({"author": 1, "line": "delete 0.0 main"})
        self.assertEqual(self.ask("POST", "/act", body, Content_Type="text/plain").status, 403)
        self.assertEqual(self.ask("GET", "/print?author=1", Host="example.org").status, 403)


if __name__ == "__main__":
    unittest.main()
