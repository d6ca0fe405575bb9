"""The story of README.md, clicked through in two windows of a real browser, and each action by mouse and keyboard.

    story.py GROVE [SCREENSHOT]

What the windows have in the end is held against what the program GROVE shows of the joined edits.
"""
import os
import pathlib
import subprocess
import sys
import tempfile
import unittest

from programs import modules
from windows import EDITOR, Keys, Window, served

EXAMPLES = EDITOR.parent


def shown_by_grove(edits: str) -> str:
    return subprocess.run([os.environ["GROVE"], "show"], input=edits.encode(), capture_output=True, check=True).stdout.decode()


class TwoWindows(unittest.TestCase):
    """Ann and Ben, each in a window, on a program that may have begun."""

    program = ""

    def setUp(self):
        self.address = self.enterContext(served(self.program))
        self.ann, self.ben = (self.window(author) for author in (1, 2))

    def window(self, author: int) -> Window:
        window = Window(self.address, author)
        self.addCleanup(window.close)
        return window

    def both_show_the_same(self):
        """Both pages, both replicas and the program agree on the joined edits."""
        joined = self.ann.canonical() + self.ben.canonical().removeprefix("grove 2\n")
        due = shown_by_grove(joined)
        for window in (self.ann, self.ben):
            self.assertEqual(window.printed(), due)
            window.wait("the page to show it", lambda window=window: window.shown() == due)
            self.assertEqual(window.faults(), [])
        return due


class Story(TwoWindows):
    def ann_writes(self):
        """`if true then 1 + 2`, by keyboard alone."""
        self.ann.click("p 0.0 root main")
        for words, node in (("if", "v 1.1 if"), ("true", "v 1.3 true"), ("plus", "v 1.5 plus"), ("1", "v 1.7 num:1"), ("2", "v 1.9 num:2")):
            self.ann.fill(words)
            self.ann.wait_for_focus(node)
            self.ann.press(Keys.ARROW_RIGHT)

    def ben_writes(self):
        """Deletes her condition, puts a number there, and takes an edit that lets the other branch have her sum too."""
        self.ben.click("v 1.3 true")
        self.ben.press(Keys.BACKSPACE)
        self.ben.wait_for_focus("p 1.1 if cond")
        self.ben.fill("0")
        self.ben.wait_for_focus("v 2.1 num:0")
        with tempfile.TemporaryDirectory() as folder:
            path = pathlib.Path(folder) / "share.edits"
            path.write_text("+2.4 1.1 if else 1.5 plus\n")
            self.ben.take_file(path)
            self.ben.wait_for_text("Shared parts (1)")

    def test_story(self):
        self.ann_writes()
        self.assertEqual(self.ann.canonical(), "grove 2\n" + (EXAMPLES / "ann.edits").read_text())
        self.ben.wait_for_text("if true then")
        self.ben_writes()
        self.ann.wait_for_text("Shared parts (1)")
        due = shown_by_grove((EXAMPLES / "ben.edits").read_text() + (EXAMPLES / "ann.edits").read_text())
        self.assertEqual(self.both_show_the_same(), due)

    def test_apart_and_together_again(self):
        """Who is offline goes on alone; both put something at one place, and then both see a conflict."""
        self.ann_writes()
        self.ben.wait_for_text("2")
        self.ann.button("online")
        self.ann.wait_for_text("Nothing waits")
        for window, words, node in ((self.ann, "false", "v 1.11 false"), (self.ben, "pair", "v 2.1 pair")):
            window.click("p 1.1 if else")
            window.fill(words)
            window.wait_for_focus(node)
        self.ann.wait_for_text("1 edits wait to be sent")
        self.assertNotEqual(self.ann.printed(), self.ben.printed())
        self.ann.button("online")
        for window in (self.ann, self.ben):
            window.wait_for_text("Both stand")
        self.both_show_the_same()


class Actions(TwoWindows):
    """Each action, undoing and redoing, by what a hand does."""

    program = (EXAMPLES / "ann.edits").read_text()

    def did(self, window: Window, line: str):
        window.wait_for_text(f"{window.author} {line} = ")

    def test_wrap_and_become(self):
        self.ann.double_click("v 1.7 num:1")
        self.ann.choose("pair", "wrap 1.5 left pair")
        self.did(self.ann, "wrap 1.5 left pair")
        self.ann.click("v 1.3 true")
        self.ann.press(Keys.ENTER)
        self.ann.choose("false", "become 1.1 cond false")
        self.did(self.ann, "become 1.1 cond false")
        self.both_show_the_same()

    def test_delete_and_restore(self):
        self.ann.click("v 1.5 plus")
        self.ann.button("remove")
        self.ann.wait_for_text("Loose parts (1)")
        self.ann.click("v 1.5 plus")
        self.ann.control("cut")
        self.ann.click("p 1.1 if else")
        self.ann.control("paste")
        self.did(self.ann, "restore 1.5 1.1 else")
        self.both_show_the_same()

    def test_relocate_by_keyboard_and_by_dragging(self):
        self.ann.click("v 1.5 plus")
        self.ann.control("cut")
        self.ann.click("p 1.1 if else")
        self.ann.control("paste")
        self.did(self.ann, "relocate 1.6 1.1 else")
        self.ben.wait("the hole", lambda: self.ben.elements("p 1.1 if then"))
        self.ben.drag("v 1.9 num:2", "p 1.1 if then")
        self.did(self.ben, "relocate 1.10 1.1 then")
        self.both_show_the_same()

    def test_conflict_and_cut(self):
        for window in (self.ann, self.ben):
            window.button("online")
            window.wait("offline", lambda window=window: not window.script("return window.grove.state.isOnline"))
            window.click("p 1.1 if else")
            window.fill("7")
        for window in (self.ann, self.ben):
            window.wait_for_text("1 edits wait to be sent")
            window.button("online")
        self.ann.wait_for_text("Both stand")
        self.ann.click("v 2.1 num:7")
        self.ann.press(Keys.BACKSPACE)
        self.did(self.ann, "cut 2.2")
        self.both_show_the_same()

    def test_undo_and_redo(self):
        before = self.ann.printed()
        self.ann.click("v 1.5 plus")
        self.ann.press(Keys.DELETE)
        self.did(self.ann, "delete 1.1 then")
        self.ann.control("undo")
        self.did(self.ann, "undo")
        self.assertEqual(without_edge_names(self.ann.printed()), without_edge_names(before))
        self.ann.button("redo")
        self.did(self.ann, "redo")
        self.both_show_the_same()

    def test_refusals_are_told(self):
        self.ann.script("window.grove.act('construct 1.1 cond num:1', { holder: { key: '1.1 if' }, position: 'cond' })")
        self.ann.wait_for_text("refused 5 occupied 1.4")
        self.ann.control("undo")
        self.ann.wait_for_text("There is nothing to undo.")


class Broken(TwoWindows):
    """What is broken in a program can be seen, gone to and explained."""

    program = (EXAMPLES / "conflict.edits").read_text() + (EXAMPLES / "two_moves.edits").read_text().replace("+1.", "+5.").replace(" 1.", " 5.")

    def test_references_jump_and_marks_explain(self):
        self.ann.wait_for_text("Both stand")
        self.ann.wait_for_text("Cycles (1)")
        reference = self.ann.driver.find_elements("css selector", "#side .reference")[-1]
        reference.click()
        self.ann.wait("the head of the cycle", lambda: self.ann.script("return window.grove.state.focus").startswith("v 5.3 fst"))
        self.ann.button("next-mark")
        self.ann.driver.find_elements("css selector", ".flag")[0].click()
        self.ann.wait("the explanation", lambda: "Nothing here binds this name" in self.ann.script("return document.getElementById('popover').innerText"))
        self.both_show_the_same()


class Picture(TwoWindows):
    """A program with all of that, as the documents show it."""

    program = modules(2)

    def test_types_and_marks_are_told(self):
        self.ann.button("next-mark")
        self.ann.wait_for_focus("v 3.57 num:0")
        self.ann.press(Keys.SPACE)
        told = self.ann.wait("the explanation", lambda: self.ann.script("return document.getElementById('popover').innerText"))
        for words in ("The type does not fit here", "expected", "bool", "found", "num"):
            self.assertIn(words, told)
        self.ann.hover("v 3.41 ap")
        self.ann.wait("the type", lambda: "type num" in self.ann.script("return document.getElementById('status').innerText"))
        if "SCREENSHOT" in os.environ:
            self.ann.driver.save_screenshot(os.environ["SCREENSHOT"])
        self.both_show_the_same()


def without_edge_names(text: str) -> list[list[str]]:
    return [line.split(" ")[:2] + line.split(" ")[3:] for line in text.splitlines()]


if __name__ == "__main__":
    os.environ["GROVE"] = str(pathlib.Path(sys.argv.pop(1)).resolve())
    if len(sys.argv) > 1 and sys.argv[1].endswith(".png"):
        os.environ["SCREENSHOT"] = sys.argv.pop(1)
    unittest.main()
