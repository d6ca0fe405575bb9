"""Random edits in a real browser: whatever comes, the page shows what the replica has.

    random_edits.py [TEXTS [SEED]]

The texts make conflicts, shared parts and cycles, and undo them again; the page takes each as a change, and now and then what it shows is
held against the replica's print text, and against what a page shows that loads the whole.
"""
import random
import sys

from windows import EDITOR, Window, served

sys.path.insert(0, str(EDITOR.parents[1] / "python" / "tests"))

from plain_grove.model import Model  # noqa: E402
from random_calls import RandomCalls  # noqa: E402

TEXTS_OF_A_PROGRAM = 400
BETWEEN_LOOKS = 10
BOXES = """
const boxes = [...window.grove.graph.vertices.values()].map(({ key, box }) => [key, box.inline, box.width, box.height]);
return JSON.stringify(boxes.sort());
"""


def good_text(calls: RandomCalls, model: Model) -> str:
    """A text that the model takes too."""
    while True:
        text = calls.text().decode("latin-1")
        try:
            model.apply(text)
        except Exception:  # noqa: BLE001, S112
            continue
        return text


def take(window: Window, text: str) -> None:
    window.driver.execute_async_script(
        "const [edits, done] = arguments;"
        "fetch('take', { method: 'POST', headers: { 'Content-Type': 'application/json' }, body: JSON.stringify({ author: 1, edits }) }).then(done)",
        text,
    )


def look(window: Window, number: int) -> None:
    due = window.printed()
    window.wait(f"what the replica has after text {number}", lambda: window.shown() == due)
    assert not window.faults(), window.faults()


def same_as_loaded(window: Window) -> None:
    """The boxes that changed edit by edit are those that are laid out at once."""
    changed = window.script(BOXES)
    window.reload()
    assert window.script(BOXES) == changed, "boxes differ from those of the page loaded anew"


def run(window: Window, rng, texts: int) -> None:
    model = Model()
    calls = RandomCalls(rng, model.graph)
    for number in range(1, texts + 1):
        take(window, good_text(calls, model))
        if number % BETWEEN_LOOKS == 0:
            look(window, number)
    same_as_loaded(window)
    look(window, texts)


if __name__ == "__main__":
    count = int(sys.argv[1]) if len(sys.argv) > 1 else 180
    seed = int(sys.argv[2]) if len(sys.argv) > 2 else 1
    for start in range(0, count, TEXTS_OF_A_PROGRAM):
        with served() as address:
            page = Window(address, 1)
            try:
                run(page, random.Random(seed + start), min(TEXTS_OF_A_PROGRAM, count - start))
            finally:
                page.close()
    print(f"random edits: {count} texts, the page shows what the replica has")
