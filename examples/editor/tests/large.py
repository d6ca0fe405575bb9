"""Large programs in a real browser: how long the page takes to draw an edit, and that it shows what the replica has.

    large.py [EDITS]

Times are from when the page has a message until its layout stands. Each program gets so many edits at random places, some in view and some
far from it. What is drawn is held against the replica's print text; times are printed, since they say as much of the machine as of the page.
"""
import random
import sys

from programs import chain, modules
from windows import Window, served

PROGRAMS = {"a tree of 10,000 nodes": modules(165), "a chain of 10,000 let": chain(10_000)}
ROWS_IN_VIEW = 40
WHAT_IS_DRAWN = "return document.querySelectorAll('#program .row').length"
SCROLL = "const box = document.getElementById('program'); box.scrollTop = arguments[0] * box.scrollHeight"


def random_action(rng, edges: list[str]) -> str:
    _, source, _, position, *_ = rng.choice(edges).split(" ")
    place = f"{source} {position}"
    return rng.choice((f"delete {place}", f"become {place} plus", f"wrap {place} pair", f"construct {place} num:7"))


def act(window: Window, line: str) -> bool:
    """Does an action by the page's own call; answers whether it was not refused."""
    return window.driver.execute_async_script(
        "const [line, done] = arguments;"
        "fetch('act', { method: 'POST', headers: { 'Content-Type': 'application/json' },"
        " body: JSON.stringify({ author: 1, line }) }).then((told) => told.json()).then((told) => done('answer' in told))",
        line,
    )


def edit(window: Window, count: int, rng) -> None:
    edges = [line for line in window.canonical().splitlines() if line.startswith("+")]
    done = 0
    while done < count:
        if rng.random() < 0.5:
            window.script(SCROLL, rng.random())
        drawn = len(window.times())
        if act(window, random_action(rng, edges)):
            done += 1
            window.wait("the edit", lambda: len(window.times()) > drawn)


def scroll_through(window: Window) -> None:
    """Goes to the end and back; the rows in view are drawn each time, and few others."""
    for part in (0.25, 0.5, 0.75, 1, 0):
        window.script(SCROLL, part)
        window.wait("the rows in view", lambda: window.script(WHAT_IS_DRAWN) >= ROWS_IN_VIEW / 2)
        assert window.script(WHAT_IS_DRAWN) < 4 * ROWS_IN_VIEW, "rows far from the view are drawn"


def tell_times(name: str, times: list[dict]) -> None:
    whole, *edits = (time["milliseconds"] for time in times)
    edits.sort()
    nine_of_ten = edits[len(edits) * 9 // 10 - 1]
    print(f"{name}: the whole {whole:.0f} ms; {len(edits)} edits: middle {edits[len(edits) // 2]:.1f} ms, "
          f"nine of ten within {nine_of_ten:.1f} ms, worst {edits[-1]:.1f} ms", flush=True)


def measure(name: str, program: str, count: int) -> None:
    with served(program) as address:
        window = Window(address, 1)
        try:
            scroll_through(window)
            edit(window, count, random.Random(1))
            tell_times(name, window.times())
            assert window.shown() == window.printed(), f"{name}: the page shows something else than the replica has"
            assert not window.faults(), window.faults()
        finally:
            window.close()


if __name__ == "__main__":
    for title, text in PROGRAMS.items():
        measure(title, text, int(sys.argv[1]) if len(sys.argv) > 1 else 100)
