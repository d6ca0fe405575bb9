"""Windows of a real browser on the editor, for tests."""
import atexit
import contextlib
import pathlib
import sys
import threading
import time
import urllib.request

from selenium import webdriver
from selenium.webdriver.chrome.options import Options
from selenium.webdriver.chrome.service import Service
from selenium.webdriver.common.action_chains import ActionChains
from selenium.webdriver.common.by import By
from selenium.webdriver.common.keys import Keys

EDITOR = pathlib.Path(__file__).resolve().parents[1]
sys.path[:0] = [str(EDITOR), str(EDITOR.parents[1] / "python")]

from desks import Meeting  # noqa: E402
from server import serve  # noqa: E402

PRINT_TEXT = (EDITOR / "tests" / "print_text.js").read_text()
PATIENCE = 20
CONTROL_KEYS = {"cut": "x", "paste": "v", "undo": "z", "redo": "y"}


def make_driver():
    options = Options()
    for word in ("--headless=new", "--no-sandbox", "--disable-gpu", "--disable-dev-shm-usage", "--window-size=1400,900"):
        options.add_argument(word)
    options.set_capability("goog:loggingPrefs", {"browser": "ALL"})
    return webdriver.Chrome(service=Service("/usr/bin/chromedriver"), options=options)


# Browsers that no window has now. Starting one takes longer than most tests.
FREE_DRIVERS = []
atexit.register(lambda: [driver.quit() for driver in FREE_DRIVERS])


class Window:
    """One author's page."""

    def __init__(self, address: str, author: int):
        self.address, self.author = address, author
        self.driver = FREE_DRIVERS.pop() if FREE_DRIVERS else make_driver()
        self.driver.set_script_timeout(PATIENCE)
        self.driver.get(f"{address}?author={author}&measure&theme=light")
        self.wait_for_program()

    def close(self):
        """Leaves the page, and the browser to the next window."""
        self.driver.get("about:blank")
        self.driver.get_log("browser")
        FREE_DRIVERS.append(self.driver)

    def reload(self):
        self.driver.refresh()
        self.wait_for_program()

    def wait_for_program(self):
        self.wait("the program", lambda: self.script("return Boolean(window.grove?.graph)"))

    def script(self, text: str, *arguments):
        return self.driver.execute_script(text, *arguments)

    def wait(self, what: str, found):
        """What `found` answers once that is true."""
        until = time.monotonic() + PATIENCE
        while time.monotonic() < until:
            result = found()
            if result:
                return result
            time.sleep(0.02)
        raise AssertionError(f"author {self.author} waits in vain for {what}")

    def elements(self, node: str) -> list:
        """The elements of a node; what can be clicked comes last, behind the frames around it."""
        return self.driver.find_elements(By.CSS_SELECTOR, f'[data-id="{node}"]')

    def element(self, node: str):
        return self.wait(f"the node {node}", lambda: self.elements(node))[-1]

    def wait_for_focus(self, node: str):
        self.wait(f"the focus at {node}", lambda: self.script("return window.grove.state.focus") == node)

    def wait_for_text(self, words: str):
        self.wait(f"the words {words}", lambda: words in self.text())

    def text(self) -> str:
        return self.script("return document.querySelector('main').innerText")

    # ---- by mouse and keyboard

    def click(self, node: str):
        self.element(node).click()

    def double_click(self, node: str):
        ActionChains(self.driver).double_click(self.element(node)).perform()

    def press(self, *keys: str):
        """Keys go to whatever has the focus of the page."""
        self.driver.switch_to.active_element.send_keys(*keys)

    def control(self, what: str):
        ActionChains(self.driver).key_down(Keys.CONTROL).send_keys(CONTROL_KEYS[what]).key_up(Keys.CONTROL).perform()

    def button(self, name: str):
        self.driver.find_element(By.ID, name).click()

    def fill(self, words: str):
        """Types what is to stand at the hole that has the focus, and takes the first choice."""
        self.press(words[0])
        self.wait("the palette", lambda: self.driver.find_element(By.ID, "query").is_displayed())
        self.press(words[1:], Keys.ENTER)

    def choose(self, query: str, line: str):
        """Types into the palette that is open, and clicks the choice with this action line."""
        self.wait("the palette", lambda: self.driver.find_element(By.ID, "query").is_displayed())
        self.press(query)
        self.wait(f"the choice {line}", lambda: self.driver.find_elements(By.CSS_SELECTOR, f'#choices [data-line="{line}"]'))[0].click()

    def hover(self, node: str):
        ActionChains(self.driver).move_to_element(self.element(node)).perform()

    def drag(self, node: str, hole: str):
        ActionChains(self.driver).drag_and_drop(self.element(node), self.element(hole)).perform()

    def take_file(self, path: pathlib.Path):
        self.driver.find_element(By.ID, "file").send_keys(str(path))

    # ---- what is there

    def shown(self) -> str:
        """The print text of what the page has."""
        return self.driver.execute_async_script(PRINT_TEXT)

    def printed(self) -> str:
        """The print text of the author's replica."""
        return self.fetch("print")

    def canonical(self) -> str:
        return self.fetch("canonical")

    def fetch(self, what: str) -> str:
        with urllib.request.urlopen(f"{self.address}{what}?author={self.author}") as answer:
            return answer.read().decode()

    def times(self) -> list[dict]:
        return self.script("return window.grove.state.times")

    def faults(self) -> list[str]:
        return [entry["message"] for entry in self.driver.get_log("browser") if entry["level"] == "SEVERE"]


@contextlib.contextmanager
def served(program: str = ""):
    """A server of a new meeting, at the address that is given."""
    server = serve(Meeting(program), 0)
    threading.Thread(target=server.serve_forever, daemon=True).start()
    try:
        yield f"http://localhost:{server.server_port}/"
    finally:
        server.shutdown()
        server.server_close()
