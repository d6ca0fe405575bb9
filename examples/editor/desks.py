"""Authors at their desks: each has a replica, and all that are online share one list of edit texts."""
import json
import queue
import threading

from grove import BadLine, Record, Refused, Replica


class Window:
    """One open page of an author. Its messages wait in order until its connection takes them."""

    def __init__(self, author: int):
        self.author = author
        self.messages: queue.SimpleQueue[str] = queue.SimpleQueue()


class TypeNumbers:
    """Numbers for the texts of types, so that a text is sent once."""

    def __init__(self):
        self.numbers: dict[str, int] = {}

    def number(self, text: str) -> int:
        return self.numbers.setdefault(text, len(self.numbers))

    def rows(self, records: list[Record]) -> list[list]:
        """Records as [vertex, wanted, type, mark]: types by number, None where there is none or nothing is wanted."""
        return [self.row(record) for record in records]

    def row(self, record: Record) -> list:
        _, _, wanted = record.mode.partition("ana:")
        return [
            record.vertex,
            self.number(wanted) if wanted else None,
            None if record.type == "-" else self.number(record.type),
            None if record.mark == "-" else record.mark,
        ]

    def since(self, count: int) -> list[str]:
        """The texts that got their numbers from this one on."""
        return list(self.numbers)[count:]


class Desk:
    """An author's replica, the windows that show it, and the edits that the others do not have yet."""

    def __init__(self, author: int):
        self.author = author
        self.replica = Replica()
        self.types = TypeNumbers()
        self.windows: list[Window] = []
        self.is_online = True
        self.unsent: list[str] = []
        self.taken = 0

    def program(self) -> dict:
        """All that a page has to know: the edits, and how each vertex is judged."""
        records = [record for line in self.replica.show().splitlines() if (record := record_in(line))]
        rows = self.types.rows(records)
        return {"program": self.replica.canonical(), "records": rows, "types": self.types.since(0), **self.state()}

    def state(self) -> dict:
        return {"author": self.author, "online": self.is_online, "unsent": sum(map(count_edits, self.unsent))}

    def take(self, edits: str, told: dict) -> None:
        """Takes edits of others, and tells the windows."""
        self.replica.apply(edits)
        self.tell_change(edits, told)

    def tell_change(self, edits: str, told: dict) -> None:
        """Sends the windows what the last call of the replica changed: the edits, and the records that are others now."""
        known = len(self.types.numbers)
        rows = self.types.rows(self.replica.changed())
        self.tell({"edits": edits, "records": rows, "types": self.types.since(known), **told, **self.state()})

    def tell(self, message: dict) -> None:
        text = json.dumps(message, separators=(",", ":"))
        for window in self.windows:
            window.messages.put(text)


def record_in(line: str) -> Record | None:
    """The record in a line of the print text. Headings, holes, conflicts and references have none."""
    columns = line.split(" ")
    if len(columns) != 8 or columns[3] == "-" or columns[4].startswith(("multi:", "cycle:")):
        return None
    return Record(f"{columns[3]} {columns[4]}", *columns[5:])


class Meeting:
    """All desks, and the texts that were shared so far, each of which a desk takes once. One call at a time."""

    def __init__(self, program: str = ""):
        self.lock = threading.RLock()
        self.shared: list[tuple[int, str, str]] = [(0, program, "")] if program else []
        self.desks: dict[int, Desk] = {}

    def desk(self, author: int) -> Desk:
        """The desk of an author, who gets one with all that was shared on first use."""
        if author not in self.desks:
            desk = self.desks[author] = Desk(author)
            desk.replica.apply(joined(text for _, text, _ in self.shared))
            desk.taken = len(self.shared)
        return self.desks[author]

    def free_author(self) -> int:
        """The least number of an author who has no window."""
        with self.lock:
            seated = {desk.author for desk in self.desks.values() if desk.windows}
            return next(number for number in range(1, len(seated) + 2) if number not in seated)

    def open_window(self, author: int) -> Window:
        with self.lock:
            desk = self.desk(author)
            window = Window(author)
            window.messages.put(json.dumps(desk.program(), separators=(",", ":")))
            desk.windows.append(window)
            return window

    def close_window(self, window: Window) -> None:
        with self.lock:
            self.desk(window.author).windows.remove(window)

    def act(self, author: int, line: str) -> dict:
        return self.change(author, line, lambda desk: desk.replica.act(author, line))

    def undo(self, author: int) -> dict:
        return self.change(author, "undo", lambda desk: desk.replica.undo(author))

    def redo(self, author: int) -> dict:
        return self.change(author, "redo", lambda desk: desk.replica.redo(author))

    def change(self, author: int, words: str, work) -> dict:
        """Does the work at the author's desk and shares its edits; tells its answer, or why it was refused."""
        with self.lock:
            desk = self.desk(author)
            try:
                answer = work(desk)
            except Refused as refused:
                return {"refused": refused.answer}
            except BadLine as bad:
                return {"fault": bad.name, "line": bad.line}
            self.share(desk, answer.edits, words)
            desk.tell_change(answer.edits, {"by": author, "did": words, "answer": answer.text})
            self.exchange()
            return {"answer": answer.text}

    def take(self, author: int, edits: str) -> dict:
        """Joins an edit text of any author to this author's program, and shares it."""
        with self.lock:
            desk = self.desk(author)
            try:
                desk.replica.apply(edits)
            except BadLine as bad:
                return {"fault": bad.name, "line": bad.line}
            self.share(desk, edits, "edits from a file")
            desk.tell_change(edits, {"by": author, "did": "edits from a file", "answer": "taken"})
            self.exchange()
            return {"answer": "taken"}

    def share(self, desk: Desk, edits: str, words: str) -> None:
        desk.unsent.append(edits)
        if desk.is_online:
            self.shared.append((desk.author, edits, words))
            desk.unsent.clear()

    def set_online(self, author: int, is_online: bool) -> dict:
        """Takes a desk offline or online; who comes back sends what waited, and takes what the others did meanwhile."""
        with self.lock:
            desk = self.desk(author)
            desk.is_online = is_online
            if is_online:
                self.shared += [(author, edits, "while offline") for edits in desk.unsent]
                desk.unsent.clear()
            desk.tell(desk.state())
            self.exchange()
            return desk.state()

    def exchange(self) -> None:
        """Gives every desk that is online what was shared by others since it last took something, in one call."""
        for desk in self.desks.values():
            if not desk.is_online:
                continue
            news = [one for one in self.shared[desk.taken:] if one[0] != desk.author]
            desk.taken = len(self.shared)
            if news:
                desk.take(joined(text for _, text, _ in news), {"by": news[-1][0], "did": news[-1][2], "answer": ""})

    def print_text(self, author: int) -> str:
        with self.lock:
            return self.desk(author).replica.show()

    def canonical(self, author: int) -> str:
        with self.lock:
            return self.desk(author).replica.canonical()


def count_edits(text: str) -> int:
    return sum(not line.startswith("grove") for line in text.splitlines())


def joined(texts) -> str:
    """One edit text of several, behind the line that lets all of them have forms of version two."""
    return "grove 2\n" + "".join(text.removeprefix("grove 2\n") for text in texts)
