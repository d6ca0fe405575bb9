"""Edit texts of large programs."""


class Writer:
    """Writes edit lines of one author after the other."""

    def __init__(self):
        self.lines = ["grove 2\n"]
        self.counters = {}
        self.author = 1

    def text(self) -> str:
        return "".join(self.lines)

    def name(self) -> str:
        self.counters[self.author] = self.counters.get(self.author, 0) + 1
        return f"{self.author}.{self.counters[self.author]}"

    def join(self, parent: str, position: str, child: str) -> None:
        self.lines.append(f"+{self.name()} {parent} {position} {child}\n")

    def put(self, parent: str, position: str, constructor: str) -> str:
        """A new vertex at a place, which is answered as edit texts spell it."""
        vertex = f"{self.name()} {constructor}"
        self.join(parent, position, vertex)
        return vertex

    def fill(self, parent: str, position: str, term) -> str:
        """A term at a place: a constructor, or a pair of one and its children by position; None is a hole."""
        constructor, children = term if isinstance(term, tuple) else (term, {})
        vertex = self.put(parent, position, constructor)
        for place, child in children.items():
            if child is not None:
                self.fill(vertex, place, child)
        return vertex


def plus(left, right):
    return "plus", {"left": left, "right": right}


def ap(fun, arg):
    return "ap", {"fun": fun, "arg": arg}


def lam(name, kind, body):
    return "lam", {"param": f"pvar:{name}", "type": kind, "body": body}


def definitions(number: int) -> list:
    """The definitions of one module; in every third one something does not fit."""
    return [
        ("base", f"num:{number}"),
        ("twice", lam("n", "tnum", plus("var:n", "var:n"))),
        ("flip", lam("b", "tbool", ("if", {"cond": "var:b", "then": "false", "else": "true"}))),
        ("point", ("pair", {"first": ap("var:twice", "var:base"), "second": ap("var:flip", "true")})),
        ("either", lam("s", ("tsum", {"left": "tnum", "right": "tbool"}), (
            "case", {"on": "var:s", "lparam": "pvar:m", "lbody": ap("var:twice", "var:m"), "rparam": "pvar:c",
                     "rbody": ("if", {"cond": "var:c", "then": "num:1", "else": None})}))),
        ("total", plus(ap("var:either", ("inl", {"of": ("fst", {"of": "var:point"})})),
                       ap("var:either", ("inr", {"of": "true" if number % 3 else "num:0"})))),
    ]


def write_module(writer: Writer, parent: str, position: str, number: int) -> str:
    """A chain of definitions, and a sum at its end, which is answered."""
    for name, term in definitions(number):
        writer.author = 1 + (number + len(name)) % 3
        vertex = writer.put(parent, position, "let")
        writer.put(vertex, "param", f"pvar:{name}")
        writer.fill(vertex, "def", term)
        parent, position = vertex, "body"
    return writer.fill(parent, position, plus("var:total", "var:base" if number % 2 else "var:totl"))


def write_modules(writer: Writer, parent: str, position: str, numbers: list[int]) -> list[str]:
    """A balanced tree of pairs, with a module at each leaf; answers the sums at their ends."""
    if len(numbers) == 1:
        return [write_module(writer, parent, position, numbers[0])]
    pair = writer.put(parent, position, "pair")
    half = len(numbers) // 2
    return write_modules(writer, pair, "first", numbers[:half]) + write_modules(writer, pair, "second", numbers[half:])


def write_disagreement(writer: Writer, one: str, other: str) -> None:
    """What authors leave behind: two conflicts, a shared part, a loose tree and a cycle."""
    writer.author = 2
    writer.put(one, "left", "num:41")
    writer.author = 3
    shared = writer.put(one, "right", "num:5")
    writer.join(other, "right", shared)
    loose = f"{writer.name()} plus"
    writer.put(loose, "left", "num:8")
    first, second = f"{writer.name()} fst", f"{writer.name()} snd"
    writer.join(first, "of", second)
    writer.join(second, "of", first)


def modules(count: int) -> str:
    """A program of so many modules, of some 60 nodes each."""
    writer = Writer()
    ends = write_modules(writer, "0.0 root", "main", list(range(count)))
    for one, other in zip(ends[::8], ends[1::8]):
        write_disagreement(writer, one, other)
    return writer.text()


def chain(count: int) -> str:
    """So many definitions, each in the body of the one before."""
    writer = Writer()
    parent, position = "0.0 root", "main"
    for number in range(count):
        vertex = writer.put(parent, position, "let")
        writer.put(vertex, "param", f"pvar:x{number}")
        writer.put(vertex, "def", f"num:{number}")
        parent, position = vertex, "body"
    return writer.text()
