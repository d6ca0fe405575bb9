#!/usr/bin/env python3
"""Whether a report is one of the legal reports of its session, which may differ in the order of the entries in a journal.

Each journal has each author's lines and each send's pieces once and in order, and a cut of edges that the block opened with stands right
before its author's next line. Each answer, and the edits behind it, are those of the action on the graph at its place in the journal. A
section is what `grove show` writes of all edits that its replica took. All is worked out from docs/FORMATS.md alone, for sessions in which
authors construct, wrap, delete and cut, with the constructors below, and no name is of two vertices.

.ci/legal_reports.py PROGRAM SESSION < REPORT
"""
import bisect
import pathlib
import subprocess
import sys

# The positions of constructors. All children are expressions, and a constructor that does not stand here has none.
POSITIONS = {"root": ["main"], "plus": ["left", "right"], "ap": ["fun", "arg"], "if": ["cond", "then", "else"]}


class Illegal(Exception):
    """What is wrong in a report."""


def expect(holds, what):
    if not holds:
        raise Illegal(what)


def expect_line(lines, wanted):
    found = next(lines, None)
    expect(found == wanted, f"a line is {found!r}, and not {wanted!r}")


def name_text(name):
    return "%d.%d" % name


def read_name(text):
    author, counter = text.split(".")
    return int(author), int(counter)


def read_edit(line):
    """An edit is its sign and its edge, which is a name, a source, a position and a target. A vertex is a name and a constructor."""
    words = line[1:].split(" ")
    return line[0], (read_name(words[0]), (read_name(words[1]), words[2]), words[3], (read_name(words[4]), words[5]))


def edit_line(edit):
    sign, (name, source, position, target) = edit
    return "%s%s %s %s %s %s %s\n" % (sign, name_text(name), name_text(source[0]), source[1], position, name_text(target[0]), target[1])


class Graph:
    """The edges that are not absent with their states, by name, and those that are live by source and position."""

    def __init__(self):
        self.states = {}
        self.by_name = {}
        self.children = {}
        self.vertices = {(0, 0): {"root"}}
        self.greatest = {}

    def take(self, sign, edge):
        """Joins an edit to the graph."""
        name, source, position, target = edge
        if edge not in self.states:
            bisect.insort(self.by_name.setdefault(name, []), edge)
            for vertex in (source, target):
                self.vertices.setdefault(vertex[0], set()).add(vertex[1])
            for author, counter in (name, source[0], target[0]):
                self.greatest[author] = max(self.greatest.get(author, 0), counter)
        old = self.states.get(edge)
        if old in ("-", sign):
            return
        self.states[edge] = sign
        if sign == "+":
            bisect.insort(self.children.setdefault((source, position), []), edge)
        elif old == "+":
            self.children[source, position].remove(edge)

    def edits(self):
        """Its canonical list. Constructors would break ties by their own order, and there are none."""
        return [(self.states[edge], edge) for edge in sorted(self.states)]

    def text(self):
        return "".join(map(edit_line, self.edits()))

    def plan(self, opening, author, words):
        """The edits of an action, and what it answers, in a block that opened with these edges by name."""
        if words[0] == "cut":
            name = read_name(words[1])
            named = opening.get(name, []) or self.by_name.get(name, [])
            return [("-", edge) for edge in named], "done" if named else "refused 8 no-edge " + words[1]
        at, position = read_name(words[1]), words[2]
        ctors = self.vertices.get(at, set())
        if not ctors:
            return [], "refused 1 no-vertex " + words[1]
        expect(len(ctors) == 1, "a name is of two vertices")
        place = (at, next(iter(ctors)))
        if position not in POSITIONS.get(place[1], []):
            return [], "refused 3 no-position %s %s" % (words[1], place[1])
        return self.plan_at(place, position, author, words)

    def plan_at(self, place, position, author, words):
        there = list(self.children.get((place, position), []))
        if words[0] == "construct" and there:
            return [], "refused 5 occupied " + name_text(there[0][0])
        if words[0] != "construct" and not there:
            return [], "refused 6 empty %s %s" % (name_text(place[0]), position)
        away = [("-", edge) for edge in there]
        if words[0] == "delete":
            return away, "done"
        spent = self.greatest.get(author, 0)
        made = ((author, spent + 1), words[3])
        edits = [*away, ("+", ((author, spent + 2), place, position, made))]
        if words[0] == "wrap":
            if words[3] not in POSITIONS:
                return [], "refused 7 cannot-wrap " + words[3]
            first = POSITIONS[words[3]][0]
            edits += [("+", ((author, spent + 3 + index), made, first, edge[3])) for index, edge in enumerate(there)]
        return edits, "made " + name_text(made[0])


class Session:
    """A session without faults: its replicas, the replica of each author, and its items."""

    def __init__(self, text):
        self.replicas, self.authors, self.items = [], {}, []
        lines = iter(text.splitlines()[1:])
        for line in lines:
            words = line.split(" ", 2)
            if words[0] == "replica":
                self.replicas.append(words[1])
            elif words[0] == "author":
                self.authors[int(words[1])] = self.replicas.index(words[2])
            elif words[0] == "block":
                self.items.append(("block", list(iter(lambda: next(lines), "end"))))
            else:
                self.items.append(tuple(words))


def pieces(edits, words):
    """The edits of each piece that a send cuts. Its words are those behind both replicas."""
    edits = edits[int(words[1]):][:int(words[3])]
    edits = edits[::-1] if words[4] == "reverse" else edits
    edits = edits + edits if words[5] == "twice" else edits
    cut, ends, total, found, at = int(words[7]), [], 0, [], 0
    for edit in edits:
        total += len(edit_line(edit))
        ends.append(total)
    for end in range(cut, total + cut, cut):
        behind = bisect.bisect_right(ends, end)
        found.append(edits[at:behind])
        at = behind
    return found


class Replay:
    """Follows a report. Behind it stand the graphs of the replicas, and the order of the actors in each journal."""

    def __init__(self, session, report, show):
        self.session, self.lines, self.show = session, iter(report), show
        self.graphs = [Graph() for _ in session.replicas]
        self.orders = []
        self.blocks = self.sends = self.shows = 0
        for item in session.items:
            if item[0] == "load":
                self.graphs[session.replicas.index(item[1])].take(*read_edit(item[2]))
            elif item[0] == "block":
                self.follow_block(item[1])
            else:
                self.follow_show()
        expect_line(self.lines, None)

    def follow_show(self):
        self.shows += 1
        expect_line(self.lines, f"show {self.shows}")
        for replica, graph in zip(self.session.replicas, self.graphs):
            expect_line(self.lines, f"replica {replica}")
            for line in self.show(graph.text()):
                expect_line(self.lines, line)

    def follow_block(self, block):
        self.blocks += 1
        expect_line(self.lines, f"block {self.blocks}")
        calls = self.calls_by_replica(block)
        for replica, own in enumerate(calls):
            count = sum(map(len, own.values()))
            expect_line(self.lines, f"journal {self.session.replicas[replica]} {count}")
            self.orders.append(self.follow_journal(self.graphs[replica], own, count))

    def calls_by_replica(self, block):
        """What each actor calls at each replica: an author its lines, a send its pieces."""
        calls = [{} for _ in self.graphs]
        sources = [graph.edits() for graph in self.graphs]
        for line in block:
            words = line.split(" ")
            if words[0] == "send":
                self.sends += 1
                start, end = map(self.session.replicas.index, words[1:3])
                calls[end][f"send {self.sends}"] = pieces(sources[start], words[3:])
            else:
                author = int(words[0])
                calls[self.session.authors[author]].setdefault(f"author {author}", []).append(line)
        return calls

    def follow_journal(self, graph, calls, count):
        opening = {name: list(edges) for name, edges in graph.by_name.items()}
        done, order, cutting = dict.fromkeys(calls, 0), [], None
        for _ in range(count):
            entry = next(self.lines, "")
            words = entry.split(" ")
            actor = f"send {words[1]}" if words[0] == "send" else f"author {words[0]}"
            expect(done.get(actor, count) < len(calls.get(actor, [])), f"{entry!r} is no call that is left")
            expect(cutting in (None, actor), f"{entry!r} stands between a cut and its author's next line")
            call = calls[actor][done[actor]]
            done[actor] += 1
            order.append(actor)
            if words[0] == "send":
                expect(entry == f"{actor} piece {done[actor]} edits {len(call)}", f"{entry!r} is not the next piece")
                edits = call
            else:
                expect(entry.startswith(f"{call} = "), f"{entry!r} is not {call!r}")
                asked = call.split(" ")[1:]
                edits, due = graph.plan(opening, int(words[0]), asked)
                expect(entry == f"{call} = {due}", f"{entry!r}, where {due} is due")
                is_waiting = asked[0] == "cut" and read_name(asked[1]) in opening and done[actor] < len(calls[actor])
                cutting = actor if is_waiting else None
            for edit in edits:
                graph.take(*edit)
        return order


def shown_by(program):
    """What `grove show` writes of a text, in lines. The last answer is kept."""
    last = {}

    def show(text):
        if text not in last:
            last.clear()
            last[text] = subprocess.run([program, "show"], input=text.encode(), stdout=subprocess.PIPE, check=True, timeout=60).stdout
        return last[text].decode().splitlines()

    return show


def why_illegal(program, session, report):
    """What is wrong in a report, or nothing."""
    try:
        expect(report.endswith("\n"), "no line end stands at the end")
        Replay(Session(session), report.splitlines(), shown_by(program))
    except Illegal as fault:
        return str(fault)
    return ""


def main():
    why = why_illegal(sys.argv[1], pathlib.Path(sys.argv[2]).read_text(), sys.stdin.read())
    if why:
        print(f"legal_reports: {why}", file=sys.stderr)
    return 1 if why else 0


if __name__ == "__main__":
    sys.exit(main())
