"""The marked grove of a graph, by the rules for types and marks of docs/FORMATS.md: its print text, and the record of each vertex."""
from grove.records import Record

from .forms import FORMS
from .texts import constructor_text, name_text, sort_of, vertex_text, word_of

# A type is "?", "num", "bool", or a tuple of "->", "*" or "+" and its two parts.
UNKNOWN = "?"
SYN = None


def type_text(kind, levels=8):
    if isinstance(kind, str):
        return kind
    if levels == 0:
        return ".."
    sign, left, right = kind
    return f"({type_text(left, levels - 1)}{sign}{type_text(right, levels - 1)})"


def consistent(one, two):
    if one == UNKNOWN or two == UNKNOWN or one == two:
        return True
    if isinstance(one, str) or isinstance(two, str):
        return False
    return one[0] == two[0] and consistent(one[1], two[1]) and consistent(one[2], two[2])


def meet(one, two):
    if one == UNKNOWN or one == two:
        return two
    if two == UNKNOWN:
        return one
    return one[0], meet(one[1], two[1]), meet(one[2], two[2])


def matched(sign, kind):
    """The two parts of a type that counts as one of the sign, or None."""
    if kind == UNKNOWN:
        return UNKNOWN, UNKNOWN
    return kind[1:] if kind[0] == sign else None


def mode_text(wanted):
    return "syn" if wanted is SYN else f"ana:{type_text(wanted)}"


class Marking:
    """Marks all trees at once. `wanted` is SYN or the type analysed against; a scope is a pair of a binding and the scope around it."""

    def __init__(self, graph):
        self.graph = graph
        self.kinds = graph.heads()
        self.lines = []
        self.records = {}
        for kind in ("none", "multi", "cycle"):
            heads = sorted(vertex for vertex, of in self.kinds.items() if of == kind)
            self.lines.append(f"{kind} {len(heads)}")
            for head in heads:
                self.node(head, 0, "- -", None, SYN)

    def text(self):
        return "".join(line + "\n" for line in self.lines)

    def place(self, vertex, position, scope, wanted, depth):
        """Judges what stands at a position; answers the type that it gives."""
        edges = self.graph.children_at(vertex, position)
        sort = FORMS[word_of(vertex)][1][position]
        if len(edges) == 1:
            return self.child(edges[0], position, scope, wanted, depth)
        what = f"conflict:{len(edges)}" if edges else "hole"
        self.plain(f"{depth} {position} - - {what}", sort, wanted)
        for edge in edges:
            self.child(edge, position, scope, SYN, depth + 1)
        return UNKNOWN

    def child(self, edge, position, scope, wanted, depth):
        target = edge[4]
        columns = f"{position} {name_text(edge)}"
        if target not in self.kinds:
            return self.node(target, depth, columns, scope, wanted)
        what = f"{self.kinds[target]}:{constructor_text(target)}"
        self.plain(f"{depth} {columns} {name_text(target)} {what}", sort_of(target), wanted)
        return UNKNOWN

    def plain(self, columns, sort, wanted):
        """The line of a hole, a conflict or a reference."""
        judged = {"pat": "pat - -", "typ": "typ ? -"}.get(sort) or f"{mode_text(wanted)} ? -"
        self.lines.append(f"{columns} {judged}")

    def node(self, vertex, depth, columns, scope, wanted):
        """A vertex and what stands under it; its line stands before theirs, and is known after them."""
        at = len(self.lines)
        self.lines.append("")
        mode, kind, mark = self.judge(vertex, scope, wanted, depth + 1)
        record = Record(vertex_text(vertex), mode, "-" if kind is None else type_text(kind), mark)
        self.records[vertex] = record
        self.lines[at] = f"{depth} {columns} {record.vertex} {record.mode} {record.type} {record.mark}"
        return UNKNOWN if kind is None else kind

    def judge(self, vertex, scope, wanted, depth):
        sort = sort_of(vertex)
        if sort == "exp":
            rule = Expression(self, vertex, scope, depth)
            kind, mark = rule.synthesise() if wanted is SYN else rule.analyse(wanted)
            return mode_text(wanted), kind, mark
        kinds = [self.place(vertex, position, None, SYN, depth) for position in self.graph.places(vertex)]
        if sort == "typ":
            return "typ", SIMPLE_TYPES.get(word_of(vertex)) or (TYPE_SIGNS[word_of(vertex)], *kinds), "-"
        return sort, None, "-"


SIMPLE_TYPES = {"tnum": "num", "tbool": "bool"}
TYPE_SIGNS = {"tarrow": "->", "tprod": "*", "tsum": "+"}


class Expression:
    """The rules of one expression. Each answers its type and its mark."""

    def __init__(self, marking, vertex, scope, depth):
        self.marking, self.vertex, self.scope, self.depth = marking, vertex, scope, depth
        self.word = word_of(vertex)

    def at(self, position, wanted=SYN, binding=None):
        scope = (binding, self.scope) if binding else self.scope
        return self.marking.place(self.vertex, position, scope, wanted, self.depth)

    def bound(self, position, kind):
        """What the pattern at a position binds, or None; a hole, a conflict and a reference bind nothing."""
        edges = self.marking.graph.children_at(self.vertex, position)
        self.at(position)
        if len(edges) != 1 or edges[0][4] in self.marking.kinds:
            return None
        return edges[0][4][3], kind

    def synthesise(self):
        return getattr(self, "syn_" + self.word)()

    def analyse(self, wanted):
        rule = getattr(self, "ana_" + self.word, None)
        if rule:
            return rule(wanted)
        kind, mark = self.synthesise()
        return kind, "inconsistent" if mark == "-" and not consistent(kind, wanted) else mark

    def syn_var(self):
        scope = self.scope
        while scope:
            (name, kind), scope = scope
            if name == self.vertex[3]:
                return kind, "-"
        return UNKNOWN, "free"

    def syn_num(self):
        return "num", "-"

    def syn_true(self):
        return "bool", "-"

    syn_false = syn_true

    def syn_plus(self):
        self.at("left", "num")
        self.at("right", "num")
        return "num", "-"

    def function(self, wanted):
        """The type of the parameter and that of the body, which is analysed against the wanted one."""
        binding = self.bound("param", UNKNOWN)
        kind = self.at("type")
        return kind, self.at("body", wanted, binding and (binding[0], kind))

    def syn_lam(self):
        return ("->", *self.function(SYN)), "-"

    def ana_lam(self, wanted):
        parts = matched("->", wanted)
        if not parts:
            self.function(UNKNOWN)
            return wanted, "lam-against"
        parameter, _ = self.function(parts[1])
        return wanted, "-" if consistent(parameter, parts[0]) else "ascription"

    def syn_ap(self):
        parts = matched("->", self.at("fun"))
        self.at("arg", parts[0] if parts else UNKNOWN)
        return (parts[1], "-") if parts else (UNKNOWN, "not-arrow")

    def branches(self, one, two):
        return (meet(one, two), "-") if consistent(one, two) else (UNKNOWN, "branches")

    def syn_if(self):
        self.at("cond", "bool")
        return self.branches(self.at("then"), self.at("else"))

    def ana_if(self, wanted):
        self.at("cond", "bool")
        self.at("then", wanted)
        self.at("else", wanted)
        return wanted, "-"

    def syn_pair(self):
        return ("*", self.at("first"), self.at("second")), "-"

    def ana_pair(self, wanted):
        parts = matched("*", wanted)
        first, second = parts or (UNKNOWN, UNKNOWN)
        self.at("first", first)
        self.at("second", second)
        return wanted, "-" if parts else "pair-against"

    def part(self, which):
        parts = matched("*", self.at("of"))
        return (parts[which], "-") if parts else (UNKNOWN, "not-product")

    def syn_fst(self):
        return self.part(0)

    def syn_snd(self):
        return self.part(1)

    def let(self, wanted):
        binding = self.bound("param", UNKNOWN)
        kind = self.at("def")
        return self.at("body", wanted, binding and (binding[0], kind))

    def syn_let(self):
        return self.let(SYN), "-"

    def ana_let(self, wanted):
        self.let(wanted)
        return wanted, "-"

    def syn_inl(self):
        return ("+", self.at("of"), UNKNOWN), "-"

    def syn_inr(self):
        return ("+", UNKNOWN, self.at("of")), "-"

    def injection(self, wanted, which):
        parts = matched("+", wanted)
        self.at("of", parts[which] if parts else UNKNOWN)
        return wanted, "-" if parts else "inj-against"

    def ana_inl(self, wanted):
        return self.injection(wanted, 0)

    def ana_inr(self, wanted):
        return self.injection(wanted, 1)

    def sides(self, wanted):
        """The types of both bodies, or None where no sum is looked at."""
        parts = matched("+", self.at("on"))
        left, right = parts or (UNKNOWN, UNKNOWN)
        one = self.at("lbody", wanted, self.bound("lparam", left))
        two = self.at("rbody", wanted, self.bound("rparam", right))
        return (one, two) if parts else None

    def syn_case(self):
        kinds = self.sides(SYN)
        return self.branches(*kinds) if kinds else (UNKNOWN, "not-sum")

    def ana_case(self, wanted):
        return wanted, "-" if self.sides(wanted) else "not-sum"
