"""Formulas as they are printed, read back by a parser of their own."""
import re
from .common import DRAWN, MAX, MIN, Parts, expect, refusal, shown, tried
from .telling import ends_of


class Reader:
    """Formulas as trees, by the usual rules: *, / and % before + and -, these before comparisons; both sides of `and` and `or` in brackets if they mix."""

    def __init__(self, text):
        self.words = re.findall(r"input\([^)]*\)|[A-Za-z]\w*|\d+|<=|!=|\S", text)
        self.at = 0

    def next(self):
        return self.words[self.at] if self.at < len(self.words) else ""

    def take(self, *wanted):
        word = self.next()
        if wanted and word not in wanted:
            raise SyntaxError("%s in %s" % (word, self.words))
        self.at += 1
        return word

    def arithmetic(self):
        if self.next() == "if":
            self.take()
            c = self.condition()
            self.take("then")
            a = self.sums()
            self.take("else")
            return (8, c, a, self.sums())
        return self.sums()

    def chain(self, part, kinds):
        tree = part()
        while self.next() in kinds:
            tree = (kinds[self.take()], tree, part())
        return tree

    def sums(self):
        return self.chain(lambda: self.chain(self.negation, {"*": 6, "/": 7, "%": 9}), {"+": 4, "-": 5})

    def negation(self):
        if self.next() == "-":
            self.take()
            return (0, -int(self.take())) if self.next().isdigit() else (3, self.atom())
        return self.atom()

    def atom(self):
        word = self.take()
        if word == "(":
            tree = self.arithmetic()
            self.take(")")
            return tree
        number = {"MIN": MIN, "MAX": MAX}
        if word in number or word.isdigit():
            return (0, number[word] if word in number else int(word))
        if word.startswith("input("):
            return (1, *ends_of(word[6:-1]))
        return (2, int(re.fullmatch(r"v(\d+)", word).group(1)))

    def condition(self):
        tree, kinds = self.side(), {"and": 20, "or": 21}
        first = self.next()
        while first in kinds and self.next() == first:
            self.take()
            tree = (kinds[first], tree, self.side())
        return tree

    def side(self):
        if self.next() == "not":
            self.take()
            self.take("(")
            tree = (22, self.condition())
            self.take(")")
            return tree
        start = self.at
        try:
            a = self.sums()
            kind = {"<": 16, "<=": 17, "=": 18, "!=": 19}[self.take("<", "<=", "=", "!=")]
            return (kind, a, self.sums())
        except (SyntaxError, AttributeError):  # a condition in brackets
            self.at = start
            self.take("(")
            tree = self.condition()
            self.take(")")
            return tree


def read_back(text, condition_wanted):
    reader = Reader(text)
    tree = reader.condition() if condition_wanted else reader.arithmetic()
    if reader.next():
        raise SyntaxError(text)
    return tree


def read_or_problem(text, condition_wanted):
    try:
        return read_back(text, condition_wanted)
    except (SyntaxError, AttributeError, KeyError, ValueError) as problem:
        return repr(problem)


# kinds over v0, v1 and v2, each from its children's numbers, and how it is written: a remainder is bound as products and quotients are
REMAINDERS = [
    ([[9, 1, 2, 0], [5, 0, 3, 0]], "v0 - v1 % v2"), ([[5, 0, 1, 0], [9, 3, 2, 0]], "(v0 - v1) % v2"), ([[9, 0, 1, 0], [7, 3, 2, 0]], "v0 % v1 / v2"),
    ([[7, 1, 2, 0], [9, 0, 3, 0]], "v0 % (v1 / v2)"), ([[9, 1, 2, 0], [6, 0, 3, 0]], "v0 * (v1 % v2)"), ([[6, 0, 1, 0], [9, 3, 2, 0]], "v0 * v1 % v2"),
    ([[9, 1, 2, 0], [9, 0, 3, 0]], "v0 % (v1 % v2)"), ([[3, 0, 0, 0], [9, 3, 1, 0], [4, 4, 2, 0]], "-v0 % v1 + v2"), ([[9, 0, 1, 0], [3, 3, 0, 0], [4, 4, 2, 0]], "-(v0 % v1) + v2"),
]


def formulas():
    for nodes, text in REMAINDERS:
        nodes = [[2, v, 0, 0] for v in range(3)] + nodes
        got = shown([1, 3, 0, 1, len(nodes), 1, 0, 0, 0, 1, 0, len(nodes) - 1, 0] + sum(nodes, []), [])
        expect("the formula %s" % text, got[-1], "  0      v0 := %s, on to 0" % text)
        tried("formulas")
    for t in {tuple(t): None for t, _, answer in DRAWN if (refusal(answer) or (7,))[0] > 6}:
        table = Parts(t)
        got = [line for line in shown(t, []) if re.match(r"  \d+ +\S", line)]
        expect("a line for each point of %s" % (t,), [int(line.split()[0]) for line in got], list(range(len(table.points))))
        for p, line in enumerate(got):
            for root in table.roots(p):
                found = re.fullmatch(r"  \d+ +(?:v\d+ := (.*), on to \d+|(.*)\? yes \d+, no \d+)", line)
                test = table.points[p][0] == 2
                expect("formula %s" % line.strip(), read_or_problem(found.group(2 if test else 1), test), table.tree(root))
                tried("formulas")
