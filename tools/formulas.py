"""Doubles and the formulas of docs/DEFINITIONS.md, for tools/definitions.py.

A formula is read by a small parser and worked on Python's floats, which are binary64, one rounding an operation. The arctangent
is written from document 01, "The train of files", item 1.
"""
import math
import re
import struct
from collections import Counter
from fractions import Fraction

INF, NAN = math.inf, math.nan


# ---- doubles

def bits(x):
    return 0x7FF8000000000000 if x != x else struct.unpack("<Q", struct.pack("<d", x))[0]


def double(word):
    return struct.unpack("<d", struct.pack("<Q", word))[0]


def divide(x, y):
    if y != 0:
        return x / y
    return NAN if x != x or x == 0 else math.copysign(INF, x) * math.copysign(1, y)


def remainder(x, y):
    return math.fmod(x, y) if math.isfinite(x) and y != 0 else NAN


def square_root(x):
    return math.sqrt(x) if not x < 0 else NAN


def larger(x, y):
    if x != x or y != y:
        return y if x != x else x
    return 0.0 if x == 0 and y == 0 else y if x < y else x


def largest(rows):
    """The error: the largest magnitude, 0 for no rows, infinity with a row that is not finite."""
    return INF if any(not math.isfinite(v) for v in rows) else max((abs(v) for v in rows), default=0.0)


# Document 01, "The train of files", item 1.
P, H, E = (double(w) for w in (0x400921FB54442D18, 0x3FF921FB54442D18, 0x3FE921FB54442D18))
SERIES = [float(Fraction((-1) ** k, 2 * k + 1)) for k in range(20)]
ROOT_TWO_LESS_ONE = float(Fraction(math.isqrt(2 << 520) - (1 << 260), 1 << 260))


def series(v):
    value = SERIES[-1]
    for c in SERIES[-2::-1]:
        value = c + v * v * value
    return v * value


def arctangent(y, x):
    if not (math.isfinite(y) and math.isfinite(x)):
        return NAN
    small, large = sorted((abs(y), abs(x)))
    u = small / large if large > 0 else 0.0
    w = E + series((u - 1) / (u + 1)) if u > ROOT_TWO_LESS_ONE else series(u)
    if abs(y) > abs(x):
        w = H - w
    if math.copysign(1, x) < 0:
        w = P - w
    return math.copysign(w, y)


# ---- formulas: a number is a float, a vector a tuple of three, a pose or an end a dict

TOKEN = re.compile(r"\s*(\d+(?:\.\d+)?(?:e-?\d+)?|[A-Za-zπθ_]\w*|<=|>=|!=|[-+*/%·×().,<>=])")


class Parser:
    """expr = term (+ - term)*, term = factor (* / % · × factor)*, factor = [-] name, number, call or (expr), with .fields."""

    def __init__(self, text):
        self.text, self.tokens, at = text, [], 0
        text = text.rstrip()
        while at < len(text):
            found = TOKEN.match(text, at)
            if not found:
                raise ValueError(f"cannot read {text[at:]!r} in the formula {text!r}")
            self.tokens.append(found.group(1))
            at = found.end()
        self.at = 0

    def peek(self):
        return self.tokens[self.at] if self.at < len(self.tokens) else None

    def take(self, *wanted):
        token = self.peek()
        if token is None or (wanted and token not in wanted):
            raise ValueError(f"{' or '.join(wanted) or 'more'} is missing at {token!r} in the formula {self.text!r}")
        self.at += 1
        return token

    def chain(self, rule, operators):
        tree = rule()
        while self.peek() in operators:
            tree = (self.take(), tree, rule())
        return tree

    def condition(self):
        return self.chain(self.comparison, ("and",))

    def comparison(self):
        left = self.expr()
        return (self.take("<", ">", "<=", ">=", "=", "!="), left, self.expr())

    def expr(self):
        return self.chain(self.term, ("+", "-"))

    def term(self):
        return self.chain(self.factor, ("*", "/", "%", "·", "×"))

    def factor(self):
        if self.peek() == "-":
            self.take()
            return ("negate", self.factor())
        token = self.take()
        if token == "(":
            tree = self.expr()
            self.take(")")
        elif token[0].isdigit():
            tree = ("number", float(token))
        elif not (token[0].isalpha() or token[0] == "_"):
            raise ValueError(f"{token!r} is out of place in the formula {self.text!r}")
        elif self.peek() == "(":
            self.take()
            arguments = [self.expr()]
            while self.peek() == ",":
                self.take()
                arguments.append(self.expr())
            self.take(")")
            tree = ("call", token, arguments)
        else:
            tree = ("name", token)
        while self.peek() == ".":
            self.take()
            tree = ("field", tree, self.take())
        return tree


def parsed(text, rule=Parser.expr):
    parser = Parser(text)
    tree = rule(parser)
    if parser.peek() is not None:
        raise ValueError(f"{parser.peek()!r} is left over in the formula {text!r}")
    return tree


def names_in(tree):
    if isinstance(tree, tuple):
        if tree[0] == "name":
            yield tree[1]
        for part in tree[1:]:
            yield from names_in(part)
    elif isinstance(tree, list):
        for part in tree:
            yield from names_in(part)


COMPARISONS = {"<": lambda x, y: x < y, ">": lambda x, y: x > y, "<=": lambda x, y: x <= y, ">=": lambda x, y: x >= y,
               "=": lambda x, y: x == y, "!=": lambda x, y: x != y}
BUILT_IN = {"abs": abs, "max": larger, "sqrt": square_root, "arctangent": arctangent, "vector": lambda x, y, z: (x, y, z)}


def each(f, u, v):
    return tuple(f(x, y) for x, y in zip(u, v))


class Line:
    """One line of the page that gives a value: its formula, and under what condition."""

    def __init__(self, what, when, formula):
        self.what = f"{what}, {when}" if when else what
        self.when = None if when in ("", "otherwise") else parsed(when, Parser.condition)
        self.formula = parsed(formula)


class Page:
    """What formulas may name: the page's constants, names and functions; and how often each line of them was worked."""

    def __init__(self):
        self.names, self.functions, self.constants, self.met = {}, {}, {"π": P}, Counter()

    def add_name(self, name, when, formula):
        self.names.setdefault(name, []).append(Line(f"`{name}`", when, formula))

    def add_function(self, head, when, formula):
        found = re.fullmatch(r"(\w+)\((\w+(?:, \w+)*)\)", head)
        if not found:
            raise ValueError(f"{head!r} is no head of a function")
        parameters = found.group(2).split(", ")
        known = self.functions.setdefault(found.group(1), (parameters, []))
        if known[0] != parameters:
            raise ValueError(f"the lines of {found.group(1)} differ in their arguments")
        known[1].append(Line(f"`{head}`", when, formula))

    def lines(self):
        for group in list(self.names.values()) + [lines for _, lines in self.functions.values()]:
            yield from group

    def choose(self, lines, scope):
        for line in lines:
            if line.when is None or self.value(line.when, scope):
                self.met[line] += 1
                return self.value(line.formula, scope)
        raise ValueError(f"no line of {lines[0].what} holds")

    def call(self, name, arguments, scope):
        if name in BUILT_IN:
            return BUILT_IN[name](*arguments)
        parameters, lines = self.functions[name]
        if len(parameters) != len(arguments):
            raise ValueError(f"{name} takes {len(parameters)} arguments")
        return self.choose(lines, {**scope, **dict(zip(parameters, arguments))})

    def name(self, name, scope):
        if name in scope:
            return scope[name]
        if name in self.constants:
            return self.constants[name]
        if name not in self.names:
            raise ValueError(f"the page does not say what {name} is")
        return self.choose(self.names[name], scope)

    def value(self, tree, scope):
        kind = tree[0]
        if kind == "number":
            return tree[1]
        if kind == "name":
            return self.name(tree[1], scope)
        if kind == "call":
            return self.call(tree[1], [self.value(t, scope) for t in tree[2]], scope)
        if kind == "field":
            of = self.value(tree[1], scope)
            return of["xyz".index(tree[2])] if isinstance(of, tuple) else of[tree[2]]
        if kind == "negate":
            x = self.value(tree[1], scope)
            return tuple(-v for v in x) if isinstance(x, tuple) else -x
        if kind == "and":
            return self.value(tree[1], scope) and self.value(tree[2], scope)
        x, y = self.value(tree[1], scope), self.value(tree[2], scope)
        vectors = isinstance(x, tuple), isinstance(y, tuple)
        if kind in COMPARISONS and vectors == (False, False):
            return COMPARISONS[kind](x, y)
        if kind in "·×" and vectors == (True, True):
            return self.call("dot" if kind == "·" else "cross", [x, y], scope)
        if kind in "+-" and vectors[0] == vectors[1]:
            f = (lambda p, q: p + q) if kind == "+" else (lambda p, q: p - q)
            return each(f, x, y) if vectors[0] else f(x, y)
        if kind == "*" and not vectors[1]:
            return tuple(v * y for v in x) if vectors[0] else x * y
        if kind in "/%" and vectors == (False, False):
            return divide(x, y) if kind == "/" else remainder(x, y)
        raise ValueError(f"{kind} does not go with these vectors and numbers")
