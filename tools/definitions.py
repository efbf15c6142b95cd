#!/usr/bin/env python3
"""Holds docs/DEFINITIONS.md against frozen answers and against the definitions that it names.

    python3 tools/definitions.py [PAGE]      PAGE is docs/DEFINITIONS.md unless another is given

The page's own tables are worked: formulas by tools/formulas.py, and relations, bodies and headers by the page's offsets.
Nothing of the solver's code or of the Rust is used. The frozen answers are those of the Rust, and for gears and for saving, which
it does not have, those of a second program of ours; for calls that choose parameters, those of the Rust built with what is chosen, for
calls that choose nothing those of the Rust built for the page's rounds without a choice, and for calls that solve by rounds those of a
second program of ours over its rounds. The comparisons:

  rows        crates/row_list/data/rows.bin, the Rust's, and gear_rows.bin, our second program's: every row and every error, bit
              for bit; the unit of every row, by doubling all lengths
  functions   wrap.bin and tangent_gap.bin beside it, crates/vector_list/data/from_normal.bin
  readings    crates/sheet_list/data/relation_calls.bin: `joint_reading`, and whether a relation is judged to have rows
  faults      sheets_fields.bin, sheets_refused.bin, sheets_limits.bin and sheets_geared.bin there: which number every sheet is
              refused with
  solved      sheets_solved.bin, the Rust's, and sheets_geared.bin, our second program's, both of calls that choose 200 rounds: where
              still bodies stand, every error at the poses, what converged says, what is filled in
  parameters  sheets_parameters.bin there: which number every call gives that chooses parameters; of every accepted one the same as of
              the solved ones, by its own tolerance; that over the row limit nothing moves but by the slight turn, and that a body
              dragged by the weight 1 is as one that is not dragged
  unchosen    sheets_bare.bin there: which number every call gives that chooses nothing; of every accepted one the same as of the solved
              ones, by the tolerance without a choice; of sheets of one straight row, which can be worked by the page's numbers, the
              error after as many rounds as a call without a choice makes, and whether it converges
  portions    crates/portion_list/data/sheets_portions.bin: which number every call gives that solves by rounds, and that a refused one
              leaves all as it was; of every accepted one the same as of the solved ones, by its own tolerance, that the unknowns of
              the state lead to the poses, and, where the state is the caller's own, that its rows are those at the poses; how many
              rounds are done, which run it is and what of the state is carried over, wherever the page says it without the rounds
              themselves; that by one set and drag the same rounds in other portions leave the same, and end in one state; of these
              three lists, that calls of 2 rows or more are accepted with just the page's scratch, and refused with one double less
  written     crates/write_list/data/scenes_written.bin, our second program's: which number every scene gives that is lent for
              saving, and every byte of the sheet of each that is accepted; reading the sheet as laid out gives the number that the
              tests of its records give
  numbers     each number of the table "Numbers", and of the text on solving and freedom, stands in a definition named beside it,
              and each of the table "Parameters", and of a portion, where these definitions speak of it
  names       each definition that the page names stands in the file that it names
  sketches    each sketch that the page shows is there, as tools/sketches.py draws it, and there is no other

It prints what it compared and ends with 1 if anything differs, if a line of the page's tables was met by nothing, or if a
comparison compared nothing. oracle/FORMATS.md says how the lists are laid out.
"""
import math
import pathlib
import re
import struct
import sys
from collections import Counter

sys.dont_write_bytecode = True
import sketches
from formulas import NAN, Line, Page, bits, double, largest, names_in, parsed

ROOT = pathlib.Path(__file__).resolve().parent.parent
ROWS = ROOT / "crates" / "row_list" / "data"
VECTORS = ROOT / "crates" / "vector_list" / "data"
SHEETS = ROOT / "crates" / "sheet_list" / "data"
SCENES = ROOT / "crates" / "write_list" / "data"
PORTIONS = ROOT / "crates" / "portion_list" / "data"

problems = []


def problem(text):
    problems.append(text)


# ---- the page's tables

class Table:
    def __init__(self, heading, columns):
        self.heading, self.columns, self.rows = heading, columns, []


def cells(line):
    return [c.strip() for c in line.strip().strip("|").split("|")]


def code(cell):
    return cell[1:-1] if len(cell) > 1 and cell[0] == cell[-1] == "`" else cell


def span(cell):
    """The numbers of "3" or of "3-5"."""
    first, _, last = cell.partition("-")
    return range(int(first), int(last or first) + 1)


def read_tables(text):
    tables, heading, current = [], "", None
    for line in text.splitlines():
        if line.startswith("#"):
            heading = line.lstrip("#").strip()
        if not line.startswith("|"):
            current = None
        elif current is None:
            current = Table(heading, cells(line))
            tables.append(current)
        elif not re.fullmatch(r"[-|: ]+", line):
            row = cells(line)
            if len(row) != len(current.columns):
                problem(f"a line of the table under {heading!r} has {len(row)} cells instead of {len(current.columns)}: {line}")
                continue
            current.rows.append(dict(zip(current.columns, row)))
    return tables


class Group:
    """One line of a law's table: some rows of a pair."""

    def __init__(self, law, row):
        self.law, self.unit, self.formula = law, row["unit"], code(row["formula"])
        self.both = row["ends"].endswith(" ⇄")
        self.ends = tuple(row["ends"].removesuffix(" ⇄").split(", "))
        self.flags = [int(f) for f in row["aligned"].split(", ")] if "aligned" in row else None
        self.joint, self.third = row.get("joint"), row.get("third")
        self.rows = list(span(row["rows"]))
        self.tree = parsed(self.formula)
        if self.unit not in ("mm", "part", "rad"):
            problem(f"{self} has the unit {self.unit!r}")
        if (self.unit == "rad") != ("angle" in names_in(self.tree)):
            problem(f"{self} has the unit {self.unit}, and a row is in rad just where it has the angle in it")

    def __str__(self):
        extra = "".join(f", {x}" for x in (self.joint, self.third and f"third end {self.third}") if x)
        return f"{self.law} of {', '.join(self.ends)}{extra}, rows {self.rows[0]}-{self.rows[-1]}: {self.formula}"

    def suits(self, kinds, third, flag, joint):
        """False, or in which order the ends stand: "as written" or "exchanged"."""
        if (self.flags is not None and flag not in self.flags) or (self.joint is not None and joint != self.joint):
            return False
        if self.third is not None and third != self.third:
            return False
        return "as written" if kinds == self.ends else "exchanged" if self.both and kinds == self.ends[::-1] else False


# how the words of a set are read, in their order
SET = {"tolerance": double, "rounds": int, "row_limit": int, "drag_weight": double}
# what calls of `solve` choose in lists that do not spell it out
NAMED = {"tolerance": 1e-9, "rounds": 200, "row_limit": 800, "drag_weight": 10000.0}
# how a list numbers the calls of `solve`: by that set, by one that is spelled out, and by none
BY_NAMED, BY_SET, BY_NONE = 3, 5, 6


class Range:
    """What a call may choose, by name: from the least to the most, whole numbers or doubles."""

    def __init__(self, name, whole, least, most):
        self.name, self.whole, self.least, self.most = name, whole, least, most

    def holds(self, value):
        return self.least <= value <= self.most

    def accepted(self):
        return [self.least, self.most]

    def refused(self):
        """The numbers next to the ends, and a NaN where it is a double."""
        if self.whole:
            return [self.least - 1, self.most + 1]
        return [math.nextafter(self.least, -math.inf), math.nextafter(self.most, math.inf), NAN]


class Parameter(Range):
    """A line of the table "Parameters": a range, and the number without a choice."""

    def __init__(self, row):
        name, self.row = code(row["parameter"]), row
        number = int if SET.get(name) is int else float
        super().__init__(name, number is int, number(row["from"]), number(row["to"]))
        self.plain = number(row["without a choice"])
        if not self.holds(self.plain):
            problem(f"{self.name}: the number without a choice is outside its range")


# a call of `solve` of 2 rows or more: how much scratch it is lent over the page's, and the number that it gives
AT_THE_FIGURE, ONE_SHORT = ("scratch", 0, 0), ("scratch", -1, 9)


class Definitions:
    """The page as the script works with it."""

    def __init__(self, text):
        self.text, self.tables = text, read_tables(text)
        self.page = Page()
        for row in self.table("Names", "name").rows:
            self.page.add_name(code(row["name"]), "", code(row["formula"]))
        for row in self.table("Functions", "function").rows:
            self.page.add_function(code(row["function"]), code(row["when"]), code(row["formula"]))
        for row in self.table("Joint", "name").rows:
            self.page.add_name(code(row["name"]), code(row["when"]), code(row["formula"]))
        self.numbers = {"law": {}, "joint": {}, "primitive": {}}
        for row in self.table("Numbers of laws, joints and primitives", "number").rows:
            for of, known in self.numbers.items():
                if row[of]:
                    known[int(row["number"])] = row[of]
        self.page.constants.update({name: float(n) for n, name in self.numbers["primitive"].items()})
        self.counts = {row["law"]: row for row in self.table("What an end counts as", "law").rows}
        if sorted(self.counts) != sorted(self.numbers["law"].values()):
            problem("the table under 'What an end counts as' does not have just the laws")
        self.groups = [Group(law, row) for law in self.counts for row in self.table(law.capitalize(), "ends").rows]
        self.gaps = {}
        for row in self.table("Tangent", "pair").rows:
            self.gaps[row["pair"], int(row["inside"])] = Line(f"gap {row['pair']}, inside {row['inside']}", "", code(row["gap"]))
        self.readings = {row["reading"]: Line(f"reading {row['reading']}", "", code(row["formula"])) for row in self.table("Joint", "reading").rows}
        self.fields = {name: read_fields(self.table(name, "offset")) for name in ("Header", "Body", "Relation", "End")}
        self.sizes = {name: self.size(name) for name in self.fields}
        for f in self.fields["Relation"] + self.fields["End"]:
            if f.name in self.numbers and f.allowed != f"0 to {max(self.numbers[f.name])}":
                problem(f"{f.name}: allowed is {f.allowed}, and the numbers of the page go up to {max(self.numbers[f.name])}")
        self.filled = {}
        for row in self.table("What is filled in", "of").rows:
            self.filled.setdefault(row["of"], []).append(span(row["doubles"]))
        for of, size in (("pose", 12), ("frame", 12), ("freedom", 29)):
            if [i for part in self.filled[of] for i in part] != list(range(size)):
                problem(f"the doubles of a {of} are not 0 to {size - 1} in order")
        self.tests = [1, 2, 3, 4] + self.said(r"relations in order, each by (\d+(?:, then \d+)*)\.", "by which tests a relation goes")
        faults = {f.fault for fields in self.fields.values() for f in fields if f.fault}
        if len(set(self.tests)) != len(self.tests) or faults | {1} != set(self.tests):
            problem(f"the tests of the text are {self.tests}, and the faults of the tables {sorted(faults)}")
        self.given = self.said(r"tested after the sheet, by (\d+(?:, \d+)*)", "by which tests what else a call is given goes")
        self.parameters = {p.name: p for p in map(Parameter, self.table("Parameters", "parameter").rows)}
        if list(self.parameters) != list(SET):
            problem(f"the parameters are not {', '.join(SET)}")
        self.refusal, = self.said(r"a parameter that is a NaN or outside its range is refused by (\d+)\.", "what a parameter outside its range is refused by")
        self.scratch = self.written(r"is lent at least `([^`]+)` doubles of scratch;", "how much scratch there is at least")
        if not all(self.page.value(self.scratch, {"n": 0.0, "m": 0.0, "R": float(rows)}).is_integer() for rows in range(8)):
            problem("the scratch is no whole number of doubles")
        self.portion = Range("portion", True, *self.said(r"A portion is (\d+ to \d+) rounds\.", "how many rounds a portion has"))
        self.uncounted, *beside = self.said(r"that is not the sheet's, is refused by (\d+, after \d+ and before \d+);", "what a portion, or a count, is refused by")
        if sorted(self.given) != sorted({8, 9, 10, 11, 12, 13, self.refusal, self.uncounted}):
            problem(f"the tests of what else a call is given are {self.given}")
        elif beside != [self.given[self.given.index(self.uncounted) + step] for step in (-1, 1)]:
            problem(f"{self.uncounted} is said to come after {beside[0]} and before {beside[1]}, and the tests are {self.given}")
        self.state = State(self)
        self.said(r"\*\*Converged\*\* is (1) where every relation's error is at most the `tolerance` of the call,", "where converged is 1")
        self.saving = Saving(self)
        self.met = Counter()

    def table(self, heading, first):
        found = [t for t in self.tables if t.heading == heading and t.columns[0] == first]
        if len(found) != 1:
            raise ValueError(f"the page has {len(found)} tables under {heading!r} whose first column is {first!r}")
        return found[0]

    def values(self, name):
        """What the table "Numbers" has for a definition."""
        return [float(v) for row in self.table("Numbers", "number").rows if row["number"].startswith(f"`{name}` in ") for v in row["value"].split(", ")]

    def section(self, heading):
        found = re.search(rf"^## {heading}\n(.*?)(?=^## |\Z)", self.text, re.M | re.S)
        if not found:
            raise ValueError(f"the page has no part {heading!r}")
        return found.group(1)

    def sentence(self, pattern, what):
        """What the pattern's group is in a sentence of the page."""
        found = re.search(pattern, self.text)
        if not found:
            raise ValueError(f"the page does not say {what}")
        return found.group(1)

    def said(self, pattern, what):
        """The numbers of a sentence of the page."""
        return [int(n) for n in re.findall(r"\d+", self.sentence(pattern, what))]

    def written(self, pattern, what):
        """The formula of a sentence of the page."""
        return parsed(self.sentence(pattern, what))

    def size(self, name):
        """The bytes that the page gives the record, which its fields fill without a gap."""
        found = re.search(rf"^### {name}\n\n(\d+) bytes\.$", self.text, re.M)
        size = int(found.group(1)) if found else None
        at = 0
        for f in self.fields[name]:
            if f.offset != at:
                problem(f"{name}: {f.name} stands at {f.offset}, and the field before it ends at {at}")
            at = f.offset + f.size
        if at != size:
            problem(f"{name}: the fields end at {at}, and the page gives it {size} bytes")
        return at

    def lent(self, sheet, scratch, number):
        """Counts a call of `solve` by its scratch. With fewer than 2 rows a square is no more than its lower triangle."""
        if sheet and sheet.rows > 1:
            self.met["scratch", scratch - self.page.value(self.scratch, sheet.known), number] += 1

    def field(self, record, name):
        found = [f for f in self.fields[record] if f.name == name]
        if len(found) != 1:
            raise ValueError(f"{record} has {len(found)} fields {name!r}")
        return found[0]

    def uses(self, name, law):
        """Whether a law uses the relation's field."""
        field = self.field("Relation", name)
        return field.used is None or law in field.used

    # -- reading a record by the page's offsets

    def read(self, record, data, at):
        out = {}
        for f in self.fields[record]:
            if f.type == "end":
                out[f.name] = self.read("End", data, at + f.offset)
            elif f.name != "zero":
                out[f.name] = f.read(data, at)
        return out

    def pose(self, body):
        """The pose that a body's frame is: its axes as columns, its origin."""
        x, y, z = body["x"], body["y"], body["z"]
        return {"r0": (x[0], y[0], z[0]), "r1": (x[1], y[1], z[1]), "r2": (x[2], y[2], z[2]), "t": body["origin"]}

    # -- rows

    def kinds(self, rel):
        law = self.numbers["law"][rel["law"]]
        kind = lambda end: self.counts[law][self.numbers["primitive"][end["primitive"]]]
        third = self.numbers["primitive"][rel["S"]["primitive"]]
        return law, (kind(rel["A"]), kind(rel["B"])), third, self.numbers["joint"][rel["joint"]]

    def scope(self, rel, poses, exchanged=False):
        ground = {"r0": (1.0, 0.0, 0.0), "r1": (0.0, 1.0, 0.0), "r2": (0.0, 0.0, 1.0), "t": (0.0, 0.0, 0.0)}
        pose = lambda end: ground if end["body"] == 65535 else poses[end["body"]]
        a, b = ("B", "A") if exchanged else ("A", "B")
        scope = {"A": rel[a], "B": rel[b], "S": rel["S"], "qa": pose(rel[a]), "qb": pose(rel[b])}
        if self.uses("S", self.numbers["law"][rel["law"]]):
            scope["qs"] = pose(rel["S"])
        scope.update({name: rel[name] for name in ("offset", "angle", "reference", "flag", "teeth_a", "teeth_b")})
        return scope

    def gap(self, kinds, flag):
        return self.gaps["with a plane" if "plane" in kinds else "both round", flag]

    def rows(self, rel, poses):
        """The rows by the page, with the group of each."""
        law, kinds, third, joint = self.kinds(rel)
        out = []
        for group in self.groups:
            order = group.law == law and group.suits(kinds, third, rel["flag"], joint)
            if not order:
                continue
            scope = self.scope(rel, poses, order == "exchanged")
            if law == "tangent":
                line = self.gap(kinds, rel["flag"])
                self.page.met[line] += 1
                scope["gap"] = self.page.value(line.formula, scope)
            value = self.page.value(group.tree, scope)
            values = value if isinstance(value, tuple) else (value,)
            if group.rows != list(range(len(out) + 1, len(out) + 1 + len(values))):
                problem(f"{group}: the formula gives {len(values)} rows from {len(out) + 1} on")
            self.met[group, order, rel["flag"] if group.flags else None] += 1
            out += [(v, group) for v in values]
        return out

    def row_count(self, rel):
        law, kinds, third, joint = self.kinds(rel)
        return sum(len(g.rows) for g in self.groups if g.law == law and g.suits(kinds, third, rel["flag"], joint))

    def error(self, rel, poses):
        """A relation's error where it is not compared bit for bit; what is met for it does not count."""
        met = self.met.copy(), self.page.met.copy()
        error = largest([v for v, _ in self.rows(rel, poses)])
        self.met, self.page.met = met
        return error

    def unmet(self):
        for group in self.groups:
            for order in ["as written", "exchanged"] if group.both else ["as written"]:
                for flag in group.flags or [None]:
                    if not self.met[group, order, flag]:
                        yield f"{group}, ends {order}" + (f", flag {flag}" if flag is not None else "")
        for line in list(self.page.lines()) + list(self.gaps.values()) + list(self.readings.values()):
            if not self.page.met[line]:
                yield line.what
        for p in [*self.parameters.values(), self.portion]:
            yield from (f"a call accepted with the {p.name} {value!r}" for value in p.accepted() if not self.met[p, bits(value)])
            yield from (f"a call refused for the {p.name} {value!r} alone" for value in p.refused() if not self.met[p, bits(value)])
        for lent, said in (AT_THE_FIGURE, "accepted with just the page's scratch"), (ONE_SHORT, "refused with one double less"):
            if not self.met[lent]:
                yield f"a call of 2 rows or more {said}"
        for part in self.saving.parts:
            if not self.met[part]:
                yield f"a scene {'refused' if part.idle else 'saved'} with {part} that is not 0"
        for test in self.saving.tests:
            for n in test.numbers:
                if not self.met[test, n]:
                    yield f"a scene refused by {n} of its {test.of}"


class Field:
    FORMS = {"byte": "B", "u16": "H", "u32": "I", "double": "d"}
    WIDTHS = {"byte": 1, "u16": 2, "u32": 4, "double": 8}

    def __init__(self, row):
        self.offset, self.size, self.type, self.name = int(row["offset"]), int(row["size"]), row["type"], code(row["name"])
        self.allowed, self.fault = row["allowed"], int(row["fault"] or 0)
        used = row.get("used by", "all")
        self.used = None if used in ("", "all") else used.split(", ")
        many, _, one = self.type.rpartition(" ")
        self.one = one.removesuffix("s") if many else self.type
        self.many = int(many) if many else None
        width = self.WIDTHS.get(self.one)
        if width and self.size != width * (self.many or 1):
            problem(f"{self.name}: {self.type} is not {self.size} bytes")

    def read(self, data, at):
        values = struct.unpack_from("<" + self.FORMS[self.one] * (self.many or 1), data, at + self.offset)
        return tuple(values) if self.many else values[0]

    def raw(self, data, at):
        return data[at + self.offset:at + self.offset + self.size]


def read_fields(table):
    return [Field(row) for row in table.rows]


# ---- a running state

class State:
    """The tables of a running state: its numbers, and what stands where among the doubles of `state`."""

    def __init__(self, d):
        heading = "Solving by rounds"
        if [code(row["of a running state"]) for row in d.table(heading, "of a running state").rows] != ["unknowns", "rows", "done", "run", "state"]:
            problem("a running state is not unknowns, rows, done, run and state")
        self.length = d.written(r"\| `state` \| doubles \| `([^`]+)` of them,", "how many doubles a state has")
        self.parts = {code(row["of `state`"]): (parsed(code(row["from"])), parsed(code(row["doubles"]))) for row in d.table(heading, "of `state`").rows}
        if list(self.parts) != ["damping", "x", "first", "r"]:
            problem("the doubles of a running state are not damping, x, first and r")
        for n, rows in ((0, 0), (6, 0), (0, 1), (384, 896)):
            known = {"n": float(n), "R": float(rows)}
            if [i for part in self.parts for i in self.places(d, part, known)] != list(range(int(d.page.value(self.length, known)))):
                problem(f"the parts of a state with {n} unknowns and {rows} rows do not fill it in order")

    def needed(self, d, sheet):
        """How many doubles a state of the sheet has."""
        return int(d.page.value(self.length, sheet.known))

    def places(self, d, part, known):
        first, count = (int(d.page.value(tree, known)) for tree in self.parts[part])
        return range(first, first + count)

    def of(self, d, sheet, memory):
        """The words of each part."""
        return {part: [memory[i] for i in self.places(d, part, sheet.known)] for part in self.parts}


# ---- how a scene is lent for saving

class Slice:
    """A slice that is lent: what its elements are, how many of them a body and a relation have, how many there are in all."""

    def __init__(self, row):
        self.name, self.element = code(row["slice"]), row["elements"]
        self.width = Field.WIDTHS[self.element]
        self.each = {"Body": int(row["each body"]), "Relation": int(row["each relation"])}
        self.all = parsed(code(row["in all"]))

    def start(self, record, i, m):
        """The first element of body i, or of relation i after m bodies."""
        return self.each[record] * i + (self.each["Body"] * m if record == "Relation" else 0)


class Part:
    """Some places among a body's or a relation's elements of a slice, and the field that they are. No law has a use for an idle one."""

    def __init__(self, d, record, slice, places, field, end=None):
        self.record, self.slice, self.places, self.field = record, slice, span(places), field
        self.offset = field.offset + (end.offset if end else 0)
        self.name = f"{end.name}.{field.name}" if end else field.name
        self.size = len(self.places) * slice.width
        laws = [law for law in d.counts if end is None or end.used is None or law in end.used]
        used = field.used is None or any(name in laws or name in d.numbers["primitive"].values() for name in field.used)
        self.idle = field.name == "zero" or not used
        # of bytes that are 0 the first are lent
        fits = self.size <= field.size and slice.element == "byte" if field.name == "zero" else self.size == field.size and slice.element == field.one
        if not fits:
            problem(f"{self}: {len(self.places)} of {slice.element} are not {field.size} bytes of {field.type}")

    def __str__(self):
        return f"{self.record.lower()}, {self.slice.name} {self.places[0]}-{self.places[-1]}: {self.name}"

    def lent(self, scene, i):
        """The part's bytes in body i or relation i of the scene."""
        at = self.slice.width * (self.slice.start(self.record, i, scene.m) + self.places[0])
        data = scene.lent[self.slice.name][at:at + self.size]
        if len(data) != self.size:
            raise ValueError(f"{self}: a scene that is tested by it does not have it")
        return data


class Test:
    """A line of the order of tests: what is tested, and by which numbers, in which order."""

    def __init__(self, row):
        self.of, self.numbers = row["of"], [int(n) for n in row["number"].split(", ")]


class Saving:
    """The tables of how a scene is lent and tested."""

    def __init__(self, d):
        heading, ends = "Saving a scene", [f for f in d.fields["Relation"] if f.type == "end"]
        slices = [Slice(row) for row in d.table(heading, "slice").rows]
        if [s.name for s in slices] != ["bytes", "words", "numbers", "sheet"]:
            problem("the slices of a scene are not bytes, words, numbers and sheet")
        self.slices = {s.name: s for s in slices}
        self.parts = []
        for row in d.table(heading, "of").rows:
            record = row["of"].capitalize()
            self.parts.append(Part(d, record, self.slices[row["slice"]], row["places"], d.field(record, code(row["field"]))))
        for row in d.table(heading, "of each end").rows:
            field = d.field("End", code(row["of each end"]))
            self.parts += [Part(d, "Relation", self.slices[row["slice"]], row[f"`{end.name}`"], field, end) for end in ends]
        lines = d.table(heading, "order").rows
        if [row["order"] for row in lines] != [str(i + 1) for i in range(len(lines))]:
            problem("the order of a scene's tests is not counted from 1")
        self.tests = [Test(row) for row in lines]
        if sorted(t.of for t in self.tests) != ["bodies", "counts", "relations", "sheet", "slices"]:
            problem("a scene's tests are not those of its counts, slices, bodies, relations and sheet")
        self.whole(d, ends)

    def whole(self, d, ends):
        """Each field is lent once, a slice's places have no gap, and the counts are those of the records."""
        for record in ("Body", "Relation"):
            lent = Counter(p.name for p in self.parts if p.record == record and p.field.name != "zero")
            fields = [f.name for f in d.fields[record] if f.type != "end" and f.name != "zero"]
            fields += [f"{e.name}.{f.name}" for e in ends if record == "Relation" for f in d.fields["End"] if f.name != "zero"]
            if lent != Counter(fields):
                problem(f"of a {record.lower()} these are not lent once: {', '.join(sorted((lent - Counter(fields)) + (Counter(fields) - lent)))}")
            for name, s in self.slices.items():
                places = sorted(i for p in self.parts if p.record == record and p.slice is s for i in p.places)
                if name != "sheet" and places != list(range(s.each[record])):
                    problem(f"the places of a {record.lower()} in {name} are not 0 to {s.each[record] - 1}, each once")
        if self.slices["sheet"].each != {record: d.sizes[record] for record in ("Body", "Relation")}:
            problem("the bytes of a body or a relation in the sheet are not those of its table")
        for s in self.slices.values():
            for m, k in ((0, 0), (1, 0), (0, 1), (64, 128)):
                least = s.each["Body"] * m + s.each["Relation"] * k + (d.sizes["Header"] if s.name == "sheet" else 0)
                if self.needed(d, s, m, k) != least:
                    problem(f"{s.name}: of {m} bodies and {k} relations there are {self.needed(d, s, m, k)} in all, and {least} by the counts of each")

    def needed(self, d, s, m, k):
        return d.page.value(s.all, {"m": float(m), "k": float(k)})


class Scene:
    """A scene of the list: m, k, the bytes of each slice that is lent, and how many bytes there are for the sheet."""

    def __init__(self, scenes):
        self.m, self.k, *lengths, self.room = scenes.words(6)
        self.lent = {}
        for name, width, length in zip(("bytes", "words", "numbers"), (1, 2, 8), lengths):
            self.lent[name] = scenes.bytes((width * length + 7) // 8 * 8)[:width * length]

    def length(self, s):
        return self.room if s.name == "sheet" else len(self.lent[s.name]) // s.width


def laid_header(d, scene):
    out, known = bytearray(d.sizes["Header"]), {"m": float(scene.m), "k": float(scene.k)}
    for f in d.fields["Header"]:
        if f.name != "zero":
            value = known[f.name] if f.name in known else d.page.value(parsed(code(f.allowed)), known)
            struct.pack_into("<" + f.FORMS[f.one], out, f.offset, int(value))
    return bytes(out)


def laid_record(d, scene, record, i):
    out = bytearray(d.sizes[record])
    for part in d.saving.parts:
        if part.record == record:
            out[part.offset:part.offset + part.size] = part.lent(scene, i)
    return bytes(out)


def laid(d, scene):
    """The sheet by the page's tables, whatever stands in the scene's fields."""
    records = [laid_record(d, scene, record, i) for record, n in (("Body", scene.m), ("Relation", scene.k)) for i in range(n)]
    return laid_header(d, scene) + b"".join(records)


# ---- the sheet's faults by the page

def field_fault(d, f, data, at, uses, known):
    """The number that the field is refused with, or 0."""
    if f.type == "end":
        return 0
    if f.name == "zero" or (f.used is not None and not uses(f.used)):
        return 0 if not any(f.raw(data, at)) else 5 if f.name != "zero" else f.fault
    value = f.read(data, at)
    if f.allowed.startswith("up to "):
        good = all(abs(v) <= float(f.allowed[6:]) for v in (value if f.many else (value,)))
    elif f.allowed == "below m, or 65535":
        good = value < known["m"] or value == 65535
    elif " to " in f.allowed:
        low, high = map(int, f.allowed.split(" to "))
        good = low <= value <= high
    else:
        good = value == d.page.value(parsed(code(f.allowed)), known)
    return 0 if good else f.fault


def first_fault(d, faults):
    """The fault that comes first in the page's order of tests, or 0."""
    return min((x for x in faults if x), key=d.tests.index, default=0)


def header_faults(d, data, known):
    return [field_fault(d, f, data, 0, None, known) for f in d.fields["Header"]]


def body_faults(d, data, at, known):
    return [field_fault(d, f, data, at, None, known) for f in d.fields["Body"]]


def relation_faults(d, data, at, known):
    law = d.numbers["law"].get(data[at + d.fields["Relation"][0].offset])
    uses_law = lambda used: law in used
    faults = []
    for f in d.fields["Relation"]:
        faults.append(field_fault(d, f, data, at, uses_law, known))
        if f.type != "end":
            continue
        if f.used is not None and not uses_law(f.used):
            faults.append(5 if any(f.raw(data, at)) else 0)
            continue
        primitive = d.numbers["primitive"].get(data[at + f.offset + d.fields["End"][0].offset])
        faults += [field_fault(d, g, data, at + f.offset, lambda used: law in used or primitive in used, known) for g in d.fields["End"]]
    return faults


def sheet_fault(d, data):
    """The number by the page's tables, 1 to 7 or 14, or 0."""
    if len(data) < d.sizes["Header"]:
        return 1
    known = {name: float(v) for name, v in d.read("Header", data, 0).items()}
    fault = first_fault(d, header_faults(d, data, known))
    if fault or len(data) != known["length"]:
        return fault or 4
    header = d.read("Header", data, 0)
    for i in range(header["m"]):
        fault = first_fault(d, body_faults(d, data, header["bodies"] + d.sizes["Body"] * i, known))
        if fault:
            return fault
    for j in range(header["k"]):
        fault = first_fault(d, relation_faults(d, data, header["relations"] + d.sizes["Relation"] * j, known))
        if fault:
            return fault
    return 0


def faults_of(d, test, scene):
    """Of each thing that a line of the order of tests is about, the numbers that it fails by."""
    known, slices = {"m": float(scene.m), "k": float(scene.k)}, d.saving.slices.values()
    short = lambda s: scene.length(s) < d.saving.needed(d, s, scene.m, scene.k)
    if test.of == "counts":
        yield header_faults(d, laid_header(d, scene), known)
    elif test.of == "bodies":
        yield from (body_faults(d, laid_record(d, scene, "Body", i), 0, known) for i in range(scene.m))
    elif test.of == "relations":
        yield from (relation_faults(d, laid_record(d, scene, "Relation", j), 0, known) for j in range(scene.k))
    else:
        yield test.numbers if any(short(s) for s in slices if (s.name == "sheet") == (test.of == "sheet")) else []


def scene_fault(d, scene):
    """The number by the page's order of a scene's tests, or 0, and the line that gives it."""
    for test in d.saving.tests:
        for faults in faults_of(d, test, scene):
            found = set(faults) - {0}
            if found - set(test.numbers):
                problem(f"a scene fails by {sorted(found)} of its {test.of}, and the order of tests has {test.numbers}")
            if found:
                return next((n for n in test.numbers if n in found), 0), test
    return 0, None


def judged(d, rel):
    """11 for a relation without rows, 12 for a tangent without a round end beside another or a plane, else 0."""
    law, kinds, third, joint = d.kinds(rel)
    if not any(g.law == law and g.suits(kinds, third, rel["flag"], joint) for g in d.groups):
        return 11
    roundness = [kind in ("line", "point") and rel[e]["end_radius"] > 0 for kind, e in zip(kinds, "AB")]
    return 12 if law == "tangent" and not all(r or kind == "plane" for r, kind in zip(roundness, kinds)) else 0


# ---- the lists

class List:
    """A list of words of 64 bits; word 0 is the number of records."""

    def __init__(self, path):
        self.path, self.data, self.at = path, path.read_bytes(), 8
        self.count = struct.unpack_from("<Q", self.data)[0]

    def word(self):
        self.at += 8
        return struct.unpack_from("<Q", self.data, self.at - 8)[0]

    def words(self, n):
        return [self.word() for _ in range(n)]

    def doubles(self, n):
        self.at += 8 * n
        return struct.unpack_from(f"<{n}d", self.data, self.at - 8 * n)

    def bytes(self, n):
        self.at += n
        return self.data[self.at - n:self.at]

    def whole(self, compared):
        if self.at != len(self.data):
            problem(f"{self.path.name}: {len(self.data) - self.at} bytes are left over")
        if not compared:
            problem(f"{self.path.name}: nothing was compared")


def same(mine, theirs):
    return [bits(x) for x in mine] == [bits(x) for x in theirs]


def pose_of(v, turning=range(9), position=range(9, 12)):
    r, t = [v[i] for i in turning], [v[i] for i in position]
    return {"r0": tuple(r[:3]), "r1": tuple(r[3:6]), "r2": tuple(r[6:]), "t": tuple(t)}


def doubled(rel, poses):
    """The relation and the poses with every length twice as long; doubling is exact."""
    twice = lambda v: tuple(2 * x for x in v)
    end = lambda e: {**e, "point": twice(e["point"]), "end_radius": 2 * e["end_radius"], "circle_radius": 2 * e["circle_radius"]}
    rel = {**rel, "offset": 2 * rel["offset"], "A": end(rel["A"]), "B": end(rel["B"]), "S": end(rel["S"])}
    return rel, [{**p, "t": twice(p["t"])} for p in poses]


def pair_name(d, rel):
    law, _, third, joint = d.kinds(rel)
    pair = "-".join(d.numbers["primitive"][rel[e]["primitive"]] for e in "AB")
    return law, joint if law == "joint" else pair


def compare_rows(d):
    compare_list(d, "rows.bin", [law for law in d.counts if law != "gear"])
    compare_list(d, "gear_rows.bin", ["gear"])


def compare_list(d, name, laws):
    """A list of rows: every row and error; how many relations and rows there are of each law and pair. It has just these laws."""
    rows, seen, row_count = List(ROWS / name), {}, 0
    for i in range(rows.count):
        rel = d.read("Relation", rows.bytes(264), 0)
        poses = [pose_of(rows.doubles(12)) for _ in range(3)]
        count, theirs, error = rows.word(), rows.doubles(7), rows.doubles(1)[0]
        theirs = theirs[:count]
        mine = d.rows(rel, poses)
        values = [v for v, _ in mine]
        if not same(values, theirs):
            where = next((g for (v, g), t in zip(mine, theirs) if bits(v) != bits(t)), None)
            problem(f"{name}, relation {i}, {' '.join(pair_name(d, rel))}: {len(values)} rows by the page, {count} in the list; "
                    + (f"the first that differs: {where}" if where else "their number differs"))
            continue
        if bits(largest(values)) != bits(error):
            problem(f"{name}, relation {i}: the error differs")
        for (v, group), (w, _) in zip(mine, d.rows(*doubled(rel, poses))):
            if bits(w) != bits(2 * v if group.unit == "mm" else v):
                problem(f"{group}: the unit is not {group.unit}")
        key = pair_name(d, rel)
        relations, n = seen.get(key, (0, 0))
        seen[key] = relations + 1, n + count
        row_count += count
    rows.whole(row_count)
    if {law for law, _ in seen} != set(laws):
        problem(f"{name}: it has {', '.join(sorted({law for law, _ in seen}))} instead of {', '.join(laws)}")
    print(f"rows: {sum(r for r, _ in seen.values())} of {rows.count} relations, {row_count} rows, bit for bit as in {name}")
    for law in laws:
        pairs = [f"{pair} {r} ({n})" for (of, pair), (r, n) in sorted(seen.items()) if of == law]
        print(f"  {law}, relations (rows): " + ", ".join(pairs))


def compare_functions(d):
    wraps, good = List(ROWS / "wrap.bin"), 0
    for _ in range(wraps.count):
        w, theirs = wraps.doubles(2)
        mine = d.page.call("wrap", [w], {})
        if bits(mine) == bits(theirs):
            good += 1
        else:
            problem(f"wrap.bin: wrap({w!r}) is {mine!r} by the page and {theirs!r} in the list")
    wraps.whole(good)
    print(f"functions: wrap of {good} of {wraps.count} angles as in the list")
    gaps, good = List(ROWS / "tangent_gap.bin"), 0
    for _ in range(gaps.count):
        ra, rb, offset = gaps.doubles(3)
        inside, plane = gaps.words(2)
        theirs = gaps.doubles(1)[0]
        line = d.gap(("plane",) if plane else (), inside)
        mine = d.page.value(line.formula, {"ra": ra, "rb": rb, "offset": offset})
        if bits(mine) == bits(theirs):
            good += 1
        else:
            problem(f"tangent_gap.bin: {line.what}, of {ra!r}, {rb!r}, {offset!r} is {mine!r} by the page and {theirs!r} in the list")
    gaps.whole(good)
    print(f"functions: gap of {good} of {gaps.count} tangents as in the list")
    frames, good, left = List(VECTORS / "from_normal.bin"), 0, 0
    for _ in range(frames.count):
        origin, z = frames.doubles(3), frames.doubles(3)
        present, frame = frames.word(), frames.doubles(12)
        if not all(map(math.isfinite, origin)):
            left += 1
            continue
        built, o, x, y, z = (d.page.call(name, arguments, {}) for name, arguments in
                             (("built", [z]), ("frameO", [origin, z]), ("frameX", [z]), ("frameY", [z]), ("frameZ", [z])))
        theirs = frame if present else (0.0, 0.0, 0.0, 1.0, 0.0, 0.0, 0.0, 1.0, 0.0, 0.0, 0.0, 1.0)
        if built == present and same(o + x + y + z, theirs):
            good += 1
        else:
            problem(f"from_normal.bin: the frame of {origin}, {z} differs")
    frames.whole(good)
    print(f"functions: {good} of {frames.count} joint frames as in the list; {left} left out whose origin is not finite, which no sheet has")


def compare_readings(d):
    calls, good = List(SHEETS / "relation_calls.bin"), 0
    for i in range(calls.count):
        rel = d.read("Relation", calls.bytes(264), 0)
        poses = [d.pose(d.read("Body", calls.bytes(136), 0)) for _ in range(3)]
        judging, theirs = calls.word(), calls.doubles(2)
        calls.doubles(12)
        scope = d.scope(rel, poses)
        mine = []
        for line in (d.readings["offset"], d.readings["angle"]):
            d.page.met[line] += 1
            mine.append(d.page.value(line.formula, scope))
        if not same(mine, theirs):
            problem(f"relation_calls.bin, relation {i}: the reading is {mine} by the page and {theirs} in the list")
        elif judged(d, rel) != judging:
            problem(f"relation_calls.bin, relation {i}: judged {judged(d, rel)} by the page and {judging} in the list")
        else:
            good += 1
    calls.whole(good)
    print(f"readings: joint readings and judgements of {good} of {calls.count} relations as in the list")


def compare_fields(d):
    """sheets_fields.bin: one field changed at a time, and what judging relation 0 gives."""
    fields, numbers, laws = List(SHEETS / "sheets_fields.bin"), Counter(), Counter()
    for i in range(fields.count):
        sheet = fields.bytes(53 * 8)
        laws[d.numbers["law"].get(d.read("Relation", sheet, d.read("Header", sheet, 0)["relations"])["law"])] += 1
        for _ in range(fields.word()):
            at, word, number = fields.words(3)
            changed = sheet[:8 * at] + struct.pack("<Q", word) + sheet[8 * at + 8:]
            mine = sheet_fault(d, changed)
            if not mine:
                mine = judged(d, d.read("Relation", changed, d.read("Header", changed, 0)["relations"]))
            if mine != number:
                problem(f"sheets_fields.bin, sheet {i}, word {at} {word:016X}: {mine} by the page and {number} in the list")
                continue
            numbers[number] += 1
    fields.whole(sum(numbers.values()))
    said = ", ".join(f"{n}: {numbers[n]}" for n in sorted(numbers))
    print(f"faults: {sum(numbers.values())} sheets with one field changed as in the list, by number {said}")
    print(f"  of {fields.count} sheets, by law " + ", ".join(f"{law}: {laws[law]}" for law in d.counts))
    for law in d.counts:
        if not laws[law]:
            problem(f"sheets_fields.bin: no sheet has the law {law}")
    for n in d.tests[1:]:
        if not numbers[n]:
            problem(f"sheets_fields.bin: no sheet is refused by {n}")


def sheets_of(path):
    """Each sheet with its calls: which call, its six words, four more of a set where it chooses one, and the answer's words."""
    sheets = List(path)
    for _ in range(sheets.count):
        length = sheets.word()
        sheet = sheets.bytes((length + 7) // 8 * 8)[:length]
        calls = []
        for _ in range(sheets.word()):
            head = sheets.words(6)
            head += sheets.words(len(SET)) if head[0] == BY_SET else []
            n = sheets.word()
            calls.append((head, sheets.bytes(8 * n)))
        yield sheet, calls
    sheets.whole(sheets.count)


def compare_refused(d):
    """sheets_refused.bin, sheets_limits.bin and sheets_geared.bin: the numbers 1 to 7 and 14, and none of them."""
    numbers = Counter()
    for name in ("sheets_refused.bin", "sheets_limits.bin", "sheets_geared.bin"):
        for i, (sheet, calls) in enumerate(sheets_of(SHEETS / name)):
            mine = sheet_fault(d, sheet)
            for head, answer in calls:
                number = struct.unpack_from("<Q", answer)[0]
                theirs = number if number in d.tests else 0
                if mine == theirs:
                    numbers[theirs] += 1
                else:
                    problem(f"{name}, sheet {i}, call {head[0]}: {mine} by the page and {theirs} in the list")
    said = ", ".join(f"{n}: {numbers[n]}" for n in sorted(numbers))
    print(f"faults: {sum(numbers.values())} calls on good and damaged sheets as in the lists, by number {said} (0: none of the sheet's own)")
    for n in d.tests:
        if not numbers[n]:
            problem(f"no sheet of the lists was refused by {n}")


def unused_are_zero(d, v):
    """A body's 29 doubles by the page: two counts, then what they count, the rest 0."""
    slides, turns, slide_doubles, turn_doubles = d.filled["freedom"]
    counts = v[slides[0]], v[turns[0]]
    rest = [v[i] for i in slide_doubles[3 * int(counts[0]):]] + [v[i] for i in turn_doubles[6 * int(counts[1]):]]
    return all(c in (0, 1, 2, 3) for c in counts) and not any(map(bits, rest))


class Sheet:
    """A sheet that is not refused: its bodies, its relations, and which bodies move."""

    def __init__(self, d, data):
        header = d.read("Header", data, 0)
        self.bodies = [d.read("Body", data, header["bodies"] + d.sizes["Body"] * j) for j in range(header["m"])]
        self.rels = [d.read("Relation", data, header["relations"] + d.sizes["Relation"] * j) for j in range(header["k"])]
        named = {rel[e]["body"] for rel in self.rels for e in "ABS" if d.uses(e, d.numbers["law"][rel["law"]])}
        self.moves = [not body["fixed"] and j in named for j, body in enumerate(self.bodies)]
        self.unknowns, self.rows = 6 * sum(self.moves), sum(d.row_count(rel) for rel in self.rels)
        self.known = {"m": float(header["m"]), "n": float(self.unknowns), "R": float(self.rows)}


class Compared:
    """How much was compared of the answers of `solve`."""

    def __init__(self):
        self.laws, self.flags, self.still, self.frames, self.unknowns, self.rows = Counter(), Counter(), 0, 0, 0, 0

    def all(self, laws):
        return all(self.laws[law] for law in laws) and self.still and self.frames and self.flags[0] and self.flags[1]

    def __str__(self):
        return f"errors of {sum(self.laws.values())} relations at the poses found, {self.still} of {self.frames} bodies that stay, {self.flags[1]} answers converged and {self.flags[0]} not"


def compare_answer(d, where, sheet, answer, tolerance, compared):
    """Still bodies keep their frames' poses, errors are those of the page's rows, converged says whether all are within the tolerance. Gives the poses and the rows."""
    m, k = len(sheet.bodies), len(sheet.rels)
    flag, doubles = struct.unpack_from("<Q", answer, 8)[0], struct.unpack_from(f"<{24 * m + k}d", answer, 16)
    poses, errors = [pose_of(doubles[12 * j:12 * j + 12], *d.filled["pose"]) for j in range(m)], doubles[24 * m:]
    rows = [[v for v, _ in d.rows(rel, poses)] for rel in sheet.rels]
    if not same(map(largest, rows), errors):
        problem(f"{where}: the errors differ")
    if flag != all(largest(r) <= tolerance for r in rows):
        problem(f"{where}: converged is {flag} in the list")
    for j, body in enumerate(sheet.bodies):
        frame = doubles[12 * (m + j):12 * (m + j) + 12]
        frame = {name: tuple(frame[n] for n in part) for name, part in zip(("origin", "x", "y", "z"), d.filled["frame"])}
        compared.frames += 1
        if not same(frame["origin"], poses[j]["t"]) and frame != {name: body[name] for name in frame}:
            problem(f"{where}: the frame of body {j} stands neither at its pose nor where it was")
        if not sheet.moves[j]:
            compared.still += 1
            if any(not same(d.pose(body)[part], poses[j][part]) for part in poses[j]):
                problem(f"{where}: body {j} does not stand where its frame puts it")
    compared.laws.update(d.numbers["law"][rel["law"]] for rel in sheet.rels)
    compared.flags[flag] += 1
    return poses, rows


def compare_solved(d):
    compare_answers(d, "sheets_solved.bin", [law for law in d.counts if law != "gear"])
    compare_answers(d, "sheets_geared.bin", ["gear"])


def compare_answers(d, name, laws):
    """Answers of calls that choose 200 rounds, and freedoms. The list has these laws."""
    compared, freedoms = Compared(), 0
    for i, (data, calls) in enumerate(sheets_of(SHEETS / name)):
        if sheet_fault(d, data):
            continue
        sheet = Sheet(d, data)
        m = len(sheet.bodies)
        for head, answer in calls:
            if head[0] not in (BY_NAMED, 4) or struct.unpack_from("<Q", answer)[0]:
                continue
            if head[0] == BY_NAMED:
                compare_answer(d, f"{name}, sheet {i}", sheet, answer, NAMED["tolerance"], compared)
                continue
            doubles = struct.unpack_from(f"<{29 * m}d", answer, 16)
            for j in range(m):
                freedoms += 1
                if not unused_are_zero(d, doubles[29 * j:29 * j + 29]):
                    problem(f"{name}, sheet {i}: the freedom of body {j} is not laid out as on the page")
    if not (compared.all(laws) and freedoms):
        problem(f"{name}: not all was compared")
    print(f"solved: {name}, {compared}; {freedoms} freedoms")
    print("  relations by law " + ", ".join(f"{law}: {compared.laws[law]}" for law in d.counts if compared.laws[law]))


def given_faults(d, sheet, head, chosen):
    """The numbers of the tests that a call of `solve` fails by what it is given beside the sheet."""
    _, drag, scratch, poses, frames, errors = head[:6]
    m, k = len(sheet.bodies), len(sheet.rels)
    pose, frame = (sum(map(len, d.filled[of])) for of in ("pose", "frame"))
    fails = {8: drag != 65535 and drag >= m, d.refusal: not all(p.holds(value) for p, value in chosen.items()),
             10: poses < pose * m or frames < frame * m or errors < k, 9: scratch < d.page.value(d.scratch, sheet.known)}
    return {number for number, failed in fails.items() if failed}


def turned(v, w):
    """v turned by the length of w about it."""
    angle = math.hypot(*w)
    if not angle:
        return v
    x, y, z = (c / angle for c in w)
    along, across = x * v[0] + y * v[1] + z * v[2], (y * v[2] - z * v[1], z * v[0] - x * v[2], x * v[1] - y * v[0])
    return tuple(v[i] * math.cos(angle) + across[i] * math.sin(angle) + (x, y, z)[i] * along * (1 - math.cos(angle)) for i in range(3))


def poses_at(d, sheet, unknowns):
    """The poses with each moving body turned about its centre and then slid, by six unknowns each: exact for none, else as near as sine and cosine are."""
    rest, poses = list(unknowns), []
    for body, moves in zip(sheet.bodies, sheet.moves):
        if moves:
            slide, w, rest = rest[:3], rest[3:6], rest[6:]
            arm = turned(tuple(o - c for o, c in zip(body["origin"], body["centre"])), w)
            body = {**{axis: turned(body[axis], w) for axis in "xyz"}, "origin": tuple(c + a + s for c, a, s in zip(body["centre"], arm, slide))}
        poses.append(d.pose(body))
    return poses


def start_of_run(d, sheet, w):
    """The poses with each moving body turned by w about its centre."""
    return poses_at(d, sheet, [0.0, 0.0, 0.0, *w] * sum(sheet.moves))


def near(poses, others):
    """Whether no number of the poses is more than 1e-9 off."""
    return all(abs(x - y) <= 1e-9 for p, q in zip(poses, others) for part in p for x, y in zip(p[part], q[part]))


def what_has_a_say(sheet, chosen, drag):
    """The set and the drag, but for a drag and a drag weight that change no weight."""
    *others, weight = chosen.values()
    return *others, (drag, weight) if drag != 65535 and sheet.moves[drag] and weight != 1 else None


def compare_chosen(d, where, sheet, head, chosen, answer, compared, alike):
    """An accepted answer by what its call chose, and beside those before it on the same sheet, `alike`, where all that has a say is the same. Gives, of each kind of answer that the list must have, whether it is one."""
    tolerance, _, limit, _ = chosen.values()
    poses, rows = compare_answer(d, where, sheet, answer, tolerance, compared)
    flag, worst, plain = struct.unpack_from("<Q", answer, 8)[0], largest([largest(r) for r in rows]), d.parameters["tolerance"].plain
    first, slight = start_of_run(d, sheet, (0.0, 0.0, 0.0)), start_of_run(d, sheet, d.values("slight_turn"))
    at_first, at_slight, moving = poses == first, near(poses, slight), any(sheet.moves)
    within = all(d.error(rel, first) <= tolerance for rel in sheet.rels)
    if within and not (at_first and flag):
        problem(f"{where}: all rows are within the tolerance at the start, and the answer is another")
    count = sum(map(len, rows))
    over = count > limit and moving
    if over and not (at_first or at_slight):
        problem(f"{where}: {count} rows are over the row limit, and the answer is not at the start of a run")
    dragged = head[1] != 65535 and sheet.moves[head[1]]
    before, was_dragged = alike.setdefault(what_has_a_say(sheet, chosen, head[1]), (answer, dragged))
    if answer != before:
        problem(f"{where}: a call before it has the same parameters and weights, and another answer")
    return {
        "flag 1 with an error over the tolerance without a choice": flag and worst > plain,
        "flag 0 with none over it": not flag and worst <= plain,
        "flag 1 with an error of the tolerance": flag and worst == tolerance,
        "flag 0 with an error of the double after it": not flag and worst == math.nextafter(tolerance, math.inf),
        "over the row limit and within the tolerance at the start": over and within,
        "over it and where the frames put the bodies": over and at_first and not flag,
        "over it and slightly turned": over and at_slight,
        "with as many rows as it and moved": count == limit and moving and not (at_first or at_slight),
        "dragged by the weight 1 as without a drag": dragged != was_dragged,
    }


class Asked:
    """The calls of a list: their numbers, two tests in a row that a call fails, and their kinds. `given` are the tests of what they take beside the sheet."""

    def __init__(self, d, name, given):
        self.name, self.laws, self.compared, self.count = name, d.counts, Compared(), 0
        self.order = [n for n in d.given if n in given]
        self.numbers, self.both, self.kinds = Counter(), Counter(), Counter()

    def number(self, own, faults):
        """The page's number for one call more: the sheet's own, or the first that applies."""
        self.count += 1
        return own or next((n for n in self.order if n in faults), 0)

    def agreed(self, number, faults):
        self.numbers[number] += 1
        self.both.update(pair for pair in zip(self.order, self.order[1:]) if faults >= set(pair))

    def tell(self, what, tests=(), kinds=None, noun="answer", more=""):
        """Whether all was met that the list must have, the sheet's tests among it that are named, and how much it was."""
        kinds = kinds or list(self.kinds)
        if not self.compared.all(self.laws) or not all(self.numbers[n] for n in [0, *tests, *self.order]):
            problem(f"{self.name}: not all was compared")
        for pair in zip(self.order, self.order[1:]):
            if not self.both[pair]:
                problem(f"{self.name}: no call fails by {pair[0]} and by {pair[1]}")
        for kind in kinds:
            if not self.kinds[kind]:
                problem(f"{self.name}: no {noun} {kind}")
        said = ", ".join(f"{n}: {self.numbers[n]}" for n in sorted(self.numbers))
        print(f"{what}: {sum(self.numbers.values())} of {self.count} calls as in {self.name}, by number {said}; {self.compared}{more}")
        print(f"  {noun}s by kind " + ", ".join(f"{kind}: {self.kinds[kind]}" for kind in kinds))
        print("  relations by law " + ", ".join(f"{law}: {self.compared.laws[law]}" for law in self.laws))


def compare_parameters(d):
    """sheets_parameters.bin: the number that each call gives by the page's order of tests, and what an accepted one answers."""
    asked = Asked(d, "sheets_parameters.bin", (8, d.refusal, 10, 9))
    number_of = lambda answer: struct.unpack_from("<Q", answer)[0]
    for i, (data, calls) in enumerate(sheets_of(SHEETS / asked.name)):
        own = sheet_fault(d, data)
        sheet, alike = None if own else Sheet(d, data), {}
        for j, (head, answer) in enumerate(calls):
            where, number = f"{asked.name}, sheet {i}, call {j}", number_of(answer)
            chosen = {p: SET[p.name](word) for p, word in zip(d.parameters.values(), head[6:], strict=True)}
            faults = {own} if own else given_faults(d, sheet, head, chosen)
            mine = asked.number(own, faults)
            if mine != number:
                problem(f"{where}, {', '.join(f'{p.name} {value!r}' for p, value in chosen.items())}: {mine} by the page and {number} in the list")
                continue
            asked.agreed(number, faults)
            d.lent(sheet, head[2], number)
            bad = {p: value for p, value in chosen.items() if not p.holds(value)}
            if not number:
                d.met.update((p, bits(float(value))) for p, value in chosen.items())
                for kind, met in compare_chosen(d, where, sheet, head, chosen, answer, asked.compared, alike).items():
                    asked.kinds[kind] += bool(met)
            elif number == d.refusal and len(bad) == 1:
                d.met.update((p, bits(float(value))) for p, value in bad.items())
    asked.tell("parameters")


def one_straight_row(d, sheet):
    """Of a sheet of one relation, a mate of a plane of the ground and a body's centre: the row at the start and the square of its slope, which is the same everywhere. None of any other."""
    if len(sheet.rels) != 1 or sheet.rows != 1 or not sheet.unknowns:
        return None
    rel, (law, kinds, _, _) = sheet.rels[0], d.kinds(sheet.rels[0])
    plane, point = rel["A"], rel["B"]
    if law != "mate" or kinds != ("plane", "point") or plane["body"] != 65535 or point["body"] == 65535:
        return None
    body = sheet.bodies[point["body"]]
    if any(point["point"]) or body["origin"] != body["centre"]:
        return None
    (row, _), = d.rows(rel, start_of_run(d, sheet, (0.0, 0.0, 0.0)))
    return row, sum(c * c for c in plane["direction"])


def after_rounds(d, row, square, rounds, tolerance):
    """The row after at most so many rounds, by the page's numbers, and how many were made: a round leaves d / (square + d) of it, where d is the damping times the square, or its least figure."""
    (damping,), (softer, least), (figure,) = (d.values(name) for name in ("run", "softer", "diag_max"))
    for made in range(rounds):
        if abs(row) <= tolerance:
            return row, made
        added = damping * max(square, figure)
        row, damping = row * added / (square + added), max(damping * softer, least)
    return row, rounds


def compare_unchosen(d, where, sheet, answer, compared):
    """An accepted answer of a call that chooses nothing. Gives, of each kind of answer that the list must have, whether it is one."""
    tolerance, rounds = d.parameters["tolerance"].plain, d.parameters["rounds"].plain
    poses, rows = compare_answer(d, where, sheet, answer, tolerance, compared)
    flag, first = struct.unpack_from("<Q", answer, 8)[0], start_of_run(d, sheet, (0.0, 0.0, 0.0))
    within, moved, straight = all(d.error(rel, first) <= tolerance for rel in sheet.rels), poses != first, one_straight_row(d, sheet)
    if within and (moved or not flag) or moved and not sheet.unknowns:
        problem(f"{where}: the bodies stand elsewhere than at the start")
    last = False
    if straight:
        left, made = after_rounds(d, *straight, rounds, tolerance)
        last = made == rounds
        if flag != (abs(left) <= tolerance) or abs(largest(rows[0]) - abs(left)) > abs(left) / 1000:
            problem(f"{where}: the one row is {largest(rows[0])!r}, and {left!r} after {made} rounds by the page")
    return {
        "within the tolerance at the start": within,
        "where nothing moves": not flag and not sheet.unknowns,
        "converged elsewhere": flag and moved,
        "not converged elsewhere": not flag and moved,
        "of one straight row, converged by the last round": straight and flag and last,
        "of one straight row, off after the last round": straight and not flag and last,
    }


def compare_bare(d):
    """sheets_bare.bin: the number that each call gives by the page's order of tests, and what an accepted one answers."""
    asked, chosen = Asked(d, "sheets_bare.bin", (8, 10, 9)), {p: p.plain for p in d.parameters.values()}
    for i, (data, calls) in enumerate(sheets_of(SHEETS / asked.name)):
        own = sheet_fault(d, data)
        sheet = None if own else Sheet(d, data)
        for j, (head, answer) in enumerate(calls):
            where, number = f"{asked.name}, sheet {i}, call {j}", struct.unpack_from("<Q", answer)[0]
            faults = {own} if own else given_faults(d, sheet, head, chosen)
            mine = asked.number(own, faults)
            if head[0] != BY_NONE or mine != number:
                problem(f"{where}: call {head[0]}, {mine} by the page and {number} in the list")
                continue
            asked.agreed(number, faults)
            d.lent(sheet, head[2], number)
            if not number:
                for kind, met in compare_unchosen(d, where, sheet, answer, asked.compared).items():
                    asked.kinds[kind] += bool(met)
    asked.tell("unchosen", d.tests)


# the kinds of calls that solve by rounds which the list must have
KINDS = [
    "begun within the tolerance", "begun where nothing moves", "begun over the row limit", "begun, in the first run", "begun, in the retry", "begun and finished",
    "the first run gone on with", "the retry gone on with", "a run gone on with over the row limit", "the retry begun", "the first run gone on with and finished",
    "the retry gone on with and finished", "finished with the first run's unknowns", "the first run judged within the tolerance", "the retry judged within the tolerance",
    "the first run judged with its rounds done", "the retry judged with its rounds done", "finished before", "finished before by another byte", "one's own by another set or drag",
    "another's state", "the same in other portions", "refused for the portion alone", "refused for the unknowns alone", "refused for the rows alone", "refused for the state alone",
]


class Held:
    """What a caller holds of a running state: the rounds done, the run, and the words of the state's memory."""

    def __init__(self, done, run, memory):
        self.done, self.run, self.memory = done, run, memory


class Portion:
    """A call that solves by rounds: what it is given, and what it leaves."""

    def __init__(self, d, calls):
        self.goes_on, self.drag, *chosen = calls.words(2 + len(SET))
        self.chosen = {p: SET[p.name](word) for p, word in zip(d.parameters.values(), chosen, strict=True)}
        self.tolerance, self.rounds, self.limit, _ = self.chosen.values()
        self.portion, *self.counts = calls.words(3)
        self.state, *self.lent = calls.words(5)
        given = calls.word()
        self.given = Held(*calls.words(2), calls.words(given)) if given else None
        answer = calls.words(calls.word())
        self.number, *self.counts_left, self.done, self.run, self.flag = answer[:6]
        self.memory, self.filled = answer[6:6 + self.state], answer[6 + self.state:]

    def keeps(self, held):
        """Whether all is as it was; before a call the flag is 77."""
        left = [self.counts_left, self.done, self.run, self.memory, self.flag, self.filled]
        return left == [self.counts, held.done, held.run, held.memory[:self.state], 77, []]


class Ours:
    """A state of the caller's own: in which portions it came to be, and by which set and drag, or None where they changed."""

    def __init__(self, by, portions):
        self.by, self.portions = by, portions

    def gone_on(self, by, portion):
        return Ours(by if by == self.by else None, self.portions + [portion])


def schedules_of(d, path):
    """Each sheet with its schedules of calls that solve by rounds."""
    sheets = List(path)
    for _ in range(sheets.count):
        length = sheets.word()
        sheet = sheets.bytes((length + 7) // 8 * 8)[:length]
        yield sheet, [[Portion(d, sheets) for _ in range(sheets.word())] for _ in range(sheets.word())]
    sheets.whole(sheets.count)


def portion_faults(d, sheet, call):
    """The numbers of the tests that a call fails by what it is given beside the sheet, and which of the portion, the counts and the state is at fault where it is alone."""
    given = given_faults(d, sheet, [None, call.drag, *call.lent], call.chosen)
    new = [] if d.portion.holds(call.portion) else [d.portion.name]
    new += [name for name, count in zip(("unknowns", "rows"), call.counts) if call.goes_on and count != getattr(sheet, name)]
    faults = given | {d.uncounted for _ in new}
    if call.state < d.state.needed(d, sheet):
        faults, new = faults | {10}, new + ["state"]
    return faults, new[0] if len(new) == 1 and not given else None


def begun(d, sheet, call, now):
    """What a call that begins is, and whether it leaves what the page says of it."""
    zeros, slight = ([bits(v) for v in [0.0, 0.0, 0.0, *w]] * sum(sheet.moves) for w in ((0.0, 0.0, 0.0), d.values("slight_turn")))
    no_round = [bits(v) for v in d.values("fresh")] == now["damping"] and (call.run, call.done, now["first"]) == (3, 0, zeros)
    start = start_of_run(d, sheet, (0.0, 0.0, 0.0))
    if all(d.error(rel, start) <= call.tolerance for rel in sheet.rels):
        return "begun within the tolerance", no_round and now["x"] == zeros
    if not sheet.unknowns:
        return "begun where nothing moves", no_round
    if sheet.rows > call.limit:
        return "begun over the row limit", no_round and now["x"] in (zeros, slight)
    if call.run == 1:
        return "begun, in the first run", call.done == call.portion and now["first"] == zeros
    return ("begun, in the retry", call.done < call.portion) if call.run == 2 else ("begun and finished", call.done <= call.portion)


def gone_on(d, sheet, call, held, was, now):
    """The same of a call that goes on; `was` and `now` are the parts of the state before and after it."""
    stays = call.done == held.done and all(now[part] == was[part] for part in ("damping", "x", "first"))
    if held.run not in (1, 2):
        return "finished before" if held.run == 3 else "finished before by another byte", call.run == 3 and stays and now["r"] == was["r"]
    run = "the first run" if held.run == 1 else "the retry"
    if largest([double(word) for word in was["r"]]) <= call.tolerance:
        return f"{run} judged within the tolerance", call.run == 3 and stays
    if held.done >= call.rounds or sheet.rows > d.values("judge")[0]:
        if held.run == 1 and sheet.unknowns:
            return f"{run} judged with its rounds done", call.run != 1 and call.done <= call.portion and now["first"] == was["x"]
        kept = now["x"] in (was["x"], was["first"]) and all(now[part] == was[part] for part in ("damping", "first"))
        return f"{run} judged with its rounds done", call.run == 3 and call.done == held.done and kept
    over = sheet.rows > call.limit
    if call.run == held.run:
        kind, good = f"{run} gone on with", call.done == held.done + call.portion and now["first"] == was["first"]
    elif call.run == 2:
        kind, good = "the retry begun", call.done < call.portion and not over
    else:
        kind = "finished with the first run's unknowns" if now["x"] == now["first"] != was["x"] else f"{run} gone on with and finished"
        good = call.run == 3 and (held.done < call.done <= held.done + call.portion or held.run == 1 and call.done < (1 if over else call.portion))
    return "a run gone on with over the row limit" if over else kind, good


def compare_state(d, where, sheet, call, held, ours, answer, compared):
    """An accepted call: its answer, and what it leaves of the state as far as the page tells it without the rounds themselves. Gives what kind of call it is."""
    poses, rows = compare_answer(d, where, sheet, answer, call.tolerance, compared)
    was, now = (d.state.of(d, sheet, memory) for memory in (held.memory, call.memory))
    kind, good = gone_on(d, sheet, call, held, was, now) if call.goes_on else begun(d, sheet, call, now)
    if not good or call.counts_left != [sheet.unknowns, sheet.rows] or call.run not in (1, 2, 3):
        problem(f"{where}, {kind}: the state that is left is not the page's")
    rest = d.state.needed(d, sheet)
    if call.memory[rest:] != held.memory[rest:call.state]:
        problem(f"{where}, {kind}: what stands past the state is not kept")
    x, r = ([double(word) for word in now[part]] for part in ("x", "r"))
    if call.run != 3 and (largest(r) <= call.tolerance or call.done >= call.rounds):
        problem(f"{where}, {kind}: the run that is left has ended by the set of the call")
    if all(abs(v) <= 1000 for v in x):
        compared.unknowns += len(x)
        if not near(poses, poses_at(d, sheet, x)):
            problem(f"{where}, {kind}: the unknowns do not lead to the poses")
    if ours:
        compared.rows += len(r)
        if not same([v for own in rows for v in own], r):
            problem(f"{where}, {kind}: the rows are not those at the poses")
        if ours.by and sum(ours.portions) >= 2 * call.rounds and call.run != 3:
            problem(f"{where}, {kind}: twice the rounds of a run are made, and it is not finished")
    return kind


def compare_sums(where, call, ours, left, alike):
    """By one set and drag the same rounds in other portions leave the same, and so do all that finish. Gives whether there are any."""
    other = False
    for key in [(ours.by, sum(ours.portions))] + [(ours.by, "finished")] * (call.run == 3):
        portions, before = alike.setdefault(key, (ours.portions, left))
        other |= portions != ours.portions
        if before != left:
            problem(f"{where}: the same set and drag leave something else in other portions")
    return other


def compare_portions(d):
    """sheets_portions.bin: the number that each call gives by the page's order of tests, and what an accepted one leaves."""
    asked = Asked(d, "sheets_portions.bin", (8, d.refusal, d.uncounted, 10, 9))
    compared, kinds = asked.compared, asked.kinds
    for i, (data, schedules) in enumerate(schedules_of(d, PORTIONS / asked.name)):
        own = sheet_fault(d, data)
        sheet, alike = None if own else Sheet(d, data), {}
        for j, calls in enumerate(schedules):
            held = ours = None
            for h, call in enumerate(calls):
                where = f"{asked.name}, sheet {i}, schedule {j}, call {h}"
                if call.given:
                    held, ours = call.given, None
                faults, alone = ({own}, None) if own else portion_faults(d, sheet, call)
                mine = asked.number(own, faults)
                if mine != call.number:
                    problem(f"{where}: {mine} by the page and {call.number} in the list")
                    break
                asked.agreed(mine, faults)
                d.lent(sheet, call.lent[0], mine)
                if not mine or alone == d.portion.name:
                    d.met[d.portion, bits(float(call.portion))] += 1
                if mine:
                    kinds.update([f"refused for the {alone} alone"] if alone else [])
                    if not call.keeps(held):
                        problem(f"{where}: it is refused, and not all is as it was")
                    continue
                by = what_has_a_say(sheet, call.chosen, call.drag)
                ours = Ours(by, [call.portion]) if not call.goes_on else ours and ours.gone_on(by, call.portion)
                answer = struct.pack(f"<{2 + len(call.filled)}Q", 0, call.flag, *call.filled)
                kinds[compare_state(d, where, sheet, call, held, ours, answer, compared)] += 1
                if ours and ours.by:
                    left = call.done, call.run, call.memory[:d.state.needed(d, sheet)], answer
                    kinds["the same in other portions"] += compare_sums(where, call, ours, left, alike)
                kinds["one's own by another set or drag"] += ours is not None and ours.by is None
                kinds["another's state"] += ours is None
                held = Held(call.done, call.run, call.memory + held.memory[call.state:])
    if not (compared.rows and compared.unknowns):
        problem(f"{asked.name}: not all was compared")
    asked.tell("portions", kinds=KINDS, noun="call", more=f"; {compared.unknowns} unknowns that lead to the poses, {compared.rows} rows of one's own states")
    print(f"  of 2 rows or more, with those of sheets_parameters.bin and sheets_bare.bin: accepted with just the page's scratch {d.met[AT_THE_FIGURE]}, refused with one double less {d.met[ONE_SHORT]}")


def compare_written(d):
    """scenes_written.bin: the number that each scene gives, and each sheet, laid out by the page's tables."""
    scenes, numbers, laws, longer, length = List(SCENES / "scenes_written.bin"), Counter(), Counter(), 0, 0
    for i in range(scenes.count):
        scene = Scene(scenes)
        number = scenes.word()
        sheet = scenes.bytes(24 + 136 * scene.m + 264 * scene.k) if not number else None
        (mine, test), written = scene_fault(d, scene), b""
        if mine != number:
            problem(f"scenes_written.bin, scene {i}: {mine} by the page and {number} in the list")
            continue
        d.met[test, number] += 1
        if test is None or test.of not in ("counts", "slices"):
            written = laid(d, scene)
            read = sheet_fault(d, written)
            if read != (0 if test is None or test.of == "sheet" else number):
                problem(f"scenes_written.bin, scene {i}: reading the sheet gives {read} by the page")
                continue
            there = [p for p in d.saving.parts for n in range(scene.m if p.record == "Body" else scene.k) if any(p.lent(scene, n))]
            d.met.update(p for p in there if number == (5 if p.idle else 0))
        if sheet is not None:
            if written != sheet:
                at = next((n for n, (x, y) in enumerate(zip(written, sheet)) if x != y), min(len(written), len(sheet)))
                problem(f"scenes_written.bin, scene {i}: the sheets differ from byte {at} on, of {scene.m} bodies and {scene.k} relations")
                continue
            longer += any(scene.length(s) > d.saving.needed(d, s, scene.m, scene.k) for s in d.saving.slices.values())
            length += len(sheet)
            at = d.read("Header", sheet, 0)["relations"]
            laws.update(d.numbers["law"][d.read("Relation", sheet, at + d.sizes["Relation"] * j)["law"]] for j in range(scene.k))
        numbers[number] += 1
    scenes.whole(length)
    if not longer:
        problem("scenes_written.bin: no scene is lent in longer slices")
    for law in d.counts:
        if not laws[law]:
            problem(f"scenes_written.bin: no sheet has the law {law}")
    said = ", ".join(f"{n}: {numbers[n]}" for n in sorted(numbers))
    print(f"written: {sum(numbers.values())} of {scenes.count} scenes as in scenes_written.bin, by number {said}; {length} bytes of {numbers[0]} sheets, {longer} of them lent in longer slices")
    print("  relations of the sheets by law " + ", ".join(f"{law}: {laws[law]}" for law in d.counts))


# ---- what the page names

CITED = re.compile(r"((?:`[\w-]+`(?:, | and ))*`[\w-]+`) in `(crates/[\w/]+\.antt)`")


def cited(name, file):
    """The text of a definition, from its signature to the next blank line; None if the file does not have it."""
    path = ROOT / file
    text = path.read_text(encoding="utf-8") if path.is_file() else ""
    found = re.search(rf"^ *(?:(?:abbrev|unfoldable) )?pub (?:record |data )?{re.escape(name)}(?= [:({{]|$)[^\n]*(?:\n[^\n]+)*", text, re.M)
    return found.group(0) if found else None


def compare_names(d):
    count, files = 0, 0
    for names, file in CITED.findall(d.text):
        files += 1
        for name in re.findall(r"`([\w-]+)`", names):
            count += 1
            if cited(name, file) is None:
                problem(f"the page names {name} in {file}, and it is not defined there")
    if files != d.text.count(".antt") or not count:
        problem(f"the page has {d.text.count('.antt')} names of files of definitions, of which {files} can be looked up")
    print(f"names: {count} definitions in {files} places of the page")


def stands(value, text):
    """Whether a definition's text has the number: a double by its bits, or a count."""
    plain = text.replace("_", "")
    words = {f"0x{bits(float(value)):X}"}
    if re.fullmatch(r"\d+", value):
        words |= {value, f"0x{int(value):X}"} | {"0": {"zero64"}, "1": {"one64"}}.get(value, set())
    return any(re.search(rf"(?<![\w.]){re.escape(w)}(?![\w.])", plain, re.I) for w in words)


def compare_numbers(d):
    count = 0
    for row in d.table("Numbers", "number").rows:
        found = CITED.fullmatch(row["number"])
        text = found and cited(found.group(1).strip("`"), found.group(2))
        for value in row["value"].split(", "):
            count += 1
            if not text or not stands(value, text):
                problem(f"the number {value} does not stand in {row['number']}")
    part = d.section("Solving").partition("### Parameters\n")[2]
    texts = {name: cited(name, file) or "" for names, file in CITED.findall(part) for name in re.findall(r"`([\w-]+)`", names)}
    for p in d.parameters.values():
        # what the ranges, and the set of a call without a choice, say of this parameter; a constant that is named there is looked up
        ranges = [x for x in texts["in_range"].split("&&") if re.search(rf"\bp\.{p.name}\b", x)]
        plain = re.findall(rf"[{{;] {p.name} = ([^;}}]*)", texts["plain"])
        for column, pieces in (("from", ranges), ("to", ranges), ("without a choice", plain)):
            count += 1
            named = [texts.get(name, "") for name in re.findall(r"\b[A-Z][A-Z_]+\b", " ".join(pieces))]
            if not any(stands(p.row[column], text) for text in pieces + named):
                problem(f"{p.name}: {p.row[column]}, {column}, does not stand where the definitions speak of it")
    text = cited("portion_fits", "crates/refusals/specs/Refusals.antt") or ""
    for value in (d.portion.least, d.portion.most):
        count += 1
        if not stands(str(value), text):
            problem(f"portion: {value} does not stand where the definitions speak of it")
    told = 0
    for item in re.findall(r"^- .*(?:\n  .*)*", d.section("Solving") + d.section("Freedom"), re.M):
        texts = list(filter(None, (cited(name, file) for names, file in CITED.findall(item) for name in re.findall(r"`([\w-]+)`", names))))
        for value in re.findall(r"(?<![\w.`-])-?\d+(?:\.\d+)?(?:e-?\d+)?(?!\w)", item):
            if value not in ("0", "1", "2", "3"):
                told += 1
                if not any(stands(value, text) for text in texts):
                    problem(f"the number {value} stands in no definition that is named beside it: {item[:60]}...")
    if not count or not told:
        problem("no number was looked up")
    print(f"numbers: {count} in the definitions that the page names for them, {told} in the text")


def compare_sketches(d):
    shown = re.findall(r"!\[[^\]]*\]\(([^)]*)\)", d.text)
    folder = ROOT / "docs" / "sketches"
    drawn = {f"sketches/{name}": text for name, text in sketches.all_sketches().items()}
    there = {f"sketches/{p.name}" for p in folder.iterdir()} if folder.is_dir() else set()
    for name in sorted(set(shown) | set(drawn) | there):
        if name not in shown:
            problem(f"{name} is not shown on the page")
        elif name not in there:
            problem(f"{name} is shown on the page and is not there")
        elif name not in drawn:
            problem(f"{name} is not drawn by tools/sketches.py")
        elif (ROOT / "docs" / name).read_text(encoding="utf-8") != drawn[name]:
            problem(f"{name} is not as tools/sketches.py draws it")
    if len(shown) != len(set(shown)) or not shown:
        problem("the page shows no sketch, or one twice")
    print(f"sketches: {len(shown)} shown, each as drawn")


def main():
    if len(sys.argv) > 2:
        sys.exit(__doc__)
    path = pathlib.Path(sys.argv[1]) if len(sys.argv) == 2 else ROOT / "docs" / "DEFINITIONS.md"
    try:
        d = Definitions(path.read_text(encoding="utf-8"))
        for compare in (compare_rows, compare_functions, compare_readings, compare_fields, compare_refused, compare_solved, compare_parameters, compare_bare, compare_portions, compare_written, compare_numbers, compare_names, compare_sketches):
            compare(d)
        for what in d.unmet():
            problem(f"met by nothing in the lists: {what}")
    except (OSError, ValueError, KeyError, IndexError, TypeError, struct.error) as error:
        problem(f"the page cannot be worked: {type(error).__name__}: {error}")
    for text in problems[:20]:
        print(f"definitions: {text}", file=sys.stderr)
    if problems:
        sys.exit(f"definitions: {len(problems)} problems; {path.name} does not say what the answers are")
    print("definitions: the page says what the answers are")


if __name__ == "__main__":
    main()
