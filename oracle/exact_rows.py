"""The rows of mate, flush, insert, symmetry and tangent with a plane, on doubles and in exact fractions.

    python3 exact_rows.py LISTS SEED N       the lists in folder LISTS, then N random inputs and as many climbing steps

One text of the rows, written from document 01's solve.rs, is run on floats and on fractions. It prints the
largest distance seen between max_abs of the rows on doubles and the largest magnitude of the exact rows,
for poses with turning entries up to 1.01 and positions up to 4096, directions up to 1.01, all else up to
1000. The stated limit is 1e-7. The rows on floats are compared with the Rust's, bit for bit.
"""
import math
import pathlib
import random
import struct
import sys
from fractions import Fraction

MATE, FLUSH, ANGLE, INSERT, TANGENT, SYMMETRY, JOINT = range(7)
PLANE, LINE, POINT, CIRCLE = range(4)
LAWS = ["mate", "flush", "angle", "insert", "tangent", "symmetry", "joint"]
PRIMS = ["plane", "line", "point", "circle"]
GROUND = 65535
LIMIT = 1e-7
TURN, PLACE, AXIS, SIZE = 1.01, 4096.0, 1.01, 1000.0


def add(a, b): return [x + y for x, y in zip(a, b)]
def sub(a, b): return [x - y for x, y in zip(a, b)]
def scale(a, s): return [x * s for x in a]
def dot(a, b): return a[0] * b[0] + a[1] * b[1] + a[2] * b[2]
def cross(a, b): return [a[1] * b[2] - a[2] * b[1], a[2] * b[0] - a[0] * b[2], a[0] * b[1] - a[1] * b[0]]
def perp(v, d): return sub(v, scale(d, dot(v, d)))
def apply(r, v): return [r[i] * v[0] + r[i + 1] * v[1] + r[i + 2] * v[2] for i in (0, 3, 6)]


def placed(end, pose):
    """The end's point and direction where its body stands."""
    r, t = pose[:9], pose[9:]
    return add(apply(r, end["point"]), t), apply(r, end["direction"])


def rows(rel, poses):
    """The rows of a relation; numbers are floats or fractions alike. None for a relation not spoken of here."""
    one = poses[0][0] * 0 + 1
    world = [one, 0 * one, 0 * one, 0 * one, one, 0 * one, 0 * one, 0 * one, one] + [0 * one] * 3
    ends = rel["ends"]
    where = [world if e["body"] == GROUND else poses[e["body"]] for e in ends]
    law, offset = rel["law"], rel["offset"]
    (a, na), (b, nb) = placed(ends[0], where[0]), placed(ends[1], where[1])
    pa, pb = ends[0]["prim"], ends[1]["prim"]
    if law in (MATE, SYMMETRY):
        pa, pb = [LINE if p == CIRCLE else p for p in (pa, pb)]
    pair = (pa, pb)
    if law == MATE:
        if pair == (PLANE, PLANE):
            return add(na, nb) + [dot(sub(b, a), na) - offset]
        if pair == (LINE, LINE):
            return cross(na, nb) + perp(sub(b, a), na)
        if pair == (POINT, POINT):
            return sub(b, a)
        if pair == (PLANE, POINT):
            return [dot(sub(b, a), na) - offset]
        if pair == (POINT, PLANE):
            return [dot(sub(a, b), nb) - offset]
        if pair == (LINE, POINT):
            return perp(sub(b, a), na)
        if pair == (POINT, LINE):
            return perp(sub(a, b), nb)
        if pair == (PLANE, LINE):
            return [dot(nb, na), dot(sub(b, a), na) - offset]
        return [dot(na, nb), dot(sub(a, b), nb) - offset]
    if law == FLUSH:
        return sub(na, nb) + [dot(sub(b, a), na) - offset] if pair == (PLANE, PLANE) else []
    if law == INSERT:
        if pair != (CIRCLE, CIRCLE):
            return []
        return (sub(na, nb) if rel["flag"] else add(na, nb)) + sub(sub(b, a), scale(na, offset))
    if law == TANGENT and PLANE in pair:
        r = max(ends[0]["radius"], ends[1]["radius"])
        want = (-r if rel["flag"] else r) + offset
        if pair == (PLANE, LINE):
            return [dot(nb, na), dot(sub(b, a), na) - want]
        if pair == (LINE, PLANE):
            return [dot(na, nb), dot(sub(a, b), nb) - want]
        if pair == (PLANE, POINT):
            return [dot(sub(b, a), na) - want]
        if pair == (POINT, PLANE):
            return [dot(sub(a, b), nb) - want]
        return []
    if law == SYMMETRY:
        if ends[2]["prim"] != PLANE:
            return []
        s0, ns = placed(ends[2], where[2])
        turn = lambda v: sub(v, scale(ns, 2 * one * dot(v, ns)))
        place = lambda p: sub(p, scale(ns, 2 * one * dot(sub(p, s0), ns)))
        if pair == (PLANE, PLANE):
            return sub(nb, turn(na)) + [dot(sub(b, place(a)), nb)]
        if pair == (LINE, LINE):
            return cross(nb, turn(na)) + perp(sub(b, place(a)), nb)
        if pair == (POINT, POINT):
            return sub(b, place(a))
        return []
    return None


def exact(x):
    """The same structure with every float as the fraction it is."""
    if isinstance(x, dict):
        return {k: exact(v) for k, v in x.items()}
    if isinstance(x, list):
        return [exact(v) for v in x]
    return Fraction(x) if isinstance(x, float) else x


def largest(values):
    return max((abs(v) for v in values), default=0)


def distance(rel, poses, error=None):
    """How far max_abs of the rows on doubles (or the reported error) is from the largest exact row."""
    error = largest(rows(rel, poses)) if error is None else error
    return abs(Fraction(error) - largest(rows(exact(rel), exact(poses))))


# Reading records of the sheet and the frozen lists (FORMATS.md).

def read_end(b):
    prim, mirrored, body = struct.unpack_from("<BBH", b)
    d = struct.unpack_from("<8d", b, 8)
    return {"prim": prim, "body": body, "point": list(d[:3]), "direction": list(d[3:6]), "radius": d[7]}


def read_relation(b):
    law, _, flag = b[0], b[1], b[2]
    used = 3 if law == SYMMETRY else 2
    ends = [read_end(b[48 + 72 * i:120 + 72 * i]) for i in range(used)]
    return {"law": law, "flag": flag, "offset": struct.unpack_from("<d", b, 8)[0], "ends": ends}


def bounded(rel, poses):
    bodies = [poses[e["body"]] for e in rel["ends"] if e["body"] != GROUND]
    return all(abs(v) <= TURN for p in bodies for v in p[:9]) and all(abs(v) <= PLACE for p in bodies for v in p[9:])


def bits(values):
    return [struct.pack("<d", v) for v in values]


class Seen:
    """The largest distance seen for each law and pair."""

    def __init__(self):
        self.count, self.worst = 0, {}

    def take(self, rel, poses, error=None):
        d = distance(rel, poses, error)
        key = (rel["law"], rel["ends"][0]["prim"], rel["ends"][1]["prim"])
        self.count += 1
        self.worst[key] = max(self.worst.get(key, Fraction(0)), d)
        return d

    def report(self, what):
        top = max(self.worst.values(), default=Fraction(0))
        print(f"{what}: {self.count} relations, largest distance {float(top):.3g} (limit {LIMIT:g})")
        return self.count > 0 and top <= Fraction(LIMIT)


def list_of_rows(path):
    """The list `rows`: the floats' rows are the Rust's, and the distances."""
    data, seen, same = path.read_bytes(), Seen(), 0
    count = struct.unpack_from("<Q", data)[0]
    for i in range(count):
        record = data[8 + 78 * 8 * i:]
        rel = read_relation(record[:264])
        doubles = struct.unpack_from("<36d", record, 264)
        poses = [list(doubles[12 * j:12 * j + 12]) for j in range(3)]
        n = struct.unpack_from("<Q", record, 69 * 8)[0]
        mine = rows(rel, poses)
        if mine is None:
            continue
        if bits(mine) != bits(struct.unpack_from(f"<{n}d", record, 70 * 8)):
            sys.exit(f"record {i} of {path}: the rows differ from the Rust's")
        same += 1
        if bounded(rel, poses):
            seen.take(rel, poses)
    print(f"rows on floats: {same} relations, all bits as the Rust's")
    return seen.report("rows of the list")


def list_of_sheets(path):
    """A list of solved sheets: reported errors against exact rows at the poses filled in. Gears are left out, what stands beside them is not."""
    data, seen, at = path.read_bytes(), Seen(), 8

    def word():
        nonlocal at
        at += 8
        return struct.unpack_from("<Q", data, at - 8)[0]
    for _ in range(struct.unpack_from("<Q", data)[0]):
        length = word()
        sheet = data[at:at + length]
        at += (length + 7) // 8 * 8
        m, k = struct.unpack_from("<HH", sheet, 2)
        for _ in range(word()):
            call = [word() for _ in range(6)][0]
            n = word()
            answer = data[at:at + 8 * n]
            at += 8 * n
            if call != 3 or struct.unpack_from("<Q", answer)[0] != 0:
                continue
            doubles = struct.unpack_from(f"<{24 * m + k}d", answer, 16)
            poses = [list(doubles[12 * i:12 * i + 12]) for i in range(m)] or [[0.0] * 12]
            for i in range(k):
                start = 24 + 136 * m + 264 * i
                rel = read_relation(sheet[start:start + 264])
                if rows(rel, poses) is not None and bounded(rel, poses):
                    seen.take(rel, poses, doubles[24 * m + i])
    return seen.report(f"errors of {path.stem}")


# Inputs by chance and by climbing.

KINDS = [(law, pa, pb) for law in (MATE, FLUSH, INSERT, TANGENT, SYMMETRY) for pa in range(4) for pb in range(4)
         if law != TANGENT or PLANE in (pa, pb)]


def number(rng, limit):
    """Within the limit, mostly near it: what matters is how its last bits round."""
    v = limit * rng.choice([1.0, 1.0, 1 - rng.random() / 64, rng.random()])
    return rng.choice([-1, 1]) * v


def case(rng, law, pa, pb):
    three = lambda limit: [number(rng, limit) for _ in range(3)]
    end = lambda prim, body: {"prim": prim, "body": body, "point": three(SIZE), "direction": three(AXIS), "radius": number(rng, SIZE)}
    bodies = [rng.choice([i, i, i, GROUND]) for i in range(3)]
    rel = {"law": law, "flag": rng.randrange(2), "offset": number(rng, SIZE), "ends": [end(p, b) for p, b in zip((pa, pb, PLANE), bodies)]}
    poses = [[number(rng, TURN) for _ in range(9)] + three(PLACE) for _ in range(3)]
    return rel, poses


def slots(rel, poses):
    """Every double of a case but radii and offset: its list, its place in it, its limit."""
    for p in poses:
        yield from ((p, i, TURN if i < 9 else PLACE) for i in range(12))
    for e in rel["ends"]:
        yield from ((e["point"], i, SIZE) for i in range(3))
        yield from ((e["direction"], i, AXIS) for i in range(3))


def enlarged(rel, poses):
    """The case at its limits, each end on a body of its own, with the signs that make its largest row large."""
    for i, e in enumerate(rel["ends"]):
        e["body"] = i
    all_slots = list(slots(rel, poses))
    for where, i, limit in all_slots:
        where[i] = math.copysign(limit, where[i])
    for where, i, _ in all_slots * 3:
        before = largest(rows(rel, poses))
        where[i] = -where[i]
        if largest(rows(rel, poses)) < before:
            where[i] = -where[i]
    return rel, poses


def tries(seed, n):
    rng, seen = random.Random(seed), Seen()
    for i in range(n):
        rel, poses = case(rng, *KINDS[i % len(KINDS)])
        seen.take(rel, poses)
    good = seen.report("random inputs")
    climbed = Seen()
    for kind in KINDS:
        rel, poses = enlarged(*case(rng, *kind))
        best = climbed.take(rel, poses)
        for _ in range(n // len(KINDS)):
            kept = [(where, i, where[i]) for where, i, _ in rng.sample(list(slots(rel, poses)), rng.randint(1, 6))]
            for where, i, old in kept:
                where[i] = old * (1 - rng.random() * 2.0 ** -rng.randint(4, 45))
            d = climbed.take(rel, poses)
            if d >= best:
                best = d
                continue
            for where, i, old in reversed(kept):
                where[i] = old
    good &= climbed.report("climbing inputs")
    for (law, pa, pb), d in sorted(climbed.worst.items(), key=lambda item: -item[1])[:6]:
        print(f"  {LAWS[law]} {PRIMS[pa]}-{PRIMS[pb]}: {float(d):.3g}")
    return good


if __name__ == "__main__":
    lists, seed, n = pathlib.Path(sys.argv[1]), int(sys.argv[2]), int(sys.argv[3])
    sheets = [list_of_sheets(lists / name) for name in ("sheets_solved.bin", "sheets_geared.bin")]
    good = list_of_rows(lists / "rows.bin") & all(sheets) & tries(seed, n)
    sys.exit(0 if good else 1)
