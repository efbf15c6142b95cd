#!/usr/bin/env python3
"""Writes the example sheets beside this file: python3 examples/make.py. With a folder's name it writes there, and the benchmark's five: 16 bodies, 64 bodies, 64 that all hang together, 32 that jam, and 800 rows.

The format is document 01's, with gears as request 1 has them: a header of 24 bytes, 136 bytes for a body, 264 for a relation, all little endian. Millimetres and radians.
"""
import math
import struct
import sys
from collections import namedtuple
from pathlib import Path

GROUND = 65535
MATE, FLUSH, ANGLE, INSERT, TANGENT, SYMMETRY, JOINT, GEAR = range(8)
PLANE, LINE, POINT, CIRCLE = range(4)
RIGID, REVOLUTE, SLIDER, CYLINDRICAL, PLANAR, BALL = range(6)
X, Y, Z = (1.0, 0.0, 0.0), (0.0, 1.0, 0.0), (0.0, 0.0, 1.0)
ZERO = (0.0, 0.0, 0.0)


def turned(axis, angle, axes=(X, Y, Z)):
    """The axes of a frame turned by an angle about an axis."""
    length = math.sqrt(sum(a * a for a in axis))
    u = [a / length for a in axis]
    s, c = math.sin(angle), math.cos(angle)

    def turn(v):
        along = sum(a * b for a, b in zip(u, v))
        over = (u[1] * v[2] - u[2] * v[1], u[2] * v[0] - u[0] * v[2], u[0] * v[1] - u[1] * v[0])
        return tuple(v[i] * c + over[i] * s + u[i] * along * (1 - c) for i in range(3))

    return tuple(turn(v) for v in axes)


def body(origin, axes=(X, Y, Z), size=2.0, fixed=0):
    """A body whose centre is its origin."""
    return struct.pack("<B7x16d", fixed, *origin, *axes[0], *axes[1], *axes[2], *origin, size)


def end(prim, of, point, direction=ZERO, circle_radius=0.0, radius=0.0, mirrored=0):
    return struct.pack("<BBH4x8d", prim, mirrored, of, *point, *direction, circle_radius, radius)


NO_END = bytes(72)


def relation(law, a, b, offset=0.0, angle=0.0, reference=ZERO, joint=0, flag=0, teeth=(0, 0), third=NO_END):
    """`teeth` are those of a gear's a and b; `third` is symmetry's plane or a gear's carrier."""
    return struct.pack("<BBBxHH5d", law, joint, flag, *teeth, offset, angle, *reference) + a + b + third


def sheet(bodies, relations):
    m, k = len(bodies), len(relations)
    size = 24 + 136 * m + 264 * k
    return struct.pack("<4H4I", 1, m, k, 0, 24, 24 + 136 * m, size, 0) + b"".join(bodies) + b"".join(relations)


def worked():
    """Document 01's worked example: one free body, its point 0 mated to the ground's."""
    return sheet([body(ZERO)], [relation(MATE, end(POINT, GROUND, ZERO), end(POINT, 0, ZERO))])


# The arbors of a small movement on its plate: name, place on the plate, height, radius.
ARBORS = [
    ("barrel", (-6.5, 4.0, 1.2), 5.2),
    ("centre wheel", (0.0, 0.0, 1.6), 4.6),
    ("third wheel", (5.4, 3.1, 1.9), 3.4),
    ("fourth wheel", (6.2, -3.3, 1.4), 3.1),
    ("escape wheel", (1.8, -7.0, 1.1), 2.3),
    ("balance", (-6.0, -5.2, 2.2), 4.4),
]


# How far from the middle the bridge's two pins stand, and the plate's holes for them.
PIN = 9.0


def movement(first, at, more, hole=PIN):
    """Plate, bridge and six arbors, numbered from `first` on, the plate at `at`. The plate is fixed; all else stands a little off, as a part does before it is pressed home.

    `more` adds a flush face of the bridge and an angle for each wheel that has none. With another `hole` the pins do not stand in the holes.
    """
    plate, bridge = first, first + 1
    place = lambda p: tuple(a + b for a, b in zip(at, p))
    bodies = [body(at, size=26.0, fixed=1), body(place((0.3, -0.2, 3.4)), turned((1.0, 2.0, 0.5), 0.06), size=18.0)]
    relations = [
        # The bridge's foot lies on the plate's pillars, 3 mm up: their normals meet.
        relation(MATE, end(PLANE, plate, (0.0, 0.0, 3.0), Z), end(PLANE, bridge, ZERO, (0.0, 0.0, -1.0))),
        # Its two pins stand in the plate's holes.
        relation(MATE, end(LINE, plate, (hole, 0.0, 0.0), Z), end(POINT, bridge, (PIN, 0.0, 0.0))),
        relation(MATE, end(LINE, plate, (-hole, 0.0, 0.0), Z), end(POINT, bridge, (-PIN, 0.0, 0.0))),
    ]
    for i, (name, p, radius) in enumerate(ARBORS):
        number = first + 2 + i
        off = (0.11 * (i + 1), -0.07 * (i + 2), 0.2 - 0.05 * i)
        start = place(tuple(a + b for a, b in zip(p, off)))
        bodies.append(body(start, turned((1.0 + i, 2.0, -1.0), 0.03 * (i + 1)), size=2 * radius))
        if name == "balance":
            # The balance's staff sits in its jewel: circle in circle, axes the same way.
            relations.append(relation(INSERT, end(CIRCLE, plate, p, Z, 0.5), end(CIRCLE, number, ZERO, Z, 0.5), flag=1))
        else:
            relations.append(relation(JOINT, end(LINE, plate, p, Z), end(LINE, number, ZERO, Z), joint=REVOLUTE, flag=1))
        if name == "escape wheel" or more:
            # A spoke's angle from the plate's x, seen along z.
            relations.append(relation(ANGLE, end(LINE, plate, p, X), end(LINE, number, ZERO, X), angle=0.25 + 0.1 * i, reference=Z))
    if more:
        relations.append(relation(FLUSH, end(PLANE, plate, (0.0, 11.0, 0.0), Y), end(PLANE, bridge, (0.0, 8.0, 0.0), Y), offset=-3.0))
    return bodies, relations


# A going train of 18,000 beats an hour. Teeth of the wheel and of the pinion on the arbor; the wheel's module; where the next arbor stands, as an angle from the
# plate's x; height; by what part of a tooth its wheel starts beside its place. The escape wheel's 15 teeth meet the pallets, which are no part of the sheet.
Arbor = namedtuple("Arbor", "name wheel pinion module towards height beside")
TRAIN = [
    Arbor("barrel", 80, None, 0.12, -0.55, 1.2, 0.3),
    Arbor("centre wheel", 80, 10, 0.11, 0.5, 1.6, -0.2),
    Arbor("third wheel", 75, 10, 0.1, -1.35, 1.9, 0.25),
    Arbor("fourth wheel", 80, 10, 0.085, -2.3, 1.4, -0.3),
    Arbor("escape wheel", 15, 8, None, None, 1.1, 0.1),
]
MESHES = list(zip(TRAIN, TRAIN[1:]))
# Where the barrel's arbor stands on the plate, and the angle from the plate's x at which the escape wheel's spoke stands.
BARREL = (-4.6, 2.8)
SPOKE = 0.25


def meshing(a, b):
    """The angle of the gear of arbor a's wheel and arbor b's pinion.

    Each arbor's x runs through the middle of a tooth of its wheel and of its pinion. So a tooth of a stands in a space of b on the line of centres, whose angle
    is φ, where wheel·θa + pinion·θb is (wheel + pinion)·φ + (pinion + 1)·π, up to whole turns.
    """
    return math.remainder((a.wheel + b.pinion) * a.towards + (b.pinion + 1) * math.pi, 2 * math.pi)


def train():
    """Plate and five arbors. The escape wheel's spoke stands at an angle, and the teeth hold the other wheels. The plate is fixed; all else starts a little off."""
    places, spokes = [BARREL], [SPOKE]
    for a, b in MESHES:
        far, (x, y) = a.module * (a.wheel + b.pinion) / 2, places[-1]
        places.append((x + far * math.cos(a.towards), y + far * math.sin(a.towards)))
    for a, b in reversed(MESHES):
        # Where a's x stands when its wheel meshes with what it drives: within half a tooth of the plate's x.
        spokes.insert(0, math.remainder(meshing(a, b) - b.pinion * spokes[0], 2 * math.pi) / a.wheel)
    bodies, relations = [body(ZERO, size=26.0, fixed=1)], []
    for i, (arbor, (x, y), spoke) in enumerate(zip(TRAIN, places, spokes)):
        start = (x + 0.11 * (i + 1), y - 0.07 * (i + 2), arbor.height + 0.2 - 0.05 * i)
        beside = spoke + arbor.beside * 2 * math.pi / arbor.wheel
        bodies.append(body(start, turned((1.0 + i, 2.0, 0.0), 0.02 * (i + 1), turned(Z, beside)), size=arbor.module * arbor.wheel if arbor.module else 4.6))
        relations.append(relation(JOINT, end(LINE, 0, (x, y, arbor.height), Z), end(LINE, 1 + i, ZERO, Z), joint=REVOLUTE, flag=1))
    relations.append(relation(ANGLE, end(LINE, 0, ZERO, X), end(LINE, len(TRAIN), ZERO, X), angle=SPOKE, reference=Z))
    for i, (a, b) in enumerate(MESHES):
        # The pitch circles, both at the wheel's height; the plate is the carrier.
        wheel = end(CIRCLE, 1 + i, ZERO, Z, a.module * a.wheel / 2)
        pinion = end(CIRCLE, 2 + i, (0.0, 0.0, a.height - b.height), Z, a.module * b.pinion / 2)
        relations.append(relation(GEAR, wheel, pinion, angle=meshing(a, b), teeth=(a.wheel, b.pinion), third=end(PLANE, 0, ZERO, Z)))
    return sheet(bodies, relations)


def impossible():
    """A bridge asked to lie at 3 mm and at 3.05 mm at once: the errors say by how much it cannot."""
    bodies = [body(ZERO, size=26.0, fixed=1), body((0.0, 0.0, 3.2), size=18.0)]
    foot = end(PLANE, 1, ZERO, (0.0, 0.0, -1.0))
    low = relation(MATE, end(PLANE, 0, (0.0, 0.0, 3.0), Z), foot)
    high = relation(MATE, end(PLANE, 0, (0.0, 0.0, 3.05), Z), foot)
    return sheet(bodies, [low, high])


def beside(i):
    """Where the plate of movement i stands among others."""
    return 40.0 * (i % 4), 40.0 * (i // 4), 0.0


def side_by_side(count, hole=PIN):
    """Movements of 8 bodies and 16 relations."""
    bodies, relations = [], []
    for i in range(count):
        b, r = movement(8 * i, beside(i), True, hole)
        bodies += b
        relations += r
    return sheet(bodies, relations)


def pair():
    """16 bodies and 32 relations: two movements side by side."""
    return side_by_side(2)


def full():
    """64 bodies and 128 relations: eight movements side by side."""
    return side_by_side(8)


def linked():
    """64 bodies and 128 relations: the eight movements hang together. The first plate alone is fixed; each other is joined rigidly to the one before, in the place of its bridge's flush face."""
    bodies, relations = [], []
    for i in range(8):
        b, r = movement(8 * i, beside(i), True)
        if i > 0:
            (x, y, z), before = beside(i), beside(i - 1)
            b[0] = body((x + 0.1, y - 0.05, z + 0.02), size=26.0)
            hole = tuple(u - v for u, v in zip((x, y, z), before))
            r[-1] = relation(JOINT, end(PLANE, 8 * (i - 1), hole, Z), end(PLANE, 8 * i, ZERO, Z), joint=RIGID, flag=1)
        bodies += b
        relations += r
    return sheet(bodies, relations)


def jammed():
    """32 bodies and 64 relations: four movements side by side, each with the bridge of a smaller calibre, whose pins stand 9 mm from the middle where the holes stand 12 mm.

    The pins stay 3 mm off. Every round finds a place that is better by next to nothing, so both runs make all their rounds, be they 60 or 200.
    """
    return side_by_side(4, 12.0)


def rows():
    """One free body and 800 rows: 114 rigid joints of 7 rows each, at as many places, and a mate of a plane and a line, which has 2. All hold at one place."""
    off = body((0.2, -0.1, 0.15), turned((1.0, 2.0, -1.0), 0.05), size=20.0)
    relations = []
    for i in range(114):
        p = (9.0 * math.cos(0.3 * i), 9.0 * math.sin(0.3 * i), 0.05 * i)
        relations.append(relation(JOINT, end(PLANE, GROUND, p, Z), end(PLANE, 0, p, Z), joint=RIGID, flag=1))
    relations.append(relation(MATE, end(PLANE, GROUND, ZERO, Z), end(LINE, 0, ZERO, X)))
    return sheet([off], relations)


def main():
    folder = Path(sys.argv[1]) if len(sys.argv) > 1 else Path(__file__).resolve().parent
    sheets = {"worked": worked(), "movement": sheet(*movement(0, ZERO, False)), "impossible": impossible(), "train": train()}
    if len(sys.argv) > 1:
        sheets.update(pair=pair(), full=full(), linked=linked(), jammed=jammed(), rows=rows())
    for name, text in sheets.items():
        (folder / f"{name}.sheet").write_bytes(text)
        print(f"{name}.sheet: {len(text)} bytes")


main()
