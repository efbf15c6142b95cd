#!/usr/bin/env python3
"""Draws the sketches of docs/DEFINITIONS.md:  python3 tools/sketches.py  writes docs/sketches/*.svg

Plain lines, circles, polygons and letters on a white ground, 220 by 140. Blue is end a, orange end b, grey what is measured.
tools/definitions.py checks that the files are what this draws and that the page shows each of them.
"""
import math
import pathlib

WIDTH, HEIGHT = 220, 140
A, B, GREY, LIGHT = "#1f6fb2", "#c8641e", "#777777", "#b4b4b4"


def number(v):
    return f"{v:.1f}".removesuffix(".0")


class Sketch:
    def __init__(self):
        self.parts = [f'<rect x="0" y="0" width="{WIDTH}" height="{HEIGHT}" fill="#ffffff"/>']

    def add(self, name, more="", **values):
        said = " ".join(f'{k.replace("_", "-")}="{v if isinstance(v, str) else number(v)}"' for k, v in values.items())
        self.parts.append(f"<{name} {said}>{more}</{name}>" if more else f"<{name} {said}/>")

    def line(self, p, q, color, width=1.5, dash=None):
        extra = {"stroke_dasharray": dash} if dash else {}
        self.add("line", x1=p[0], y1=p[1], x2=q[0], y2=q[1], stroke=color, stroke_width=width, **extra)

    def path(self, points, color, width=1.5, dash=None):
        extra = {"stroke_dasharray": dash} if dash else {}
        self.add("polyline", points=" ".join(f"{number(x)},{number(y)}" for x, y in points), fill="none", stroke=color, stroke_width=width, **extra)

    def head(self, tip, direction, color):
        """An arrow's head: direction is where the arrow goes."""
        length = math.hypot(*direction)
        u, v = direction[0] / length, direction[1] / length
        corners = [tip, (tip[0] - 8 * u - 3.5 * v, tip[1] - 8 * v + 3.5 * u), (tip[0] - 8 * u + 3.5 * v, tip[1] - 8 * v - 3.5 * u)]
        self.add("polygon", points=" ".join(f"{number(x)},{number(y)}" for x, y in corners), fill=color)

    def arrow(self, p, q, color, width=2.0, dash=None):
        d = q[0] - p[0], q[1] - p[1]
        length = math.hypot(*d)
        self.line(p, (q[0] - 6 * d[0] / length, q[1] - 6 * d[1] / length), color, width, dash)
        self.head(q, d, color)

    def measure(self, p, q, text, at, color=GREY):
        """A dimension between two points, with its letters at a place."""
        self.line(p, q, color, 1.0)
        d = q[0] - p[0], q[1] - p[1]
        self.head(q, d, color)
        self.head(p, (-d[0], -d[1]), color)
        self.text(at, text, color)

    def text(self, at, text, color, anchor="start"):
        self.add("text", text, x=at[0], y=at[1], fill=color, font_family="sans-serif", font_size="13", text_anchor=anchor)

    def dot(self, p, color, radius=3):
        self.add("circle", cx=p[0], cy=p[1], r=radius, fill=color)

    def ring(self, p, radius, color, width=1.5, dash=None):
        extra = {"stroke_dasharray": dash} if dash else {}
        self.add("circle", cx=p[0], cy=p[1], r=radius, fill="none", stroke=color, stroke_width=width, **extra)

    def sphere(self, p, radius, color, dash=None):
        self.ring(p, radius, color, 1.5, dash)
        self.path(oval(p, radius, radius / 3, 180, 360), color, 0.8, dash)

    def face(self, p, q, color):
        """A face from p to q, hatched on the right of that way: that is where the material is."""
        self.line(p, q, color, 2.5)
        d = q[0] - p[0], q[1] - p[1]
        length = math.hypot(*d)
        u, v = d[0] / length, d[1] / length
        for i in range(int(length / 9)):
            x, y = p[0] + (6 + 9 * i) * u, p[1] + (6 + 9 * i) * v
            self.line((x, y), (x - 5 * u - 6 * v, y - 5 * v + 6 * u), color, 0.8)

    def axis(self, p, q, color):
        self.line(p, q, color, 1.2, "10 3 2 3")

    def toward(self, p, color):
        """An arrow that points at the eye."""
        self.ring(p, 6, color)
        self.dot(p, color, 2)

    def svg(self):
        head = f'<svg xmlns="http://www.w3.org/2000/svg" width="{WIDTH}" height="{HEIGHT}" viewBox="0 0 {WIDTH} {HEIGHT}">'
        return "\n".join([head] + self.parts + ["</svg>"]) + "\n"


def oval(p, rx, ry, start, end):
    """Points of an oval from one angle to another, in degrees, counter-clockwise on the page."""
    steps = 24
    angles = [math.radians(start + (end - start) * i / steps) for i in range(steps + 1)]
    return [(p[0] + rx * math.cos(t), p[1] - ry * math.sin(t)) for t in angles]


# ---- mate and flush

def base_plane(s, y=112, x=52):
    s.face((15, y), (205, y), A)
    s.dot((x, y), A)
    s.arrow((x, y), (x, y - 36), A)
    s.text((x - 14, y - 5), "a", A)
    s.text((x - 23, y - 25), "na", A)


def mate_plane_plane(s):
    base_plane(s)
    s.face((205, 40), (15, 40), B)
    s.dot((165, 40), B)
    s.arrow((165, 40), (165, 76), B)
    s.text((174, 54), "b", B)
    s.text((172, 74), "nb", B)
    s.measure((100, 112), (100, 40), "offset", (106, 82))


def mate_plane_line(s):
    base_plane(s)
    s.axis((15, 45), (205, 45), B)
    s.dot((140, 45), B)
    s.arrow((140, 45), (185, 45), B)
    s.text((136, 35), "b", B)
    s.text((168, 35), "nb", B)
    s.measure((100, 112), (100, 45), "offset", (106, 85))


def mate_plane_point(s):
    base_plane(s)
    s.dot((140, 40), B)
    s.text((148, 38), "b", B)
    s.measure((140, 112), (140, 44), "offset", (146, 82))


def mate_line_line(s):
    s.face((110, 42), (15, 42), A)
    s.face((15, 98), (110, 98), A)
    s.path([(200, 48), (70, 48), (70, 92), (200, 92)], B, 2.0)
    s.axis((8, 70), (214, 70), GREY)
    s.dot((28, 70), A)
    s.arrow((28, 70), (62, 70), A)
    s.text((24, 62), "a", A)
    s.text((42, 62), "na", A)
    s.dot((140, 70), B)
    s.arrow((140, 70), (180, 70), B)
    s.text((136, 62), "b", B)
    s.text((162, 62), "nb", B)
    s.text((110, 130), "one axis", GREY, "middle")


def mate_line_point(s):
    s.axis((12, 96), (208, 44), A)
    s.dot((49.7, 86), A)
    s.arrow((49.7, 86), (91, 75), A)
    s.text((44, 78), "a", A)
    s.text((74, 70), "na", A)
    s.dot((155, 58.1), B, 4)
    s.text((152, 48), "b", B)
    s.text((110, 124), "b on the line", GREY, "middle")


def mate_point_point(s):
    s.ring((110, 66), 8, A, 2)
    s.dot((110, 66), B, 4)
    s.text((92, 62), "a", A)
    s.text((122, 62), "b", B)
    s.text((110, 110), "one point", GREY, "middle")


def flush(s):
    s.face((15, 96), (95, 96), A)
    s.dot((45, 96), A)
    s.arrow((45, 96), (45, 56), A)
    s.text((31, 91), "a", A)
    s.text((22, 66), "na", A)
    s.face((125, 62), (205, 62), B)
    s.dot((175, 62), B)
    s.arrow((175, 62), (175, 22), B)
    s.text((183, 57), "b", B)
    s.text((182, 32), "nb", B)
    s.line((95, 96), (120, 96), LIGHT, 1, "3 3")
    s.line((104, 62), (125, 62), LIGHT, 1, "3 3")
    s.measure((112, 96), (112, 62), "offset", (118, 92))


# ---- angle and insert

def angle(s):
    p = (62, 108)
    s.arrow(p, (185, 108), A)
    s.text((166, 125), "na", A)
    tip = (p[0] + 100 * math.cos(math.radians(52)), p[1] - 100 * math.sin(math.radians(52)))
    s.arrow(p, tip, B)
    s.text((130, 36), "nb", B)
    arc = oval(p, 58, 58, 0, 46)
    s.path(arc, GREY, 1.0)
    s.head(oval(p, 58, 58, 0, 52)[-1], (-math.sin(math.radians(50)), -math.cos(math.radians(50))), GREY)
    s.text((118, 86), "angle", GREY)
    s.dot(p, "#ffffff", 7)
    s.toward(p, A)
    s.text((42, 104), "r", A)


def insert_plate(s, y):
    s.face((15, y), (78, y), A)
    s.face((142, y), (205, y), A)
    s.line((78, y), (78, 132), A, 2)
    s.line((142, y), (142, 132), A, 2)
    s.line((78, y), (142, y), A, 1, "4 3")
    s.axis((110, 8), (110, 136), GREY)
    s.dot((110, y), A)
    s.arrow((110, y), (110, y - 24), A)
    s.text((94, y - 3), "a", A)
    s.text((114, y - 12), "na", A)


def insert_opposed(s):
    insert_plate(s, 100)
    s.path([(84, 132), (84, 44), (62, 44), (62, 18), (158, 18), (158, 44), (136, 44), (136, 132)], B, 2)
    s.line((84, 44), (136, 44), B, 1, "4 3")
    s.dot((110, 44), B)
    s.arrow((110, 44), (110, 68), B)
    s.text((97, 40), "b", B)
    s.text((88, 62), "nb", B)
    s.measure((170, 100), (170, 44), "offset", (176, 76))
    s.line((158, 44), (174, 44), LIGHT, 1, "3 3")


def insert_aligned(s):
    insert_plate(s, 104)
    s.path([(84, 132), (84, 50), (136, 50), (136, 132)], B, 2)
    s.dot((110, 50), B)
    s.arrow((110, 50), (110, 20), B)
    s.text((94, 46), "b", B)
    s.text((114, 30), "nb", B)
    s.measure((170, 104), (170, 50), "offset", (176, 81))
    s.line((136, 50), (174, 50), LIGHT, 1, "3 3")


# ---- tangent

def tangent_plane_line(s):
    y = 76
    s.face((15, y), (205, y), A)
    s.dot((35, y), A)
    s.arrow((35, y), (35, y - 34), A)
    s.text((21, y - 5), "a", A)
    s.text((12, y - 26), "na", A)
    s.path([(85, y), (85, 20), (195, 20), (195, y)], B, 1.5)
    s.axis((75, 48), (208, 48), B)
    s.dot((105, 48), B)
    s.arrow((105, 48), (145, 48), B)
    s.text((101, 40), "b", B)
    s.text((129, 40), "nb", B)
    s.measure((168, 48), (168, 20), "rb", (173, 38), B)
    s.measure((66, y), (66, 48), "gap", (39, 67))
    s.line((62, 48), (76, 48), LIGHT, 1, "3 3")
    s.path([(85, y), (85, 132), (195, 132), (195, y)], B, 1, "4 3")
    s.text((140, 112), "inside 1", B, "middle")


def tangent_plane_point(s):
    y = 72
    s.face((15, y), (205, y), A)
    s.dot((40, y), A)
    s.arrow((40, y), (40, y - 34), A)
    s.text((26, y - 5), "a", A)
    s.text((17, y - 26), "na", A)
    s.sphere((140, y - 30), 30, B)
    s.dot((140, y - 30), B)
    s.text((128, y - 32), "b", B)
    s.measure((143, y - 30), (170, y - 30), "rb", (149, y - 36), B)
    s.measure((98, y), (98, y - 30), "gap", (68, y - 10))
    s.line((94, y - 30), (137, y - 30), LIGHT, 1, "3 3")
    s.ring((140, y + 30), 30, B, 1, "4 3")
    s.text((140, y + 38), "inside 1", B, "middle")


def two_round(s, draw, left, ra, rb):
    c = (left, 62)
    d = (left + ra + rb, 62)
    inner = (left + ra - rb, 62)
    draw(c, ra, A)
    draw(d, rb, B)
    s.ring(inner, rb, B, 1, "4 3")
    s.dot(c, A)
    s.dot(d, B)
    s.text((c[0] + 3, c[1] - 6), "a", A)
    s.text((d[0] + 3, d[1] - 6), "b", B)
    s.measure((c[0], c[1]), (c[0] - ra * 0.8, c[1] + ra * 0.6), "ra", (c[0] - 34, c[1] + 8), A)
    s.measure((d[0], d[1]), (d[0] + rb * 0.8, d[1] + rb * 0.6), "rb", (d[0] + 3, d[1] + 23), B)
    s.line(c, (c[0], 126), LIGHT, 1, "3 3")
    s.line(d, (d[0], 126), LIGHT, 1, "3 3")
    s.measure((c[0], 120), (d[0], 120), "gap", ((c[0] + d[0]) / 2 - 12, 115))
    s.text((212, 16), "dashed: inside 1", B, "end")


def tangent_line_line(s):
    two_round(s, lambda p, r, color: s.ring(p, r, color, 2), 68, 46, 28)


def tangent_line_point(s):
    s.path([(12, 72), (208, 72)], A, 1.5)
    s.path([(12, 128), (208, 128)], A, 1.5)
    s.axis((8, 100), (214, 100), A)
    s.dot((62, 100), A)
    s.arrow((62, 100), (106, 100), A)
    s.text((57, 94), "a", A)
    s.text((86, 94), "na", A)
    s.measure((24, 100), (24, 72), "ra", (28, 90), A)
    s.sphere((120, 42), 30, B)
    s.dot((120, 42), B)
    s.text((108, 38), "b", B)
    s.measure((123, 42), (150, 42), "rb", (130, 37), B)
    s.measure((174, 100), (174, 42), "gap", (178, 66))
    s.line((150, 42), (178, 42), LIGHT, 1, "3 3")


def tangent_point_point(s):
    two_round(s, lambda p, r, color: s.sphere(p, r, color), 64, 42, 30)


# ---- symmetry

def mirror_line(s):
    s.line((110, 10), (110, 132), GREY, 2)
    s.dot((110, 116), GREY)
    s.arrow((110, 116), (142, 116), GREY)
    s.text((98, 128), "s", GREY)
    s.text((126, 130), "ns", GREY)


def symmetry_plane(s):
    mirror_line(s)
    s.face((38, 108), (78, 34), A)
    s.face((142, 34), (182, 108), B)
    for sign, color, at, n in ((-1, A, "a", "na"), (1, B, "b", "nb")):
        p = (110 + 52 * sign, 71)
        tip = (p[0] + 31 * sign, p[1] - 17)
        s.dot(p, color)
        s.arrow(p, tip, color)
        s.text((p[0] - 16 * sign, p[1] + 18), at, color, "middle")
        s.text((tip[0] + 2 * sign, tip[1] - 5), n, color, "middle")


def symmetry_line(s):
    mirror_line(s)
    for sign, color, at, n in ((-1, A, "a", "na"), (1, B, "b", "nb")):
        s.axis((110 + 90 * sign, 110), (110 + 26 * sign, 22), color)
        p, tip = (110 + 68 * sign, 79.8), (110 + 44 * sign, 46.8)
        s.dot(p, color)
        s.arrow(p, tip, color)
        s.text((p[0] + 12 * sign, p[1]), at, color, "middle")
        s.text((tip[0] + 16 * sign, tip[1] + 4), n, color, "middle")


def symmetry_point(s):
    mirror_line(s)
    s.line((40, 62), (180, 62), LIGHT, 1, "3 3")
    s.dot((40, 62), A, 4)
    s.dot((180, 62), B, 4)
    s.text((36, 50), "a", A)
    s.text((177, 50), "b", B)
    for x in (75, 145):
        s.line((x - 2, 56), (x - 2, 68), GREY, 1)
        s.line((x + 2, 56), (x + 2, 68), GREY, 1)


# ---- joints: z of a upward, seen from a little above; flip 0, so z of b points down

OA, OB = (92, 118), (92, 48)


def frames(s, with_x):
    s.axis((92, 6), (92, 136), GREY)
    s.arrow(OA, (92, 86), A)
    s.text((70, 98), "za", A)
    s.arrow(OB, (92, 76), B)
    s.text((70, 68), "zb", B)
    if with_x:
        s.arrow(OA, (154, 118), A)
        s.text((158, 122), "xa", A)
        s.arrow(OB, (154, 48), LIGHT, 1.2, "3 3")
        tip = oval(OB, 62, 24, 0, 62)[-1]
        s.arrow(OB, tip, B)
        s.text((tip[0] + 4, tip[1] - 3), "xb", B)
    s.dot(OA, A)
    s.dot(OB, B)
    s.text((72, 130), "oa", A)
    s.text((72, 42), "ob", B)


def joint_angle(s):
    points = oval(OB, 44, 17, 4, 50)
    s.path(points, GREY, 1.0)
    s.head(oval(OB, 44, 17, 4, 58)[-1], (-9, -3), GREY)
    s.text((140, 38), "angle", GREY)


def joint_offset(s):
    s.measure((48, 118), (48, 48), "offset", (4, 88))
    s.line((44, 118), (88, 118), LIGHT, 1, "3 3")
    s.line((44, 48), (88, 48), LIGHT, 1, "3 3")


def may_turn(s):
    s.path(oval((92, 18), 26, 9, -60, 210), B, 1.5)
    s.head((110, 25.5), (-9, 4), B)
    s.text((124, 22), "turns", B)


def may_slide(s):
    s.measure((196, 74), (196, 26), "", (0, 0), B)
    s.text((186, 90), "slides", B, "middle")


def joint_rigid(s):
    frames(s, True)
    joint_offset(s)
    joint_angle(s)


def joint_revolute(s):
    frames(s, False)
    joint_offset(s)
    may_turn(s)


def joint_slider(s):
    frames(s, True)
    joint_angle(s)
    may_slide(s)


def joint_cylindrical(s):
    frames(s, False)
    may_turn(s)
    may_slide(s)


def sheet(s, y, color):
    s.add("polygon", points=f"58,{y + 14} 196,{y + 14} 214,{y - 12} 76,{y - 12}", fill="none", stroke=color, stroke_width="1.2")


def joint_planar(s):
    sheet(s, 114, A)
    sheet(s, 44, B)
    s.dot((100, 114), A)
    s.arrow((100, 114), (100, 78), A)
    s.text((82, 124), "oa", A)
    s.text((82, 90), "za", A)
    s.dot((140, 44), B)
    s.arrow((140, 44), (140, 80), B)
    s.text((122, 42), "ob", B)
    s.text((146, 78), "zb", B)
    s.measure((48, 114), (48, 44), "offset", (4, 84))
    s.line((44, 114), (97, 114), LIGHT, 1, "3 3")
    s.line((44, 44), (137, 44), LIGHT, 1, "3 3")
    s.measure((158, 44), (196, 44), "", (0, 0), B)
    s.measure((150, 54), (166, 34), "", (0, 0), B)
    s.text((176, 20), "slides, turns", B, "middle")


def joint_ball(s):
    c = (110, 68)
    s.path(oval(c, 36, 36, 150, 390), A, 2.5)
    s.ring(c, 31, B, 2)
    s.dot(c, A, 5)
    s.dot(c, B, 2.5)
    s.path([(94, 41), (82, 12)], B, 2)
    s.path([(126, 41), (138, 12)], B, 2)
    s.text((84, 72), "oa", A)
    s.text((119, 72), "ob", B)
    s.text((110, 126), "one point, turns any way", GREY, "middle")


# ---- gear: seen along the arbors, the carrier's z at the eye

def wheel(s, p, radius, teeth, turned, color):
    """A toothed wheel with its pitch circle and a tooth in the direction `turned`, degrees counter-clockwise."""
    points = []
    for i in range(teeth):
        for part, out in ((-0.27, -6), (-0.12, 5), (0.12, 5), (0.27, -6)):
            t = math.radians(turned + 360 * (i + part) / teeth)
            points.append((p[0] + (radius + out) * math.cos(t), p[1] - (radius + out) * math.sin(t)))
    s.path(points + points[:1], color, 1.2)
    s.ring(p, radius, LIGHT, 0.8, "6 2 1 2")


def wheel_angle(s, p, length, arc, turned, color):
    """A wheel's x, and the angle to it from the carrier's x."""
    s.line(p, (p[0] + length, p[1]), GREY, 1.0, "3 3")
    s.path(oval(p, arc, arc, 0, turned - 360 / arc), GREY, 1.0)
    back = math.radians(turned - 180 / arc)
    s.head(oval(p, arc, arc, 0, turned)[-1], (-math.sin(back), -math.cos(back)), GREY)
    s.arrow(p, oval(p, length, length, 0, turned)[-1], color)
    s.dot(p, color)


def gear(s):
    # the line of centres along xc: 14 * 50 + 12 * 320/3 degrees is half a turn and whole ones, so that the teeth mesh
    a, b = (64, 62), (157.6, 62)
    wheel(s, a, 50.4, 14, 50, A)
    wheel(s, b, 43.2, 12, 320 / 3, B)
    wheel_angle(s, a, 37, 22, 50, A)
    wheel_angle(s, b, 31, 17, 320 / 3, B)
    s.text((64, 38), "xa", A)
    s.text((86, 56), "θa", GREY)
    s.text((130, 51), "xb", B)
    s.text((171, 50), "θb", GREY)
    s.arrow((112, 130), (146, 130), GREY)
    s.arrow((112, 130), (112, 100), GREY)
    s.dot((112, 130), GREY)
    s.text((150, 134), "xc", GREY)
    s.text((93, 122), "yc", GREY)


SKETCHES = {
    "mate-plane-plane": mate_plane_plane, "mate-plane-line": mate_plane_line, "mate-plane-point": mate_plane_point,
    "mate-line-line": mate_line_line, "mate-line-point": mate_line_point, "mate-point-point": mate_point_point,
    "flush": flush, "angle": angle, "insert-opposed": insert_opposed, "insert-aligned": insert_aligned,
    "tangent-plane-line": tangent_plane_line, "tangent-plane-point": tangent_plane_point, "tangent-line-line": tangent_line_line,
    "tangent-line-point": tangent_line_point, "tangent-point-point": tangent_point_point,
    "symmetry-plane": symmetry_plane, "symmetry-line": symmetry_line, "symmetry-point": symmetry_point,
    "joint-rigid": joint_rigid, "joint-revolute": joint_revolute, "joint-slider": joint_slider,
    "joint-cylindrical": joint_cylindrical, "joint-planar": joint_planar, "joint-ball": joint_ball, "gear": gear,
}


def all_sketches():
    """The text of each file by its name."""
    out = {}
    for name, draw in SKETCHES.items():
        sketch = Sketch()
        draw(sketch)
        out[f"{name}.svg"] = sketch.svg()
    return out


def main():
    folder = pathlib.Path(__file__).resolve().parent.parent / "docs" / "sketches"
    folder.mkdir(exist_ok=True)
    for name, text in all_sketches().items():
        (folder / name).write_text(text, encoding="utf-8")


if __name__ == "__main__":
    main()
