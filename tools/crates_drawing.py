"""Draws the crates and what stands on what, from crates.txt.

    python3 tools/crates_drawing.py            write docs/crates.svg
    python3 tools/crates_drawing.py --check    end with 1 if docs/crates.svg is another drawing

A line leads from a crate down to those that it stands on; what these stand on themselves is not drawn again.
The programs that replay lists, and what they alone stand on, are left out.
"""
import pathlib
import sys

ROOT = pathlib.Path(__file__).resolve().parent.parent
FILE = ROOT / "docs" / "crates.svg"
# What is used from outside, beside the static libraries: the program, and what saves a scene of structs.
TOPS = ["report", "saving"]
WIDTH, HEIGHT, GAP, RISE, EDGE = 104, 28, 20, 62, 16


def crates():
    """Each crate with those of this repository that it stands on."""
    found, tops = {}, list(TOPS)
    for line in (ROOT / "crates.txt").read_text().splitlines():
        line = line.split("#")[0].strip()
        if line:
            said, below = line.split(":")
            name, *kind = said.split()
            found[name] = set(below.split())
            if "staticlib" in kind:
                tops.append(name)
    found = {name: below & set(found) for name, below in found.items()}
    drawn = set().union(*({top} | all_below(top, found) for top in tops))
    return {name: below for name, below in found.items() if name in drawn}


def all_below(name, found):
    reached = set()
    for below in found[name]:
        reached |= {below} | all_below(below, found)
    return reached


def drawing():
    found = crates()
    direct = {n: {b for b in below if not any(b in all_below(c, found) for c in below if c != b)} for n, below in found.items()}
    height = {}

    def rank(name):
        if name not in height:
            height[name] = 1 + max((rank(b) for b in direct[name]), default=-1)
        return height[name]

    levels = [[] for _ in range(1 + max(rank(n) for n in found))]
    for name in found:
        levels[rank(name)].append(name)
    # A crate stands near the middle of those that it stands on; ties by crates.txt's order.
    middle = {}
    for level in levels:
        wanted = sorted(level, key=lambda n: sum(middle[b] for b in direct[n]) / len(direct[n]) if direct[n] else 0)
        for i, name in enumerate(wanted):
            middle[name] = (i - (len(level) - 1) / 2) * (WIDTH + GAP)
        level[:] = wanted
    wide = max(len(level) for level in levels) * (WIDTH + GAP) - GAP + 2 * EDGE
    tall = (len(levels) - 1) * RISE + HEIGHT + 2 * EDGE
    at = {n: (wide / 2 + middle[n], EDGE + (len(levels) - 1 - rank(n)) * RISE) for n in found}
    out = [f'<svg xmlns="http://www.w3.org/2000/svg" width="{wide}" height="{tall}" viewBox="0 0 {wide} {tall}" font-family="sans-serif" font-size="13">']
    out.append(f'<rect width="{wide}" height="{tall}" fill="#ffffff"/>')
    for name in found:
        for below in sorted(direct[name]):
            (x, y), (u, v) = at[name], at[below]
            out.append(f'<path d="M{x:.0f} {y + HEIGHT} C{x:.0f} {y + HEIGHT + 24} {u:.0f} {v - 24} {u:.0f} {v}" fill="none" stroke="#7a8ca0"/>')
    for name, (x, y) in at.items():
        out.append(f'<rect x="{x - WIDTH / 2:.0f}" y="{y}" width="{WIDTH}" height="{HEIGHT}" rx="4" fill="#eef3f8" stroke="#33506e"/>')
        out.append(f'<text x="{x:.0f}" y="{y + 19}" text-anchor="middle" fill="#1c2c3c">{name}</text>')
    out.append("</svg>")
    return "\n".join(out) + "\n"


def main():
    text = drawing()
    if sys.argv[1:] == ["--check"]:
        if not FILE.is_file() or FILE.read_text() != text:
            print("crates_drawing: docs/crates.svg is not what crates.txt says (python3 tools/crates_drawing.py)")
            return 1
        print(f"crates_drawing: docs/crates.svg shows the {text.count('<text')} crates of crates.txt")
        return 0
    FILE.write_text(text)
    return 0


sys.exit(main())
