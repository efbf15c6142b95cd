#!/usr/bin/env python3
"""What each crate holds, as a table, and what the gate costs.

    python3 tools/gate_table.py          the table
    python3 tools/gate_table.py --run    runs `.ci/run` first, and tells how long it took and how much of it that run proved

Functions are those of src/, tests left out. Lines are counted with comments: definitions are the files of specs/, proofs those of
proofs/; the lists Lib.antt are left out. Edits are the wrong programs that must be refused. `rt ci` tells no times of single crates,
so only the gate as a whole is timed: it proves again what has changed since an earlier run on the same machine, and what stands on that.
"""
import pathlib
import re
import subprocess
import sys
import time

ROOT = pathlib.Path(__file__).resolve().parent.parent
FUNCTION = re.compile(r'^ *(?:pub(?:\(\w+\))? )?(?:const )?(?:extern "C" )?fn \w+', re.M)
TEST = re.compile(r"^ *#\[test\]$", re.M)


def lines(paths):
    return sum(len(p.read_text(encoding="utf-8").splitlines()) for p in paths)


def logic(folder):
    return [p for p in folder.rglob("*.antt") if p.name != "Lib.antt"]


def crate_row(name):
    folder = ROOT / "crates" / name
    source = sorted(folder.glob("src/**/*.rt"))
    text = "\n".join(p.read_text(encoding="utf-8") for p in source)
    return {
        "functions": len(FUNCTION.findall(text)) - len(TEST.findall(text)),
        "source": lines(source),
        "definitions": lines(logic(folder / "specs")),
        "proofs": lines(logic(folder / "proofs")),
        "edits": len(list(folder.glob("must-fail/*.edit"))),
    }


def crates():
    for line in (ROOT / "crates.txt").read_text(encoding="utf-8").splitlines():
        words = line.split("#")[0].split(":")[0].split()
        if words:
            yield words[0]


def run_gate():
    began, told = time.time(), ""
    gate = subprocess.Popen([ROOT / ".ci" / "run"], stdin=subprocess.DEVNULL, stdout=subprocess.PIPE, text=True, errors="replace")
    for line in gate.stdout:
        print(line, end="", flush=True)
        told = line if line.startswith("rt: ok") else told
    ended = gate.wait()
    print(f"\nthe gate ended with {ended} after {(time.time() - began) / 60:.1f} minutes\n{told}")
    if ended != 0:
        sys.exit(ended)


def main():
    if sys.argv[1:] == ["--run"]:
        run_gate()
    elif sys.argv[1:]:
        sys.exit(__doc__)
    rows = {name: crate_row(name) for name in crates()}
    keys = ["functions", "source", "definitions", "proofs", "edits"]
    print("| crate | " + " | ".join(keys) + " |")
    print("|---" * (1 + len(keys)) + "|")
    for name, row in rows.items():
        print(f"| `{name}` | " + " | ".join(str(row[k]) for k in keys) + " |")
    print("| all | " + " | ".join(str(sum(row[k] for row in rows.values())) for k in keys) + " |")


main()
