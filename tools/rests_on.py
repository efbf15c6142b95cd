"""What each call's promise rests on: the files of definitions that a reader must believe.

    python3 tools/rests_on.py            print the list, as docs/ARCHITECTURE.md has it
    python3 tools/rests_on.py --write    put it into docs/ARCHITECTURE.md
    python3 tools/rests_on.py --check    end with 1 if docs/ARCHITECTURE.md has another list, or a promise rests on a law

A call's promise names definitions by the `ghost use` lines of its file. From those files it follows the `use`
lines of the definitions, file by file, to the end. Lines are counted without comments, `use` lines and blank
lines. The declarations of structs and enums that a definition names are the code's own and are not counted.
"""
import pathlib
import re
import sys

ROOT = pathlib.Path(__file__).resolve().parent.parent
PAGE = ROOT / "docs" / "ARCHITECTURE.md"
BEGIN, END = "<!-- rests on: begin -->", "<!-- rests on: end -->"
CALLS = [
    ("sheet_judge", "sheet/src/calls.rt"),
    ("sheet_joint_reading", "sheet/src/calls.rt"),
    ("sheet_snap", "sheet/src/calls.rt"),
    ("sheet_solve", "sheet/src/solving.rt"),
    ("sheet_solve_with", "sheet/src/solving.rt"),
    ("sheet_solve_begin", "sheet/src/going.rt"),
    ("sheet_solve_on", "sheet/src/going.rt"),
    ("sheet_dof", "sheet/src/freedoms.rt"),
    ("sheet_write", "sheet/src/saving.rt"),
    ("save", "saving/src/save.rt"),
    ("root", "arcs/src/root.rt"),
    ("sine", "arcs/src/arc.rt"),
    ("cosine", "arcs/src/arc.rt"),
    ("arctangent", "arcs/src/arc.rt"),
    ("report", "report/src/run.rt"),
]
MODULE = re.compile(r"Rattle\.(\w+)\.(specs|proofs)\.(.*)")


def source(module):
    """The file of definitions that a `use` names; None for the library and for what the code declares."""
    m = MODULE.match(module)
    if not m:
        return None
    crate, kind, rest = m.groups()
    if rest.startswith("declared.") or not (ROOT / "crates" / crate).is_dir():
        return None
    file = f"crates/{crate}/{kind}/{rest.replace('.', '/')}.antt"
    if not (ROOT / file).is_file():
        sys.exit(f"rests_on: no {file}, named as {module}")
    return file


def imports(text):
    return [m.group(1) for m in re.finditer(r"^use ([^\s{]+?)(?:\.\{[^}]*\})?(?: as \w+)?$", text, re.M)]


def first_files(call, path):
    """The files that the contract of a function names."""
    text = (ROOT / "crates" / path).read_text()
    found = re.search(r"pub (?:extern \"C\" )?fn %s\([\s\S]*?\n\{" % call, text)
    if not found:
        sys.exit(f"rests_on: no function {call} in {path}")
    contract = " ".join(re.findall(r"^    (?:requires|ensures)\*?(?: \w+)? \{(.*)\}$", found.group(0), re.M))
    files = set()
    for module, names, alias in re.findall(r"^ghost use ([^\s{;]+?)(?:\.\{([^}]*)\})?(?: as (\w+))?;$", text, re.M):
        used = [alias] if alias else [n.split(" as ")[-1].strip() for n in names.split(",")]
        if any(re.search(r"(?<![\w.])%s(?![\w'])" % re.escape(u), contract) for u in used):
            file = source(module)
            if file:
                files.add(file)
    if not files:
        sys.exit(f"rests_on: the promise of {call} names no definition")
    return files


def closure(files):
    seen, todo = set(), sorted(files)
    while todo:
        file = todo.pop()
        if file in seen:
            continue
        seen.add(file)
        for module in imports((ROOT / file).read_text()):
            target = source(module)
            if target and target not in seen:
                todo.append(target)
    return seen


def lines(file):
    text = (ROOT / file).read_text().splitlines()
    return sum(1 for l in text if l.strip() and not l.lstrip().startswith("--") and not l.startswith("use "))


def listing():
    rests = {call: closure(first_files(call, path)) for call, path in CALLS}
    size = {file: lines(file) for files in rests.values() for file in files}
    out = ["| call | files | lines |", "|---|---|---|"]
    out += [f"| `{call}` | {len(files)} | {sum(size[f] for f in files):,} |" for call, files in rests.items()]
    out += ["", "| file | lines | " + " | ".join(f"`{c}`" for c, _ in CALLS) + " |", "|---|---|" + "---|" * len(CALLS)]
    for file in sorted(size):
        marks = " | ".join("x" if file in rests[c] else "" for c, _ in CALLS)
        out.append(f"| {file.removeprefix('crates/')} | {size[file]} | {marks} |")
    return "\n".join(out), sorted(f for f in size if "/proofs/" in f)


def main():
    text, laws = listing()
    if len(sys.argv) == 1:
        print(text)
        print("laws:", laws)
        return 0
    page = PAGE.read_text()
    before, rest = page.split(BEGIN)
    old, after = rest.split(END)
    if sys.argv[1] == "--write":
        PAGE.write_text(before + BEGIN + "\n" + text + "\n" + END + after)
        return 0
    good = True
    if old.strip("\n") != text:
        print("rests_on: the list in docs/ARCHITECTURE.md is stale (python3 tools/rests_on.py --write)")
        good = False
    for file in laws:
        print(f"rests_on: a promise rests on {file}, which is no definition")
        good = False
    if good:
        print(f"rests_on: the list of {len(CALLS)} calls is as docs/ARCHITECTURE.md has it")
    return 0 if good else 1


sys.exit(main())
