#!/usr/bin/env python3
"""Spells the definitions and lemmas of this repository in snake case, its facts in camel case, by the table respell.tsv beside this script.

usage: tools/respell.py [FOLDER]

FOLDER is the top of the repository, this script's own if none is given. A row of the table is the old spelling, a tab and the new one, or for one file alone its path
before these two. What turns, whole words alone:
in .antt files all code, and in comments what stands between backticks and words with a capital inside; in .rt files clauses, `ghost` items and the same of comments; the texts of
must-fail/*.edit; in README.md and docs/**/*.md what stands between backticks. Names of Rust, strings, inputs and outputs stay. A second run changes nothing.
"""
import os
import re
import sys

HERE = os.path.dirname(os.path.realpath(__file__))
# A word as the language of definitions cuts it.
WORD = re.compile(r'[^\s(){}.;,@"«»\[\]`:]+')
BARE = re.compile(r"(?<![\w'-])[a-z][a-z0-9]*(?:[A-Z][a-z0-9]*)+(?:-[a-z0-9]+)*(?![\w'-])")
SPAN = re.compile(r"`[^`\n]+`")


def rows():
    found, alone = {}, {}
    with open(os.path.join(HERE, "respell.tsv"), encoding="utf-8") as f:
        for line in f:
            *path, old, new = line.rstrip("\n").split("\t")
            (alone.setdefault(path[0], {}) if path else found)[old] = new
    return found, alone


TABLE, ALONE = rows()


def word(m):
    w = m[0]
    return TABLE.get(w, w)


def words(text):
    return WORD.sub(word, text)


def span(m):
    return "`" + words(m[0][1:-1]) + "`"


def prose(text):
    return BARE.sub(word, SPAN.sub(span, text))


def code_line(line, mark):
    """The line with its code turned, up to a comment that `mark` begins; strings stay."""
    out, i = [], 0
    while i < len(line):
        if line[i] == '"':
            j = i + 1
            while j < len(line) and line[j] != '"':
                j += 2 if line[j] == "\\" else 1
            out.append((False, line[i : j + 1]))
            i = j + 1
        elif line.startswith(mark, i) and (i == 0 or line[i - 1] in " \t"):
            return "".join(words(t) if turn else t for turn, t in out) + prose(line[i:])
        else:
            j = i
            while j < len(line) and line[j] != '"' and not (line.startswith(mark, j) and (j == 0 or line[j - 1] in " \t")):
                j += 1
            out.append((True, line[i:j]))
            i = j
    return "".join(words(t) if turn else t for turn, t in out)


def antt(text):
    return "\n".join(code_line(line, "--") for line in text.split("\n"))


GHOST = re.compile(r"^\s*(?:pub )?ghost\b")
CLAUSE = re.compile(r"\b(?:requires|ensures)\*?(?: \w+)? \{")


def rattle(text):
    out, depth, ghost = [], 0, False
    for line in text.split("\n"):
        at = 0
        if depth == 0 and not ghost:
            m = CLAUSE.search(line)
            if GHOST.match(line):
                ghost = True
            elif m and "//" not in line[: m.start()]:
                at = m.start()
                depth = 0
                inside = True
            else:
                i = line.find("//")
                out.append(line if i < 0 else line[:i] + prose(line[i:]))
                continue
        part = line[at:]
        out.append(line[:at] + code_line(part, "//"))
        bare = re.sub(r'"[^"]*"|(?:^|\s)//.*', "", part)
        if ghost:
            if bare.rstrip().endswith(";") or bare.rstrip().endswith("}"):
                ghost = False
        else:
            depth += bare.count("{") - bare.count("}")
    return "\n".join(out)


def edit(text):
    out = []
    for line in text.split("\n"):
        m = re.match(r"(old|new): ", line)
        out.append(line[: m.end()] + words(line[m.end() :]) if m else prose(line) if line.startswith("#") else line)
    return "\n".join(out)


def page(text):
    return SPAN.sub(span, text)


def turned(path, text):
    if path.endswith(".antt"):
        return antt(text)
    if path.endswith(".rt"):
        return rattle(text)
    if path.endswith(".edit"):
        return edit(text)
    return page(text)


def main():
    top = sys.argv[1] if len(sys.argv) > 1 else os.path.dirname(HERE)
    for folder, dirs, files in os.walk(top):
        dirs[:] = sorted(d for d in dirs if d not in ("out", "target", ".git"))
        for name in sorted(files):
            path = os.path.join(folder, name)
            inside = os.path.relpath(path, top).split(os.sep)
            if inside[0] == "crates" and name.endswith((".antt", ".rt", ".edit")) or name == "README.md" and len(inside) == 1 or inside[0] == "docs" and name.endswith(".md"):
                with open(path, encoding="utf-8") as f:
                    text = f.read()
                for old, to in ALONE.get("/".join(inside), {}).items():
                    text = re.sub(rf"(?<![\w.'-]){re.escape(old)}(?![\w'-])", to, text)
                new = turned(path, text)
                if new != text:
                    with open(path, "w", encoding="utf-8") as f:
                        f.write(new)
                    print(os.path.relpath(path, top))


main()
