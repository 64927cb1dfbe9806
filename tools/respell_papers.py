#!/usr/bin/env python3
"""Brings the names in the papers to those of tools/respell.py.

usage: tools/respell_papers.py     at the top of the repository, once, after tools/respell.py

In every paper but docs/CHANGES.md and docs/PORT.md, which tell what was: a definition's or lemma's name of the last landed commit becomes today's, dashed ones between
backquotes alone; `Rattle·c.specs.M` and `Rattle·c·specs.M` become `Rattle.c.specs.M`. What a name's own crate calls otherwise is by hand.
"""
import os
import re
import subprocess

HERE = os.path.dirname(os.path.abspath(__file__))
TEXT = open(os.path.join(HERE, "respell.py"), encoding="utf-8").read()
space = {}
exec(compile(TEXT[: TEXT.rindex("\nmain()")], "respell", "exec"), space)


def table():
    own = space["defined"]()
    names, groups = {}, {}
    for n in space["landed"]():
        groups.setdefault(space["snake"](n), set()).add(n)
    for new, olds in groups.items():
        for n in olds:
            if n in space["SHARED"]:
                continue
            t = new + "_lem" if len(olds) > 1 and "-" in n and new + "_lem" in own else new
            if t != n:
                names[n] = t
    return names


def main():
    names = table()
    token = space["TOKEN"]
    files = subprocess.run(["git", "ls-files", "*.md"], capture_output=True, text=True, check=True).stdout.split()
    turned = 0
    for f in files:
        if f in ("docs/CHANGES.md", "docs/PORT.md"):
            continue
        old = open(f, encoding="utf-8").read()
        t = re.sub("Rattle\u00b7(\\w+)[\u00b7.](specs|proofs)(?:\\.\\2)?", r"Rattle.\1.\2", old)
        # between backquotes any name, elsewhere those with a capital within
        t = re.sub(r"`[^`\n]*`", lambda q: "`" + re.sub(r"[\w'\u2032-]+", lambda m: names.get(m[0], m[0]), q[0][1:-1]) + "`", t)
        t = re.sub(r"(?<![\w`'-])[a-z]\w*[A-Z]\w*(?![\w`'-])", lambda m: names.get(m[0], m[0]), t)
        if t != old:
            open(f, "w", encoding="utf-8").write(t)
            turned += 1
    print(f"respell_papers: {len(names)} names, {turned} papers")


main()
