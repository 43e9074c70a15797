#!/usr/bin/env python3
"""Respells the names of tools/respell.txt, which were written with dashes, in snake case (types in camel case).

Run once at the top of the repository, after port.py. It turns .rt files, .antt files and must-fail edits; comments stay.
"""
import os
import re
import sys

HERE = os.path.dirname(os.path.abspath(__file__))


def respelled(name):
    if name[0].isupper():
        return "".join(part[0].upper() + part[1:] for part in name.split("-"))
    return name.replace("-", "_")


def main(root):
    with open(os.path.join(HERE, "respell.txt"), encoding="utf-8") as f:
        names = {line.strip(): respelled(line.strip()) for line in f if line.strip()}
    token = re.compile(r"(?<![\w'-])[^\W\d][\w']*(?:-[\w']+)+(?![\w'-])")
    comment = {".antt": re.compile(r"(?:^|(?<=\s))--(?:\s|$)"), ".rt": re.compile(r"//"), ".edit": None}
    changed = 0
    for folder, dirs, files in os.walk(os.path.join(root, "crates")):
        dirs[:] = sorted(d for d in dirs if d != "out")
        for name in sorted(files):
            kind = os.path.splitext(name)[1]
            if kind not in comment:
                continue
            path = os.path.join(folder, name)
            with open(path, encoding="utf-8") as f:
                before = f.read()
            after = []
            for line in before.split("\n"):
                cut = comment[kind].search(line) if comment[kind] else None
                end = cut.start() if cut else len(line)
                code = token.sub(lambda m: names.get(m.group(0), m.group(0)), line[:end])
                after.append(code + line[end:])
            if "\n".join(after) != before:
                with open(path, "w", encoding="utf-8") as f:
                    f.write("\n".join(after))
                changed += 1
    print(f"respell: {len(names)} names, {changed} files")


main(sys.argv[1] if len(sys.argv) > 1 else ".")
