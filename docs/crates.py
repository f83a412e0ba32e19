#!/usr/bin/env python3
"""Prints the picture of the crates from crates.txt: a layer a paragraph, the lowest last, each crate with the crates of
this repository that it stands on. `docs/crates.py --write` puts it into docs/architecture.md, between the marks."""
import os, sys

HERE = os.path.dirname(os.path.abspath(__file__))
BEGIN, END = "<!-- crates: made by docs/crates.py -->", "<!-- crates: end -->"


def crates():
    below = {}
    with open(os.path.join(HERE, "..", "crates.txt")) as lines:
        for line in lines:
            line = line.split("#")[0].strip()
            if line:
                head, _, deps = line.partition(":")
                below[head.split()[0]] = deps.split()
    return {name: [d for d in deps if d in below] for name, deps in below.items()}


def picture():
    below = crates()
    level = {}

    def height(name):
        if name not in level:
            level[name] = 1 + max((height(d) for d in below[name]), default=-1)
        return level[name]

    for name in below:
        height(name)
    width = max(map(len, below))
    out = ["```"]
    for at in range(max(level.values()), -1, -1):
        for name in sorted(n for n in below if level[n] == at):
            # only the direct steps: a crate that is reached through another one is left out
            direct = [d for d in below[name] if not any(d in reach(below, o) for o in below[name] if o != d)]
            out.append(f"{at}  {name.ljust(width)}" + ("  stands on " + ", ".join(sorted(direct)) if direct else ""))
    out.append("```")
    return "\n".join(out)


def reach(below, name):
    seen = set()
    todo = list(below[name])
    while todo:
        d = todo.pop()
        if d not in seen:
            seen.add(d)
            todo += below[d]
    return seen


def page():
    path = os.path.join(HERE, "architecture.md")
    with open(path) as text:
        old = text.read()
    head, _, rest = old.partition(BEGIN)
    _, _, tail = rest.partition(END)
    return path, old, head + BEGIN + "\n" + picture() + "\n" + END + tail


if __name__ == "__main__":
    if sys.argv[1:] == ["--write"]:
        path, _, new = page()
        with open(path, "w") as text:
            text.write(new)
    elif sys.argv[1:] == ["--check"]:
        _, old, new = page()
        sys.exit(0 if old == new else "docs/architecture.md: the picture of the crates is out of date: docs/crates.py --write")
    else:
        print(picture())
