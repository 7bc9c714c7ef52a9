#!/usr/bin/env python3
"""Turns the names in must-fail edits as tools/respell.py turned them, and lists the edits whose old text no longer stands once in its file.

usage: tools/turn_edits.py TABLE     TABLE: what `tools/respell.py --list` printed before it ran"""

import glob
import os
import sys

HERE = os.path.dirname(os.path.realpath(__file__))
scope = {"__name__": "respell"}
exec(open(os.path.join(HERE, "respell.py")).read().rsplit("\nmain()", 1)[0], scope)


def known():
    """The names in snake case that the repository has now: the kit's port turned some itself."""
    out = set()
    for path in scope["files"](".antt"):
        out.update(scope["declared"](scope["read"](path)))
    return out


def main():
    table = dict(line.split() for line in open(sys.argv[1]))
    now = known()
    bad = 0
    for path in sorted(glob.glob("crates/*/must-fail/*.edit")):
        crate = path.split("/")[1]
        lines, target, out = open(path).read().split("\n"), None, []
        for line in lines:
            if line.startswith("file: "):
                target = open(os.path.join("crates", crate, line[6:].strip())).read()
            if line.startswith(("old: ", "new: ")):
                line = line[:5] + scope["turn"](line[5:], table, scope["parts_antt"])
                for word in set(scope["TOKEN"].findall(line[5:])):
                    to = scope["turned"](word)
                    if to and to in now and word not in now:
                        line = line[:5] + scope["turn"](line[5:], {word: to}, scope["parts_antt"])
                if line.startswith("old: ") and target is not None:
                    n = target.count(line[5:])
                    if n != 1 and not any(l.startswith("old: ") for l in out):
                        bad += 1
                        print(f"{path}: {n} times: {line[5:]}")
            out.append(line)
        new = "\n".join(out)
        if new != "\n".join(lines):
            open(path, "w").write(new)
    print(f"{bad} edits whose text does not stand once")


main()
