#!/usr/bin/env python3
"""Runs the built program on prims whose listing has as many nodes as there may be, 4,096, and on prims with one more.

    python3 tests/nodes.py [PROGRAM]
"""
import sys
import tempfile

from shared import run, write


def prims(name, count, arcs=""):
    return "".join(f'def "{name}{i}"{arcs} {{}}\n' for i in range(count))


def targets(name, count):
    return "[" + ", ".join(f"</{name}{i}>" for i in range(count)) + "]"


def wide(count):
    """`A` refers to so many prims."""
    return f'def "A" (references = {targets("p", count)}) {{}}\n' + prims("p", count)


def chain(count):
    """`A` inherits the first of so many classes, each of which inherits the next: with k of them 2 ^ k nodes."""
    text = 'def "A" (inherits = </c0>) {}\n'
    for i in range(count):
        text += f'class "c{i}"' + (f" (inherits = </c{i + 1}>)" if i + 1 < count else "") + " {}\n"
    return text


# `A` refers to 63 prims, each of which refers to the same 64, and `B` refers to `A`.
BUSHY = (f'def "B" (references = </A>) {{}}\ndef "A" (references = {targets("b", 63)}) {{}}\n'
         + prims("b", 63, f" (references = {targets('d', 64)})") + prims("d", 64))

# name, root layer, prim, number of its sites; none where it is overgrown
SCENES = [
    ("4,095 references", wide(4095), "/A", 4096),
    ("4,096 references", wide(4096), "/A", None),
    ("4,096 nodes of 128 sites", BUSHY, "/A", 128),
    ("4,097 nodes of 129 sites", BUSHY, "/B", None),
    ("a chain of 12 classes", chain(12), "/A", 13),
    ("a chain of 13 classes", chain(13), "/A", None),
]


def is_as_told(folder, text, prim, sites):
    write(folder, {"root": text})
    p = run(folder, ["session", "root.usda"], f"faults {prim}\nsites {prim}\n")
    faults = f"faults {prim}: 0\n" if sites else f"faults {prim}: 1\n  Overgrown\n"
    said = p.stdout.decode().partition("\n")[2]
    return p.returncode == 0 and said.startswith(faults + f"sites {prim}: {sites or 0}\n")


def main():
    wrong = 0
    with tempfile.TemporaryDirectory() as folder:
        for name, text, prim, sites in SCENES:
            if not is_as_told(folder, text, prim, sites):
                wrong += 1
                print(f"{name}: another answer")
    print(f"{len(SCENES) - wrong} as told, {wrong} not")
    sys.exit(1 if wrong else 0)


if __name__ == "__main__":
    main()
