#!/usr/bin/env python3
"""Times `usdstage flatten` on large stages, and prints a table.

    python3 bench/flatten.py [PROGRAM] [--only CASE ..] [--share N]

Each input is made in a temporary folder. Seconds are the processor's, and peak memory is that of the process. Four times the prims
should take little more than four times the time.
"""
from measure import Case, main, nested, share, tree


def wide(children):
    """One owner with this many children."""
    return 'def "owner" {\n' + "".join(f'def "c{i}" {{ int v = {i} }}\n' for i in range(children)) + "}\n"


def classes(prims):
    """A tree of prims, a quarter of which inherit from one of eight classes."""
    def prim(i):
        arcs = f" (inherits = </ck{i // 4 % 8}>)" if i % 4 == 0 else ""
        return f'def "p{i}"{arcs} {{ int a = {i % 1000}\n'

    return "".join(f'class "ck{k}" {{ int v = {k} }}\n' for k in range(8)) + tree(prims, prim)


def arrays(size):
    """Arrays of numbers, a million bytes each, up to about this many bytes."""
    row = "[" + ", ".join(f"{i}.5" for i in range(share(130_000))) + "]"
    body = "".join(f"    double[] values_{i} = {row}\n" for i in range(size // len(row)))
    return 'def "A" {\n' + body + "}\n"


def long_text(size):
    """Attributes and comments up to about this many bytes, in few prims."""
    out, length, prim = [], 10, 0
    while length < size:
        part = [f'def Xform "prim_{prim}" {{ # a comment that the reader passes over\n']
        part += [f"    int attribute_number_{i} = {i}\n" for i in range(share(1000))]
        part.append("}\n")
        text = "".join(part)
        out.append(text)
        length += len(text)
        prim += 1
    return "".join(out)


def alone(text):
    """The layers of a case that has a root layer alone."""
    return lambda size: {"root": text(size)}


CASES = [
    Case("classes", "prims in a tree with 8 classes", (20_000, 80_000), alone(classes)),
    Case("classes", "prims in a tree with 8 classes", (32_768, 131_072), alone(classes)),
    Case("tree", "prims in a tree", (20_000, 80_000), alone(tree)),
    Case("wide", "children of one owner", (20_000, 80_000), alone(wide)),
    Case("arrays", "bytes of arrays", (15_000_000, 60_000_000), alone(arrays)),
    Case("nested", "nested prims", (16, 64), alone(lambda size: nested(size, "int level = 1"))),
    Case("text", "bytes of text in few prims", (60_000_000,), alone(long_text)),
]

if __name__ == "__main__":
    main(CASES)
