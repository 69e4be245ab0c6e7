#!/usr/bin/env python3
"""Times the program on worlds in which the index of one prim is large, or prims are deep, and prints a table.

    python3 bench/index.py [PROGRAM] [--only CASE ..] [--share N]

Each case is a session with an empty script: the world is opened, its stage is composed and published. What a prim refers to lies in a
layer of its own, so that it is no part of the stage, but for prims that refer to each other. Seconds are the processor's, and peak memory
is that of the process.
"""
from math import isqrt

from measure import Case, listed, main, nested, no_lines


def prims(name, count, arcs=""):
    return "".join(f'def "{name}{i}"{arcs} {{}}\n' for i in range(count))


def referring(targets, model):
    """A prim that refers to these prims of another layer."""
    return {"root": f'def "A" (references = {listed(f"@m.usda@</{name}>" for name in targets)}) {{}}\n', "m": model}


def in_a_row(name, first, last, layer=""):
    """Prims by number, each of which refers to the next; the layer's name may stand in each reference."""
    return "".join(f'def "{name}{i}" (references = {layer}</{name}{i + 1}>) {{}}\n' for i in range(first, last)) + f'def "{name}{last}" {{}}\n'


def chain(arcs):
    """A prim that begins a chain of so many references."""
    return referring(["c1"], in_a_row("c", 1, arcs))


def chains(count):
    """Prims each of which begins a chain of 64 references."""
    return {"root": prims("p", count, " (references = @m.usda@</c1>)"), "m": in_a_row("c", 1, 64)}


def following(count):
    """Prims of a stage, each of which refers to the next: of the chain that a prim begins 64 arcs are followed."""
    return {"root": in_a_row("p", 0, count - 1, "@root.usda@")}


def wide(count):
    """A prim with so many references."""
    return referring([f"p{i}" for i in range(count)], prims("p", count))


def bushy(nodes):
    """A prim with so many nodes, a square: it refers to some prims, each of which refers to the same others, one more."""
    first = max(isqrt(nodes) - 1, 1)
    below = listed(f"</d{j}>" for j in range(first + 1))
    return referring([f"b{i}" for i in range(first)], prims("b", first, f" (references = {below})") + prims("d", first + 1))


def classes(depth):
    """A prim that refers to one with so many classes, in chains of this depth: each is looked up in both layers. A chain of k classes
    has 2 ^ k - 1 nodes, since what a class inherits is a class of each node that inherits it: from 13 classes in a chain on the listing is
    given up as overgrown."""
    def made(count):
        heads = listed(f"</c{i}>" for i in range(0, count, depth))
        text = f'def "M" (inherits = {heads}) {{}}\n'
        for i in range(count):
            last = i + 1 == count or (i + 1) % depth == 0
            above = "" if last else f" (inherits = </c{i + 1}>)"
            text += f'class "c{i}"{above} {{ int x = {i} }}\n'
        return referring(["M"], text)
    return made


def sets(count):
    """A prim with so many variant sets, each of which is decided by the variant of the one before it."""
    names = listed(f'"s{i}"' for i in range(count))
    text = f'def "A" (variants = {{ string s0 = "x" }} variantSets = {names}) {{\n'
    for i in range(count):
        text += f'variantSet "s{i}" = {{ "x" (variants = {{ string s{i + 1} = "x" }}) {{ int v{i} = {i} }} }}\n'
    return {"root": text + "}\n"}


def chosen(count):
    """A prim with so many variant sets, of each of which it chooses the one variant."""
    choices = "".join(f'string s{i} = "v"\n' for i in range(count))
    names = listed(f'"s{i}"' for i in range(count))
    text = f'def "A" (variants = {{ {choices} }} variantSets = {names}) {{\n'
    return {"root": text + "".join(f'variantSet "s{i}" = {{ "v" {{}} }}\n' for i in range(count)) + "}\n"}


def unchosen(count):
    """A prim with so many variant sets, of each of which it chooses the empty variant, so that no variant is met."""
    choices = "".join(f'string s{i} = ""\n' for i in range(count))
    names = listed(f'"s{i}"' for i in range(count))
    return {"root": f'def "A" (variants = {{ {choices} }} variantSets = {names}) {{}}\n'}


def inside(count):
    """A prim with so many variant sets, each in the one variant of the one above it."""
    return {"root": 'def "A" {' + 'variantSet "s" = { "x" {' * count + "}}" * count + "}\n"}


def deep(depth):
    return {"root": nested(depth)}


def below_reference(depth):
    """A prim that refers to one with so many prims below each other."""
    return referring(["n0"], nested(depth))


CASES = [
    Case("chain", "references in a chain", (16, 64), chain, no_lines),
    Case("chains", "prims with a chain of 64 references", (250, 1_000), chains, no_lines),
    Case("following", "prims, each refers to the next", (2_500, 10_000), following, no_lines),
    Case("wide", "references of one prim", (1_023, 4_095), wide, no_lines),
    Case("nodes", "nodes of one prim, most of them repeated", (1_024, 4_096), bushy, no_lines),
    Case("classes", "classes, each alone", (50, 200), classes(1), no_lines),
    Case("classes", "classes in chains of 4", (50, 200), classes(4), no_lines),
    Case("classes", "classes in chains of 30, overgrown", (50, 200), classes(30), no_lines),
    Case("sets", "variant sets, one a round", (7, 30), sets, no_lines),
    Case("chosen", "variant sets, all chosen at once", (500, 2_000), chosen, no_lines),
    Case("unchosen", "variant sets, each the empty variant", (4_000, 16_000, 64_000), unchosen, no_lines),
    Case("inside", "variant sets, each in a variant of the one above", (200, 800), inside, no_lines),
    Case("nested", "nested prims, opened", (16, 32, 63), deep, no_lines),
    Case("below", "nested prims below a reference", (16, 32, 63), below_reference, no_lines),
]

if __name__ == "__main__":
    main(CASES)
