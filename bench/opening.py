#!/usr/bin/env python3
"""Times how worlds of many layers are opened by the built program, and prints a table.

    python3 bench/opening.py [PROGRAM] [--only CASE ..] [--share N]

Each case is a root with so many layers, as files in a folder of their own, which `usdstage session` opens, composes and publishes
before it reads its empty script. Where the layers are named only by deleted references nothing is composed of them, so that the time
is that of the opening and of one small prim for each name; the cases `sublayers`, `layered` and `references` compose what they open.
Seconds are the processor's, and peak memory is that of the process. Four times the layers should take little more than four times the
time; where each of them brings a prim (`layered`) they take the square of that, as each prim is composed from all of them.
"""
from measure import Case, listed, main, no_lines


def name(i):
    return f"layers/l{i:04}"


def named(i):
    return f"@{name(i)}.usda@"


def small(i):
    """A layer of one prim."""
    return f'def Xform "p{i}" {{ int a = {i} }}\n'


def deletions(count):
    """A prim for each layer, which deletes a reference to it."""
    return "".join(f'over "r{i}" (delete references = {named(i)}) {{}}\n' for i in range(count))


def sublayers(count):
    """Layers without prims: a stage composes each of its prims from all layers of the root's stack."""
    return {"root": f"(subLayers = {listed(map(named, range(count)))})\n", **{name(i): f'(doc = "layer {i}")\n' for i in range(count)}}


def layered(count):
    """Layers of one prim each: a stage has as many prims as layers, and composes each prim from all of them."""
    return {"root": f"(subLayers = {listed(map(named, range(count)))})\n", **{name(i): small(i) for i in range(count)}}


def references(count):
    """A prim for each layer, which references the layer's prim."""
    prims = "".join(f'def "r{i}" (references = {named(i)}</p{i}>) {{}}\n' for i in range(count))
    return {"root": prims, **{name(i): small(i) for i in range(count)}}


def deleted(count):
    return {"root": deletions(count), **{name(i): small(i) for i in range(count)}}


def chain(count):
    """Each layer names the next one."""
    layers = {name(i): f'over "p" (delete payload = @l{i + 1:04}.usda@) {{}}\n' for i in range(count - 1)}
    return {"root": f'over "p" (delete payload = {named(0)}) {{}}\n', **layers, name(count - 1): small(0)}


def crossed(count):
    """Each layer names fifty others, which others name too."""
    layers = {"root": deletions(count)}
    for i in range(count):
        others = listed(f"@l{(i + 67 * k) % count:04}.usda@" for k in range(50))
        layers[name(i)] = f'over "p" (delete references = {others}) {{}}\n'
    return layers


def absent(count):
    """Names without files."""
    return {"root": deletions(count)}


def large(count):
    """Layers of some 130 KB."""
    body = "".join(f'def Xform "p{i}" {{ int a = {i} double b = {i}.5 }}\n' for i in range(2600))
    return {"root": deletions(count), **{name(i): body for i in range(count)}}


CASES = [
    Case("deleted", "layers of deleted references", (1_000, 4_000), deleted, no_lines),
    Case("chain", "layers, each named by the one before", (1_000, 4_000), chain, no_lines),
    Case("crossed", "layers that name fifty others each", (1_000, 4_000), crossed, no_lines),
    Case("absent", "names without files", (1_000, 4_000), absent, no_lines),
    Case("sublayers", "sublayers without prims", (1_000, 4_000), sublayers, no_lines),
    Case("layered", "sublayers with one prim each", (250, 1_000), layered, no_lines),
    Case("references", "layers that are referenced", (1_000, 4_000), references, no_lines),
    Case("large", "layers of 130 KB", (25, 100), large, no_lines),
]

if __name__ == "__main__":
    main(CASES)
