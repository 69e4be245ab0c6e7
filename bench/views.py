#!/usr/bin/env python3
"""Times what the built program composes and answers, on large prims and stages, and prints a table.

    python3 bench/views.py [PROGRAM] [--only CASE ..] [--share N]

Each case is made in a temporary folder, once and four times as large. Seconds are the processor's. What is not measured, as the reading
of the same layers, is run alone and taken off: a prim that is not active keeps what it holds from being composed, and its layers are
still opened. Of layers that say nothing of a prim (`overs`) the same layers without a word of it are taken off. Peak memory is that of the
whole run.
"""
from measure import Case, listed, main, nested, path_in_tree, share, tree, unasked


LARGE = 131_072


def sites(count):
    """A prim that references so many prims, each with one of a thousand properties."""
    own = "".join(f'def "r{i}" {{ int p{i % 1000} = {i} }}\n' for i in range(count))
    targets = listed(f"</R/r{i}>" for i in range(count))
    return {"root": f'def "R" (active = false) {{ {own} }}\ndef "A" (references = {targets}) {{}}\n'}


def properties(count):
    """A prim with a thousand sites, each of which says something of so many of the same properties."""
    own = "".join(f"int p{i}\n" for i in range(count))
    body = "".join(f'def "r{i}" {{ {own} }}\n' for i in range(share(1000)))
    targets = listed(f"</R/r{i}>" for i in range(share(1000)))
    return {"root": f'def "R" (active = false) {{ {body} }}\ndef "A" (references = {targets}) {{}}\n'}


def samples(count):
    """An attribute with so many samples, below an offset."""
    times = ", ".join(f"{i}: {i % 100}" for i in range(count))
    return {"root": '(subLayers = [@s.usda@ (offset = 10; scale = 2)])\n',
            "s": f'def "A" {{ int x.timeSamples = {{ {times} }} }}\n'}


def ten_layers(layer):
    """A root layer with nine sublayers, each of ten with a part of its own."""
    made = {f"s{i}": layer(i) for i in range(1, 10)}
    made["root"] = f"(subLayers = {listed(f'@{name}.usda@' for name in made)})\n" + layer(0)
    return made


def children(count):
    """Children of so many names in ten layers: a tenth in each, and a tenth of these in all."""
    def layer(i):
        shared = "".join(f'over "c{k}" {{}}\n' for k in range(count // 100))
        own = "".join(f'def "c{i}_{k}" {{}}\n' for k in range(count // 10 - count // 100))
        return f'def "A" {{ {shared}{own} }}\n'
    return ten_layers(layer)


def overs(weakest):
    """So many layers that say nothing of a prim but that it is there, over one that says this of it."""
    def made(count):
        names = [f"s{i}" for i in range(count)]
        layers = {name: 'over "A" {}\n' for name in names}
        layers["root"] = f'(subLayers = {listed(f"@{name}.usda@" for name in names + ["w"])})\n'
        layers["w"] = f'def "A" {{ {weakest} }}\n'
        return layers
    return made


def silent(layers, script):
    """The same layers, of which the weakest alone speaks of the prim."""
    return {name: "" if text.startswith("over") else text for name, text in layers.items()}, script


def dictionaries(count):
    """Dictionaries of so many keys in ten layers: half of the keys stand in all."""
    def layer(i):
        shared = "".join(f"int k{k} = {i}\n" for k in range(count // 2))
        own = "".join(f"int k{i}_{k} = {k}\n" for k in range(count - count // 2))
        return f'def "A" (customData = {{ {shared}{own} }}) {{}}\n'
    return ten_layers(layer)


def a_tree(prims):
    return {"root": tree(prims)}


def large_tree(_count):
    return {"root": tree(share(LARGE))}


def a_nest(count):
    """Prims inside each other: `unseen` puts one around them, and a layer has at most 64 levels."""
    return {"root": nested(count)}


def many_properties(count):
    return {"root": 'def "A" {\n' + "".join(f"int p{i} = {i}\n" for i in range(count)) + "}\n"}


def unseen(layers, script):
    """The same layers, of which no prim is composed: what is in them stands below a prim that is not active."""
    body = layers["root"]
    head = ""
    if body.startswith("("):
        end = body.index(")\n") + 2
        inner = body[:end].strip()[1:-1].replace("subLayers = ", "references = ")
        refs = inner.replace(".usda@", ".usda@</A>")
        head = f'def "K" ({refs}) {{}}\n'
        body = body[end:]
    return {**layers, "root": f'def "Q" (active = false) {{ {head}{body} }}\n'}, script


def questions(count, line):
    return "".join(line(i) for i in range(count))


def spread(i):
    """The prims of a tree in an order that jumps."""
    return i * 7919 % share(LARGE)


CASES = [
    Case("sites", "sites of one prim", (250, 1_000), sites, None, unseen),
    Case("properties", "properties at 1,000 sites", (50, 200), properties, None, unseen),
    Case("samples", "samples below an offset", (250_000, 1_000_000), samples, None, unseen),
    Case("children", "children in ten layers", (50_000, 200_000), children, None, unseen),
    Case("overs", "layers that say nothing of 4,000 properties", (64, 256), overs("".join(f"int p{i}\n" for i in range(4000))), None, silent),
    Case("overs", "layers that say nothing of 2,000 children", (64, 256), overs("".join(f'def "c{i}" {{}}\n' for i in range(2000))), None, silent),
    Case("dictionaries", "keys of dictionaries in ten layers", (2_500, 10_000), dictionaries, None, unseen),
    Case("tree", "prims in a tree, composed", (32_768, 131_072), a_tree, None, unseen),
    Case("nested", "nested prims, composed", (16, 63), a_nest, None, unseen),
    Case("questions", "questions on 131,072 prims", (25_000, 100_000), large_tree,
         lambda n: questions(n, lambda i: f"default {path_in_tree(spread(i))}.a\n"), unasked),
    Case("places", "prims, 25,000 questions", (32_768, 131_072), a_tree,
         lambda n: questions(25_000, lambda i: f"default {path_in_tree(spread(i) % n)}.a\n"), unasked),
    Case("names", "properties, 10,000 questions", (1_000, 4_000), many_properties,
         lambda n: questions(10_000, lambda i: f"default /A.p{i * 7919 % n}\n"), unasked),
    Case("times", "samples, 1,000 questions", (250_000, 1_000_000), samples,
         lambda n: questions(1_000, lambda i: f"value /A.x {i * 7919 % n * 2}\n"), unasked),
]

if __name__ == "__main__":
    main(CASES)
